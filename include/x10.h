/* x10.h: the exported routines of the static library x10.
 *
 * The library is target/staticlib/libx10.a, which `tools/archive` builds for x86-64 Linux. This
 * header is kept by hand; docs/LINKING.md shows a program that uses it.
 *
 * A slice is a pointer and then its length in bytes. Every routine takes any numbers and any slices,
 * also of length 0, always returns, keeps nothing between calls, and reads and writes nothing but the
 * slices it was lent. The caller sees to three things: a pointer is not null, also where the length
 * is 0; that many bytes may be read there, and written where the pointer is not const; and no slice
 * that is written overlaps another of the same call.
 *
 * The answer is one number of 64 bits. Bits 0 to 7 are the number given back (x10_number): 0, or the
 * number of the refusal, the first that applies in the order written at the routine. Bits 8 and up are
 * the count (x10_count). A refusal has count 0 and changes nothing that was lent.
 *
 * The routines on the two tables (x10_apply, x10_radio_route, x10_mains_route) have two counts: of
 * modules whose level differs, in bits 8 to 23 (x10_modules), and of shutters whose opening differs, in
 * bits 24 to 39 (x10_shutters); x10_count would give both as one number. Bits 40 to 55 are kept for a
 * reply, command and then data: they are 0 until a later version uses them, and so are bits 56 to 63. */

#ifndef X10_H
#define X10_H

#include <stddef.h>
#include <stdint.h>

#ifdef __cplusplus
extern "C" {
#endif

/* The version of this header and of the library: major * 10,000 + minor * 100 + patch. While the
 * major number is 0, a minor version may change what is exported. */
#define X10_VERSION 1500
#define X10_VERSION_TEXT "0.15.0"

/* Numbers given back: 0, those of refusals, and of the two BROKEN events. */
enum x10_result {
    X10_OK = 0,
    X10_TABLE = 1,         /* the module table's length is not 3,104 */
    X10_MESSAGE = 2,       /* a house or unit above 15, a kind or function code that makes no message */
    X10_RECORD = 3,        /* the module table breaks a rule */
    X10_NOT_CARRIED = 4,   /* a message that tables do not carry */
    X10_HALF = 5,          /* a half-cycle that is not 0 or 1 */
    X10_STATE = 6,         /* no receiver or station, or an impossible one; no bench of 1 to 16 */
    X10_DRAW = 7,          /* a draw that is not 8, 9 or 10, or not a draw for each */
    X10_BUSY = 8,          /* the station to be loaded holds a message */
    X10_SHORT = 9,         /* a lent buffer has not the length that is asked for */
    X10_PAIR = 10,         /* an event: both half-cycles of a pair were equal */
    X10_UNSUPPORTED = 11,  /* an event: code 10, 11 or 12 with function bit 1 */
    X10_RF_LENGTH = 12,    /* a radio code has not four bytes */
    X10_RF_COMPLEMENT = 13,/* a pair of radio bytes is not complementary */
    X10_RF_CODE = 14,      /* none of the 544 radio codes */
    X10_FAULT = 15,        /* a station sent 1 and heard 0 */
    X10_SHUTTER_TABLE = 16,/* the shutter table's length is not 5,120 */
    X10_SHUTTER_RECORD = 17,/* the shutter table breaks a rule */
    X10_OPENING = 18       /* command 01, 02, 03 or 07 with an opening or limit of 26 to 31 */
};

static inline uint8_t x10_number(uint64_t answer) { return (uint8_t)answer; }
static inline uint64_t x10_count(uint64_t answer) { return answer >> 8; }
static inline uint16_t x10_modules(uint64_t answer) { return (uint16_t)(answer >> 8); }
static inline uint16_t x10_shutters(uint64_t answer) { return (uint16_t)(answer >> 24); }

/* What a number given back says, in words; "" for a number that is none. */
static inline const char *x10_text(uint8_t number)
{
    switch (number) {
    case X10_OK: return "done";
    case X10_TABLE: return "TABLE: the module table's length is not 3,104";
    case X10_MESSAGE: return "MESSAGE: house or unit above 15, or no message";
    case X10_RECORD: return "RECORD: the module table breaks a rule";
    case X10_NOT_CARRIED: return "NOT CARRIED: tables do not carry this message";
    case X10_HALF: return "HALF: a half-cycle that is not 0 or 1";
    case X10_STATE: return "STATE: no receiver, station or bench, or an impossible one";
    case X10_DRAW: return "DRAW: a draw that is not 8 to 10, or not one for each";
    case X10_BUSY: return "BUSY: the station holds a message";
    case X10_SHORT: return "SHORT: a buffer is too short";
    case X10_PAIR: return "PAIR: both half-cycles of a pair are equal";
    case X10_UNSUPPORTED: return "UNSUPPORTED: code 10, 11 or 12";
    case X10_RF_LENGTH: return "RF LENGTH: a radio code has four bytes";
    case X10_RF_COMPLEMENT: return "RF COMPLEMENT: a pair of radio bytes is not complementary";
    case X10_RF_CODE: return "RF CODE: none of the 544 radio codes";
    case X10_FAULT: return "FAULT: sent 1, heard 0";
    case X10_SHUTTER_TABLE: return "SHUTTER TABLE: the shutter table's length is not 5,120";
    case X10_SHUTTER_RECORD: return "SHUTTER RECORD: the shutter table breaks a rule";
    case X10_OPENING: return "OPENING: an opening above 25";
    default: return "";
    }
}

/* A message is five numbers: its kind; its house, 0 to 15; a third number, which is the unit, 0 to 15,
 * of an address or an extended message, and the four-bit code of a function; data and command, which
 * are looked at in an extended message only. In lent memory it is these five bytes; what a routine
 * writes there has 0 for the data and command that a message does not have. A message that a receiver
 * or a station keeps must be as a routine writes it: another is refused 6. */
enum x10_kind { X10_ADDRESS = 1, X10_FUNCTION = 2, X10_EXTENDED = 3 };

enum x10_function {
    X10_ALL_UNITS_OFF = 0,
    X10_ALL_LIGHTS_ON = 1,
    X10_ON = 2,
    X10_OFF = 3,
    X10_DIM = 4,
    X10_BRIGHT = 5,
    X10_ALL_LIGHTS_OFF = 6,
    X10_HAIL_REQUEST = 8,
    X10_HAIL_ACKNOWLEDGE = 9,
    X10_STATUS_ON = 13,
    X10_STATUS_OFF = 14,
    X10_STATUS_REQUEST = 15
};

/* The name of a function by its code; "" for a code that is none of the twelve. */
static inline const char *x10_function_name(uint8_t code)
{
    switch (code) {
    case X10_ALL_UNITS_OFF: return "ALL UNITS OFF";
    case X10_ALL_LIGHTS_ON: return "ALL LIGHTS ON";
    case X10_ON: return "ON";
    case X10_OFF: return "OFF";
    case X10_DIM: return "DIM";
    case X10_BRIGHT: return "BRIGHT";
    case X10_ALL_LIGHTS_OFF: return "ALL LIGHTS OFF";
    case X10_HAIL_REQUEST: return "HAIL REQUEST";
    case X10_HAIL_ACKNOWLEDGE: return "HAIL ACKNOWLEDGE";
    case X10_STATUS_ON: return "STATUS ON";
    case X10_STATUS_OFF: return "STATUS OFF";
    case X10_STATUS_REQUEST: return "STATUS REQUEST";
    default: return "";
    }
}

#define X10_MESSAGE_BYTES 5
#define X10_LONGEST_BURST 124
#define X10_RECEIVER_BYTES 13
#define X10_STATION_BYTES 8
#define X10_EVENT_BYTES 6
#define X10_ANSWER_BYTES 8
#define X10_TABLE_BYTES 3104
#define X10_SHUTTER_TABLE_BYTES 5120
#define X10_MOST_STATIONS 16

/* Writes the burst of a message, one byte of 0 or 1 for each half-cycle, at the front of buf; bytes
 * beyond it stay. Count: half-cycles written, 44 or 124. Refusals: 2, 9. */
uint64_t x10_burst(uint8_t kind, uint8_t house, uint8_t third, uint8_t data, uint8_t command,
                   uint8_t *buf, size_t len);

/* A receiver is 13 bytes: the last six half-cycles as one number; the place in its frame of the
 * half-cycle to come, 0 while hunting; the bits read so far in four bytes, highest first; the message
 * given before, five zeros where there is none; where the next half-cycle stands counted from the start
 * of a frame that broke, and the place at which a start is then waited for, 0 and 0 where none is.
 * docs/receiver.md says which values they take.
 *
 * Makes these bytes a receiver that hunts and has received nothing. Count 0. Refusal: 6, where len is
 * not 13. */
uint64_t x10_receiver_fresh(uint8_t *state, size_t len);

/* The first byte of an event. It is 5 for a half-cycle that is not 0 or 1, which leaves the receiver
 * as it was, and 10 or 11 for a broken frame. */
enum x10_event { X10_NOTHING = 0, X10_GIVEN = 1, X10_REPEAT = 2 };

/* Hands the receiver n half-cycles, one after the other. Event i is the six bytes at events + 6 * i:
 * what happened, and the message given, five zeros where there is none. Bytes beyond 6 * n stay.
 * Count: n. Refusals: 6, where state_len is not 13, or the bytes are no receiver or an impossible one
 * (docs/receiver.md); 9, where events_len is below 6 * n. A half-cycle that is not 0 or 1 is no refusal
 * of the call: its event is 5, the receiver stays, and the next half-cycle follows. */
uint64_t x10_receive(uint8_t *state, size_t state_len, const uint8_t *halves, size_t n,
                     uint8_t *events, size_t events_len);

enum x10_radio { X10_RADIO_ON = 0, X10_RADIO_OFF = 1, X10_RADIO_BRIGHT = 2, X10_RADIO_DIM = 3 };

/* Writes the four radio bytes of a command at the front of out; bytes beyond them stay. The unit is
 * looked at for on and off only. Count: 4. Refusals: 2, also for a command that is none of the four;
 * 9, where len is below 4. */
uint64_t x10_radio_write(uint8_t command, uint8_t house, uint8_t unit, uint8_t *out, size_t len);

/* Reads a radio code: command, house and unit, 0 for bright and dim, are the three bytes at the front
 * of out; bytes beyond them stay. Count: 3. Refusals: 9, where out_len is below 3; 12, 13, 14. */
uint64_t x10_radio_read(const uint8_t *code, size_t code_len, uint8_t *out, size_t out_len);

/* A module table is 3,104 bytes: 256 records of 12 in order A1 to P16, then one "command heard" byte for
 * each house, then one byte for each house with the number of its modules above level 0, lamps and
 * appliances, which the routines keep. docs/TABLE.md says which values they take; all zeros is a table
 * with no module. A caller who writes levels into a table writes that byte to match. */
#define X10_RECORD_BYTES 12
#define X10_HEARD_AT 3072
#define X10_LIT_AT 3088

/* A record's bytes: its kind; level 0 to 63; addressed 0 or 1; its groups, bit g for group g; four
 * presets, group 0 first; four references, group 0 first. The reference of a group that the module is a
 * member of is 0 to 15, or X10_ABSOLUTE; of one that it is no member of, 0. */
enum x10_record {
    X10_KIND_AT = 0,
    X10_LEVEL_AT = 1,
    X10_ADDRESSED_AT = 2,
    X10_GROUPS_AT = 3,
    X10_PRESETS_AT = 4,
    X10_REFERENCES_AT = 8
};

/* The reference of an absolute member: each execution, off or step of its group reaches it. A member with
 * a reference of 0 to 15 is reached only by those that are relative to that reference. */
#define X10_ABSOLUTE 16

enum x10_module { X10_NO_MODULE = 0, X10_LAMP = 1, X10_APPLIANCE = 2 };

/* Where the record of a house and unit, both 0 to 15, begins. */
static inline size_t x10_record_at(uint8_t house, uint8_t unit)
{
    return ((size_t)house * 16 + unit) * X10_RECORD_BYTES;
}

/* A shutter table is 5,120 bytes: 256 shutters of 20 in order A1 to P16. docs/TABLE.md says which values
 * they take; all zeros is a table with no shutter. */
#define X10_SHUTTER_BYTES 20

/* A shutter's bytes: present 0 or 1; opening 0 (closed) to 25 (open); limit 0 to 25; sun protection 0 or
 * 1; for each of the eight lifestyles whether it is included, 0 or 1, Wake first; and for each its
 * opening there, 0 where it is not included. */
enum x10_shutter {
    X10_PRESENT_AT = 0,
    X10_OPENING_AT = 1,
    X10_LIMIT_AT = 2,
    X10_PROTECTION_AT = 3,
    X10_INCLUDED_AT = 4,
    X10_OPENINGS_AT = 12
};

enum x10_lifestyle {
    X10_WAKE = 0,
    X10_LEAVE = 1,
    X10_RETURN = 2,
    X10_SLEEP = 3,
    X10_EVENING = 4,
    X10_VACATION = 5,
    X10_SPECIAL_1 = 6,
    X10_SPECIAL_2 = 7
};

/* Where the bytes of the shutter of a house and unit, both 0 to 15, begin. */
static inline size_t x10_shutter_at(uint8_t house, uint8_t unit)
{
    return ((size_t)house * 16 + unit) * X10_SHUTTER_BYTES;
}

/* Applies a message to a module table and a shutter table. An extended message of type 0 (command 00 to
 * 0F) is for shutters and leaves the module table as it is; every other message leaves the shutters.
 * Counts: records whose level differs, and shutters whose opening differs, before and after.
 * Refusals, in this order: 1, 16, 2, 3, 17, 4, 18. */
uint64_t x10_apply(uint8_t *table, size_t len, uint8_t *shutters, size_t shutters_len, uint8_t kind,
                   uint8_t house, uint8_t third, uint8_t data, uint8_t command);

/* How many modules of a house are above level 0: the count, 0 to 16. It is the table's byte at
 * X10_LIT_AT + house, and nothing else of the table is looked at: one that breaks other rules, or whose
 * byte is not the count of those modules, is answered all the same, while x10_apply refuses it by 3.
 * Refusals: 1; 2, for a house above 15; 3, where that byte is above 16. */
uint64_t x10_lit(const uint8_t *table, size_t len, uint8_t house);

/* A station is 8 bytes: the message that it holds, five zeros where it is empty; the wait drawn, 8 to
 * 10; its count of clear half-cycles in a row; how many half-cycles of its burst it has sent. Bytes
 * that hold no station, or an impossible one, are refused 6. An empty station's last three bytes are
 * 8, 0, 0. Of one that holds a message the count is at most the wait, and the place below 44, or below
 * 124 for an extended message, and above 0 only where the count is the wait.
 *
 * A keypad makes its station empty once and loads it at a press. Then in each half-cycle it asks what
 * the station sends, puts that on the mains, hears what the line has, and tells the station; a draw,
 * 8, 9 or 10 by chance, comes with each call. The station waits for a clear line, gives way to others
 * and sends again, until a half-cycle's count is 1: its burst is out, and it is empty again.
 *
 * Makes these bytes an empty station. Count 0. Refusal: 6, where len is not 8. */
uint64_t x10_station_empty(uint8_t *station, size_t len);

/* Loads a message. Count 0. Refusals: 2; 6; 7; 8, where the station holds a message. */
uint64_t x10_station_load(uint8_t *station, size_t len, uint8_t kind, uint8_t house, uint8_t third,
                          uint8_t data, uint8_t command, uint8_t draw);

/* What the station sends in this half-cycle: the count, 0 or 1. Refusal: 6. */
uint64_t x10_station_sends(const uint8_t *station, size_t len);

/* One half-cycle of the station, with what the line had in it and a draw, which is judged also where
 * it is not used. Count: 1 where the burst's last half-cycle was sent, else 0. Refusals: 5, 6, 7; 15,
 * where it sent 1 and heard 0, which leaves it as it was. */
uint64_t x10_station_half_cycle(uint8_t *station, size_t len, uint8_t heard, uint8_t draw);

/* Runs a bench of n stations. Station i is loaded with the message at messages + 5 * i and the draw
 * loads[i]. Then the bench is called once for each byte of lines: call j takes the n draws at
 * draws + n * j and sets lines[j] to the line's half-cycle, or to 7 where a draw of it is refused, and
 * marks[2 * j] * 256 + marks[2 * j + 1] to the stations that are done in it, station i in bit i; bytes
 * of marks beyond 2 * l_len stay. Count: calls not refused. Refusals of the whole: 2, where any whole
 * five bytes of messages are no message; 6, where n is 0 or above 16 or m_len is not 5 * n; 7, for a
 * draw of loads, or where d_len is not n * l_len; 9, where k_len is below 2 * l_len. */
uint64_t x10_bench_run(const uint8_t *messages, size_t m_len, const uint8_t *loads, size_t n,
                       const uint8_t *draws, size_t d_len, uint8_t *lines, size_t l_len,
                       uint8_t *marks, size_t k_len);

/* Applies what a radio code means to both tables: both messages of on and off, or none. Counts: as
 * x10_apply has them, before and after the whole. Refusals, in this order: 1, 16, 3, 17, 12, 13, 14. */
uint64_t x10_radio_route(uint8_t *table, size_t len, uint8_t *shutters, size_t shutters_len,
                         const uint8_t *code, size_t code_len);

/* Hands the receiver n half-cycles, one after the other, and applies each message that it gives to both
 * tables before the next half-cycle. Events are as x10_receive leaves them. Beside event i, the eight
 * bytes at answers + 8 * i are what the tables answered to the message given: an answer as x10_apply
 * gives it (0, or 4 for a message that tables do not carry, or 18 for an opening above 25, and both
 * counts), its lowest byte first (x10_answer_at); 0 where no message was given. Bytes beyond 6 * n and
 * 8 * n stay. The call's own number is 0 also where the tables answered 4 or 18: the receiver goes on,
 * and the tables stay as they were. Counts: as x10_apply has them, before and after the whole call.
 * Refusals, in this order: 1, 16, 3, 17; 6, as x10_receive gives it; 9, where events_len is below 6 * n
 * or answers_len below 8 * n. */
uint64_t x10_mains_route(uint8_t *state, size_t state_len, const uint8_t *halves, size_t n,
                         uint8_t *table, size_t len, uint8_t *shutters, size_t shutters_len,
                         uint8_t *events, size_t events_len, uint8_t *answers, size_t answers_len);

/* Answer i of x10_mains_route as one number. */
static inline uint64_t x10_answer_at(const uint8_t *answers, size_t i)
{
    uint64_t answer = 0;
    for (size_t k = 8; k > 0; k--) answer = answer << 8 | answers[8 * i + k - 1];
    return answer;
}

#ifdef __cplusplus
}
#endif

#endif
