//! The static library `x10` for Rust programs: a safe function for each of its fourteen routines.
//!
//! The library is target/staticlib/libx10.a, which `tools/archive` builds. A package that depends
//! on this one by path is linked with it.
//!
//! The routines take any numbers and any slices, empty ones too, always end, and keep nothing between
//! calls. The answer's number is 0, or that of the refusal, the first that applies; each function
//! lists those it can give in their order. A refusal has count 0 and changes nothing that was lent.
//! include/x10.h says it in full.
//!
//! The functions test nothing: the pointer and the length of a slice are right, and slices that are
//! lent to be changed do not overlap, by Rust's own rules.
//!
//! ```
//! use x10::{Answer, Event, Message};
//!
//! // "House A, all lights on" as half-cycles of the mains, after three clear ones.
//! let on = Message::function(0, x10::function::ALL_LIGHTS_ON);
//! let mut line = [0; 3 + x10::LONGEST_BURST];
//! let n = 3 + x10::burst(on, &mut line[3..]).count() as usize;
//! assert_eq!(n, 47);
//!
//! // A table with one module, A1, a dark lamp, and one with no shutter; a receiver hears the line for
//! // them.
//! let mut table = [0; x10::TABLE_BYTES];
//! table[0] = 1;
//! let mut shutters = [0; x10::SHUTTER_TABLE_BYTES];
//! let mut receiver = [0; x10::RECEIVER_BYTES];
//! x10::receiver_fresh(&mut receiver);
//! let mut events = [0; 47 * x10::EVENT_BYTES];
//! let mut answers = [0; 47 * x10::ANSWER_BYTES];
//! let answer =
//!     x10::mains_route(&mut receiver, &line[..n], &mut table, &mut shutters, &mut events, &mut answers);
//! assert_eq!((answer.number(), answer.modules(), answer.shutters()), (x10::number::OK, 1, 0));
//! assert_eq!(table[1], 63);
//! // One module of house A is lit now.
//! assert_eq!(x10::lit(&table, 0).count(), 1);
//!
//! // The message came with the frame's last half-cycle, and its repeat with the burst's.
//! assert_eq!(Event::at(&events, 24).message(), Some(on));
//! assert_eq!(Answer::at(&answers, 24).modules(), 1);
//! assert_eq!(Event::at(&events, 46).code(), x10::event::REPEAT);
//!
//! // A shutter at P16, closed: command 05 opens those of every house.
//! let p16 = x10::shutter_at(15, 15);
//! shutters[p16 + x10::shutter::PRESENT] = 1;
//! let answer = x10::apply(&mut table, &mut shutters, Message::extended(0, 0, 0, 0x05));
//! assert_eq!((answer.number(), answer.modules(), answer.shutters()), (x10::number::OK, 0, 1));
//! assert_eq!(shutters[p16 + x10::shutter::OPENING], 25);
//! ```

mod abi;
mod names;
mod types;

pub use names::*;
pub use types::{Answer, Event, Message};

/// Writes the burst of a message, one byte of 0 or 1 for each half-cycle, at the front of `buf`.
/// Count: half-cycles written, 44 or 124. Refusals: 2, 9.
#[inline]
pub fn burst(message: Message, buf: &mut [u8]) -> Answer {
    let Message { kind, house, third, data, command } = message;
    // SAFETY, here and below: each pointer is that of a slice which is lent for the whole call, with
    // that slice's length beside it.
    Answer::from_bits(unsafe {
        abi::x10_burst(kind, house, third, data, command, buf.as_mut_ptr(), buf.len())
    })
}

/// Makes [`RECEIVER_BYTES`] bytes a receiver that hunts and has received nothing. Count 0. Refusal: 6.
#[inline]
pub fn receiver_fresh(state: &mut [u8]) -> Answer {
    Answer::from_bits(unsafe { abi::x10_receiver_fresh(state.as_mut_ptr(), state.len()) })
}

/// Hands the receiver the half-cycles, one after the other, and writes an [`Event`] for each. One
/// that is not 0 or 1 has the event 5, and the next follows. Count: half-cycles. Refusals: 6, 9.
#[inline]
pub fn receive(state: &mut [u8], halves: &[u8], events: &mut [u8]) -> Answer {
    Answer::from_bits(unsafe {
        abi::x10_receive(
            state.as_mut_ptr(),
            state.len(),
            halves.as_ptr(),
            halves.len(),
            events.as_mut_ptr(),
            events.len(),
        )
    })
}

/// Writes the four radio bytes of a command ([`radio`]) at the front of `out`. The unit is looked at
/// for on and off only. Count: 4. Refusals: 2, 9.
#[inline]
pub fn radio_write(command: u8, house: u8, unit: u8, out: &mut [u8]) -> Answer {
    Answer::from_bits(unsafe { abi::x10_radio_write(command, house, unit, out.as_mut_ptr(), out.len()) })
}

/// Reads a radio code as command, house and unit, three bytes at the front of `out`. Count: 3.
/// Refusals: 9, 12, 13, 14.
#[inline]
pub fn radio_read(code: &[u8], out: &mut [u8]) -> Answer {
    Answer::from_bits(unsafe { abi::x10_radio_read(code.as_ptr(), code.len(), out.as_mut_ptr(), out.len()) })
}

/// Applies a message to a module table of [`TABLE_BYTES`] and a shutter table of
/// [`SHUTTER_TABLE_BYTES`]. An extended message of type 0 (command 00 to 0F) is for shutters, every
/// other for modules. Modules: those whose level differs; shutters: those whose opening differs.
/// Refusals: 1, 16, 2, 3, 17, 4, 18.
#[inline]
pub fn apply(table: &mut [u8], shutters: &mut [u8], message: Message) -> Answer {
    let Message { kind, house, third, data, command } = message;
    Answer::from_bits(unsafe {
        abi::x10_apply(
            table.as_mut_ptr(),
            table.len(),
            shutters.as_mut_ptr(),
            shutters.len(),
            kind,
            house,
            third,
            data,
            command,
        )
    })
}

/// How many modules of a house are above level 0: the count, 0 to 16. It is the module table's byte at
/// [`LIT_AT`] + house, and nothing else of the table is looked at. Refusals: 1; 2, for a house above 15;
/// 3, where that byte is above 16.
#[inline]
pub fn lit(table: &[u8], house: u8) -> Answer {
    Answer::from_bits(unsafe { abi::x10_lit(table.as_ptr(), table.len(), house) })
}

/// Makes [`STATION_BYTES`] bytes an empty station. Count 0. Refusal: 6.
///
/// A keypad makes its station empty once and loads it at a press. Then in each half-cycle it asks what
/// the station sends, puts that on the mains, hears what the line has, and tells the station.
#[inline]
pub fn station_empty(station: &mut [u8]) -> Answer {
    Answer::from_bits(unsafe { abi::x10_station_empty(station.as_mut_ptr(), station.len()) })
}

/// Loads a message, with a draw of 8, 9 or 10. Count 0. Refusals: 2, 6, 7; 8, where the station holds
/// a message.
#[inline]
pub fn station_load(station: &mut [u8], message: Message, draw: u8) -> Answer {
    let Message { kind, house, third, data, command } = message;
    Answer::from_bits(unsafe {
        abi::x10_station_load(station.as_mut_ptr(), station.len(), kind, house, third, data, command, draw)
    })
}

/// What the station sends in this half-cycle: the count, 0 or 1. Refusal: 6.
#[inline]
pub fn station_sends(station: &[u8]) -> Answer {
    Answer::from_bits(unsafe { abi::x10_station_sends(station.as_ptr(), station.len()) })
}

/// One half-cycle of the station, with what the line had in it and a draw, which is judged also where
/// it is not used. Count: 1 where the burst's last half-cycle was sent, so that the station is empty
/// again, else 0. Refusals: 5, 6, 7; 15, where it sent 1 and heard 0.
#[inline]
pub fn station_half_cycle(station: &mut [u8], heard: u8, draw: u8) -> Answer {
    Answer::from_bits(unsafe {
        abi::x10_station_half_cycle(station.as_mut_ptr(), station.len(), heard, draw)
    })
}

/// Runs a bench: a station for each of `loads`, with the message at five times its place, then a
/// call for each byte of `lines`. `lines[j]` is the line's half-cycle of call j, or 7 where a draw of
/// it is refused, and `marks[2 * j..]` the stations that are done in it, high byte first. Count: calls
/// not refused. Refusals: 2, 6; 7, for a draw of `loads`, or where `draws` has not one for each station
/// and call; 9, where `marks` is too short.
#[inline]
pub fn bench_run(messages: &[u8], loads: &[u8], draws: &[u8], lines: &mut [u8], marks: &mut [u8]) -> Answer {
    Answer::from_bits(unsafe {
        abi::x10_bench_run(
            messages.as_ptr(),
            messages.len(),
            loads.as_ptr(),
            loads.len(),
            draws.as_ptr(),
            draws.len(),
            lines.as_mut_ptr(),
            lines.len(),
            marks.as_mut_ptr(),
            marks.len(),
        )
    })
}

/// Applies what a radio code means to both tables: both messages of on and off, or none. Modules and
/// shutters: as [`apply`] has them, before and after the whole. Refusals: 1, 16, 3, 17, 12, 13, 14.
#[inline]
pub fn radio_route(table: &mut [u8], shutters: &mut [u8], code: &[u8]) -> Answer {
    Answer::from_bits(unsafe {
        abi::x10_radio_route(
            table.as_mut_ptr(),
            table.len(),
            shutters.as_mut_ptr(),
            shutters.len(),
            code.as_ptr(),
            code.len(),
        )
    })
}

/// Hands the receiver the half-cycles, as [`receive`] does, and applies each message that it gives to
/// both tables before the next half-cycle. Beside each [`Event`] stands an [`Answer`]: what the tables
/// said to the message given, 0, 4 or 18 with modules and shutters, and 0 where none was given. The
/// call's own number is 0 also where the tables said 4 or 18. Modules and shutters: as [`apply`] has
/// them, before and after the whole call. Refusals: 1, 16, 3, 17, 6, 9.
#[inline]
pub fn mains_route(
    state: &mut [u8],
    halves: &[u8],
    table: &mut [u8],
    shutters: &mut [u8],
    events: &mut [u8],
    answers: &mut [u8],
) -> Answer {
    Answer::from_bits(unsafe {
        abi::x10_mains_route(
            state.as_mut_ptr(),
            state.len(),
            halves.as_ptr(),
            halves.len(),
            table.as_mut_ptr(),
            table.len(),
            shutters.as_mut_ptr(),
            shutters.len(),
            events.as_mut_ptr(),
            events.len(),
            answers.as_mut_ptr(),
            answers.len(),
        )
    })
}
