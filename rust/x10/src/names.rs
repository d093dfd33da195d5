//! The numbers that the routines take and give, by name, and what they say in words. A test holds them
//! against include/x10.h.

/// The version of the library and of this package.
pub const VERSION: &str = env!("CARGO_PKG_VERSION");

/// Numbers given back: 0, or that of a refusal. PAIR and UNSUPPORTED are events of a receiver.
pub mod number {
    pub const OK: u8 = 0;
    /// The module table's length is not 3,104.
    pub const TABLE: u8 = 1;
    /// A house or unit above 15, or a kind or function code that makes no message.
    pub const MESSAGE: u8 = 2;
    /// The module table breaks a rule.
    pub const RECORD: u8 = 3;
    /// A message that tables do not carry.
    pub const NOT_CARRIED: u8 = 4;
    /// A half-cycle that is not 0 or 1.
    pub const HALF: u8 = 5;
    /// No receiver or station, or an impossible one; no bench of 1 to 16 stations.
    pub const STATE: u8 = 6;
    /// A draw that is not 8, 9 or 10, or not a draw for each.
    pub const DRAW: u8 = 7;
    /// The station to be loaded holds a message.
    pub const BUSY: u8 = 8;
    /// A lent buffer has not the length that is asked for.
    pub const SHORT: u8 = 9;
    /// Both half-cycles of a pair were equal.
    pub const PAIR: u8 = 10;
    /// Code 10, 11 or 12 with function bit 1.
    pub const UNSUPPORTED: u8 = 11;
    /// A radio code has not four bytes.
    pub const RF_LENGTH: u8 = 12;
    /// A pair of radio bytes is not complementary.
    pub const RF_COMPLEMENT: u8 = 13;
    /// None of the 544 radio codes.
    pub const RF_CODE: u8 = 14;
    /// A station sent 1 and heard 0.
    pub const FAULT: u8 = 15;
    /// The shutter table's length is not 5,120.
    pub const SHUTTER_TABLE: u8 = 16;
    /// The shutter table breaks a rule.
    pub const SHUTTER_RECORD: u8 = 17;
    /// Command 01, 02, 03 or 07 with an opening or limit of 26 to 31.
    pub const OPENING: u8 = 18;
}

/// What a number given back says, in words; "" for a number that is none.
pub const fn text(number: u8) -> &'static str {
    match number {
        number::OK => "done",
        number::TABLE => "TABLE: the module table's length is not 3,104",
        number::MESSAGE => "MESSAGE: house or unit above 15, or no message",
        number::RECORD => "RECORD: the module table breaks a rule",
        number::NOT_CARRIED => "NOT CARRIED: tables do not carry this message",
        number::HALF => "HALF: a half-cycle that is not 0 or 1",
        number::STATE => "STATE: no receiver, station or bench, or an impossible one",
        number::DRAW => "DRAW: a draw that is not 8 to 10, or not one for each",
        number::BUSY => "BUSY: the station holds a message",
        number::SHORT => "SHORT: a buffer is too short",
        number::PAIR => "PAIR: both half-cycles of a pair are equal",
        number::UNSUPPORTED => "UNSUPPORTED: code 10, 11 or 12",
        number::RF_LENGTH => "RF LENGTH: a radio code has four bytes",
        number::RF_COMPLEMENT => "RF COMPLEMENT: a pair of radio bytes is not complementary",
        number::RF_CODE => "RF CODE: none of the 544 radio codes",
        number::FAULT => "FAULT: sent 1, heard 0",
        number::SHUTTER_TABLE => "SHUTTER TABLE: the shutter table's length is not 5,120",
        number::SHUTTER_RECORD => "SHUTTER RECORD: the shutter table breaks a rule",
        number::OPENING => "OPENING: an opening above 25",
        _ => "",
    }
}

/// Kinds of message.
pub mod kind {
    pub const ADDRESS: u8 = 1;
    pub const FUNCTION: u8 = 2;
    pub const EXTENDED: u8 = 3;
}

/// Four-bit codes of the twelve functions.
pub mod function {
    pub const ALL_UNITS_OFF: u8 = 0;
    pub const ALL_LIGHTS_ON: u8 = 1;
    pub const ON: u8 = 2;
    pub const OFF: u8 = 3;
    pub const DIM: u8 = 4;
    pub const BRIGHT: u8 = 5;
    pub const ALL_LIGHTS_OFF: u8 = 6;
    pub const HAIL_REQUEST: u8 = 8;
    pub const HAIL_ACKNOWLEDGE: u8 = 9;
    pub const STATUS_ON: u8 = 13;
    pub const STATUS_OFF: u8 = 14;
    pub const STATUS_REQUEST: u8 = 15;
}

/// The name of a function by its code; "" for a code that is none of the twelve.
pub const fn function_name(code: u8) -> &'static str {
    match code {
        function::ALL_UNITS_OFF => "ALL UNITS OFF",
        function::ALL_LIGHTS_ON => "ALL LIGHTS ON",
        function::ON => "ON",
        function::OFF => "OFF",
        function::DIM => "DIM",
        function::BRIGHT => "BRIGHT",
        function::ALL_LIGHTS_OFF => "ALL LIGHTS OFF",
        function::HAIL_REQUEST => "HAIL REQUEST",
        function::HAIL_ACKNOWLEDGE => "HAIL ACKNOWLEDGE",
        function::STATUS_ON => "STATUS ON",
        function::STATUS_OFF => "STATUS OFF",
        function::STATUS_REQUEST => "STATUS REQUEST",
        _ => "",
    }
}

/// What a half-cycle made a receiver say, beside [`number::HALF`] for one that is not 0 or 1, and
/// [`number::PAIR`] and [`number::UNSUPPORTED`] for a broken frame.
pub mod event {
    pub const NOTHING: u8 = 0;
    pub const GIVEN: u8 = 1;
    pub const REPEAT: u8 = 2;
}

/// Radio commands.
pub mod radio {
    pub const ON: u8 = 0;
    pub const OFF: u8 = 1;
    pub const BRIGHT: u8 = 2;
    pub const DIM: u8 = 3;
}

/// Kinds of module: a record's first byte.
pub mod module {
    pub const NONE: u8 = 0;
    pub const LAMP: u8 = 1;
    pub const APPLIANCE: u8 = 2;
}

/// Where a record's bytes stand in it.
pub mod record {
    /// One of [`crate::module`].
    pub const KIND: usize = 0;
    /// 0 to 63.
    pub const LEVEL: usize = 1;
    /// 0 or 1.
    pub const ADDRESSED: usize = 2;
    /// Bit g for group g.
    pub const GROUPS: usize = 3;
    /// Four bytes of 0 to 63, group 0 first.
    pub const PRESETS: usize = 4;
    /// Four bytes in the same order: 0 to 15, or [`crate::ABSOLUTE`], where the module is a member, else 0.
    pub const REFERENCES: usize = 8;
}

/// The reference of an absolute member: each execution, off or step of its group reaches it. A member with
/// a reference of 0 to 15 is reached only by those that are relative to that reference.
pub const ABSOLUTE: u8 = 16;

/// Where the record of a house and unit, both 0 to 15, begins in a module table.
pub const fn record_at(house: u8, unit: u8) -> usize {
    (house as usize * 16 + unit as usize) * RECORD_BYTES
}

/// Where a shutter's bytes stand among its [`SHUTTER_BYTES`].
pub mod shutter {
    /// 0 or 1.
    pub const PRESENT: usize = 0;
    /// 0 (closed) to 25 (open).
    pub const OPENING: usize = 1;
    /// 0 to 25.
    pub const LIMIT: usize = 2;
    /// Sun protection, 0 or 1.
    pub const PROTECTION: usize = 3;
    /// Eight bytes of 0 or 1, one for each of [`crate::lifestyle`], Wake first.
    pub const INCLUDED: usize = 4;
    /// Eight bytes of 0 to 25 in the same order, 0 where it is not included.
    pub const OPENINGS: usize = 12;
}

/// Lifestyles.
pub mod lifestyle {
    pub const WAKE: u8 = 0;
    pub const LEAVE: u8 = 1;
    pub const RETURN: u8 = 2;
    pub const SLEEP: u8 = 3;
    pub const EVENING: u8 = 4;
    pub const VACATION: u8 = 5;
    pub const SPECIAL_1: u8 = 6;
    pub const SPECIAL_2: u8 = 7;
}

/// Where the bytes of the shutter of a house and unit, both 0 to 15, begin in a shutter table.
pub const fn shutter_at(house: u8, unit: u8) -> usize {
    (house as usize * 16 + unit as usize) * SHUTTER_BYTES
}

/// Bytes of a message in lent memory.
pub const MESSAGE_BYTES: usize = 5;
/// Half-cycles of the longest burst.
pub const LONGEST_BURST: usize = 124;
/// Bytes of a receiver.
pub const RECEIVER_BYTES: usize = 13;
/// Bytes of a station.
pub const STATION_BYTES: usize = 8;
/// Bytes of an event.
pub const EVENT_BYTES: usize = 6;
/// Bytes of an answer in lent memory.
pub const ANSWER_BYTES: usize = 8;
/// Bytes of a module table.
pub const TABLE_BYTES: usize = 3104;
/// Bytes of a record of a module table.
pub const RECORD_BYTES: usize = 12;
/// Where a module table's "command heard" bytes begin, one for each house.
pub const HEARD_AT: usize = 3072;
/// Where the bytes begin that say how many modules of each house are above level 0.
pub const LIT_AT: usize = 3088;
/// Bytes of a shutter table.
pub const SHUTTER_TABLE_BYTES: usize = 5120;
/// Bytes of a shutter in its table.
pub const SHUTTER_BYTES: usize = 20;
/// Stations of the largest bench.
pub const MOST_STATIONS: usize = 16;
