//! Situations that a comparison must reach, and which case is in which. Each list has what its
//! function gives; what the model gave back decides where the input alone does not.

mod groups;
mod lit;
mod shutters;

pub use groups::{grouped, reference_broken, CALLED, CALLED_BY, JOINED, LEFT, REFERENCE_BROKEN};
pub use lit::{asked, asked_of, house, lit_broken, lit_form, lit_move};
pub use lit::{ASKED, HOUSES, LIT_BROKEN, LIT_FORMS, LIT_MOVES, LIT_ORDERS};
pub use shutters::{beside, broken, shutter_count, type_0};
pub use shutters::{BESIDE, BROKEN, SHUTTER_COUNTS, SHUTTER_LENGTHS, TYPE_0};

use crate::inputs::RECORD;
use x10_model::bytes::{MESSAGE, STATION};
use x10_model::message::Refusal;
use x10_model::tables::Counts;

/// A slice's length against the one that is asked for.
pub const LENGTHS: [&str; 5] = ["empty", "one short", "exact", "one over", "other length"];

pub fn length(len: usize, asked: usize) -> &'static str {
    length_of(&LENGTHS, len, asked)
}

pub fn length_of(names: &[&'static str; 5], len: usize, asked: usize) -> &'static str {
    match len {
        0 => names[0],
        _ if len + 1 == asked => names[1],
        _ if len == asked => names[2],
        _ if len == asked + 1 => names[3],
        _ => names[4],
    }
}

/// Kinds of message.
pub const KINDS: [&str; 3] = ["address", "function", "extended"];

pub fn kind(kind: u8) -> &'static str {
    KINDS[usize::from(kind) - 1]
}

/// Radio commands.
pub const COMMANDS: [&str; 4] = ["on", "off", "bright", "dim"];

pub fn command(command: u8) -> &'static str {
    COMMANDS[usize::from(command)]
}

/// How many levels were changed.
pub const COUNTS: [&str; 4] = ["0 levels changed", "1 level", "2 to 15 levels", "16 levels"];

pub fn count(count: usize) -> &'static str {
    match count {
        0 => "0 levels changed",
        1 => "1 level",
        2..=15 => "2 to 15 levels",
        _ => "16 levels",
    }
}

/// Slices by their number of half-cycles.
pub const SLICES: [&str; 4] = ["no half-cycle", "1 half-cycle", "2 half-cycles", "more half-cycles"];

pub fn slice(n: usize) -> &'static str {
    SLICES[n.min(3)]
}

/// Lines by where the receiver stood before them.
pub const LINES: [&str; 4] =
    ["line from the hunt", "line amid a waiting", "line after a message", "line from mid-frame"];

pub fn line(before: &[u8]) -> &'static str {
    match before[1] {
        0 if waits(before) => "line amid a waiting",
        0 => "line from the hunt",
        1..=4 => "line after a message",
        _ => "line from mid-frame",
    }
}

/// Whether a receiver waits for a start after a break.
fn waits(state: &[u8]) -> bool {
    state[12] != 0
}

/// Whether the next half-cycle is the fourth from the place waited for on.
fn at_place(state: &[u8]) -> bool {
    waits(state) && state[11] == state[12] + 3
}

/// What a receiver made of one half-cycle of 0 or 1.
pub const TURNS: [&str; 25] = [
    "hunting",
    "start found",
    "waiting",
    "22 holds no start",
    "62 holds no start",
    "start at 22",
    "start at 62",
    "start at the place after 0 0 0",
    "start found before the place",
    "awaited comes",
    "awaited differs",
    "awaited differs and start found",
    "first of a pair",
    "pair complete",
    "twenty pairs more",
    "equal pair in the first nine",
    "equal pair after the ninth",
    "unsupported",
    "unsupported after a message",
    "MESSAGE of 22",
    "MESSAGE of 22 after another",
    "MESSAGE of 62",
    "MESSAGE of 62 after another",
    "REPEAT of 22",
    "REPEAT of 62",
];

pub fn turn(before: &[u8], code: u8, after: &[u8]) -> &'static str {
    let (at, next) = (before[1], after[1]);
    let given = before[6..11] != [0; MESSAGE];
    match (code, at) {
        (0, 0) if waits(before) => waiting_turn(before, after),
        (0, 0) if next == 0 => "hunting",
        (0, 0) => "start found",
        (0, 1..=4) if next == at + 1 => "awaited comes",
        (0, 1..=4) if next == 0 => "awaited differs",
        (0, 1..=4) => "awaited differs and start found",
        (0, 22) => "twenty pairs more",
        (0, _) if at % 2 == 1 => "first of a pair",
        (0, _) => "pair complete",
        (1, 22) if given => "MESSAGE of 22 after another",
        (1, 22) => "MESSAGE of 22",
        (1, _) if given => "MESSAGE of 62 after another",
        (1, _) => "MESSAGE of 62",
        (2, 22) => "REPEAT of 22",
        (2, _) => "REPEAT of 62",
        (10, ..=22) => "equal pair in the first nine",
        (10, _) => "equal pair after the ninth",
        _ if given => "unsupported after a message",
        _ => "unsupported",
    }
}

/// The same of a receiver that waits.
fn waiting_turn(before: &[u8], after: &[u8]) -> &'static str {
    let place = before[12];
    match (after[1], after[12]) {
        (0, 0) => "62 holds no start",
        (0, next) if next != place => "22 holds no start",
        (0, _) => "waiting",
        _ if !at_place(before) => "start found before the place",
        _ if before[0] == 0b000111 => "start at the place after 0 0 0",
        _ if place == 22 => "start at 22",
        _ => "start at 62",
    }
}

/// What waitings came to over a line. The s is where the start of the frame that broke began.
pub const WAITS: [&str; 6] = [
    "frame begun at s+22",
    "frame begun at s+62",
    "frame begun at s+62, s+22 held no start",
    "frame begun by the hunt amid a waiting",
    "no start at s+62",
    "MESSAGE of a frame waited for",
];

/// The waitings of a line so far.
#[derive(Default)]
pub struct Waits {
    /// The place that was waited for first, where the break was on this line.
    first: Option<u8>,
    /// The frame that is read was begun at a place waited for.
    waited_for: bool,
}

impl Waits {
    /// What comes with a half-cycle: the receiver before it, its event's code and the receiver
    /// after.
    pub fn next(&mut self, before: &[u8], code: u8, after: &[u8]) -> Option<&'static str> {
        match code {
            0 if waits(before) && !waits(after) => self.over(before, after),
            1 if self.waited_for => {
                self.waited_for = false;
                Some("MESSAGE of a frame waited for")
            }
            10 => {
                *self = Waits { first: Some(after[12]), waited_for: false };
                None
            }
            _ => None,
        }
    }

    /// A waiting is over.
    fn over(&mut self, before: &[u8], after: &[u8]) -> Option<&'static str> {
        let first = self.first.take();
        let begun = after[1] != 0;
        self.waited_for = begun && at_place(before);
        match (first?, before[12]) {
            _ if !begun => Some("no start at s+62"),
            _ if !self.waited_for => Some("frame begun by the hunt amid a waiting"),
            (22, 22) => Some("frame begun at s+22"),
            (22, _) => Some("frame begun at s+62, s+22 held no start"),
            _ => Some("frame begun at s+62"),
        }
    }
}

/// Why bytes are no receiver, or one in no state that there is.
pub const IMPOSSIBLE: [&str; 13] = [
    "not thirteen bytes",
    "kind of no message alone",
    "code of no function alone",
    "data beside a short message alone",
    "past alone",
    "place alone",
    "pairs alone",
    "house or unit alone",
    "count of no waiting alone",
    "place waited for alone",
    "waiting before its break alone",
    "waiting beyond its place alone",
    "waiting amid a frame alone",
];

/// None where there is more than one cause.
pub fn impossible(state: &[u8]) -> Option<&'static str> {
    let &[past, at, b3, b2, b1, b0, kind, house, third, data, command, since, place] = state else {
        return Some("not thirteen bytes");
    };
    let bits = u32::from_be_bytes([b3, b2, b1, b0]);
    let none = kind == 0 && [house, third, data, command] != [0; 4];
    let short = kind == 1 || kind == 2;
    let (earliest, latest) = match place {
        22 => (6, 25),
        62 => (24, 65),
        _ => (0, 255),
    };
    let causes = [
        (none || kind > 3, "kind of no message alone"),
        (kind == 2 && matches!(third, 7 | 10..=12 | 16..), "code of no function alone"),
        (short && [data, command] != [0; 2], "data beside a short message alone"),
        (past > 63, "past alone"),
        (at > 62, "place alone"),
        ((23..=62).contains(&at) && bits >> ((at - 23) / 2) & 31 != 15, "pairs alone"),
        (house > 15 || kind != 2 && third > 15, "house or unit alone"),
        (place == 0 && since > 0, "count of no waiting alone"),
        (!matches!(place, 0 | 22 | 62), "place waited for alone"),
        (since < earliest, "waiting before its break alone"),
        (since > latest, "waiting beyond its place alone"),
        (at > 0 && matches!(place, 22 | 62), "waiting amid a frame alone"),
    ];
    only(&causes)
}

/// The cause that holds, where it is the only one.
fn only(causes: &[(bool, &'static str)]) -> Option<&'static str> {
    let mut causes = causes.iter().filter(|(holds, _)| *holds);
    let (_, cause) = causes.next()?;
    causes.next().is_none().then_some(*cause)
}

/// What came among the half-cycles of one slice of the mains route.
pub const WITHIN: [&str; 11] = [
    "half-cycle not 0 or 1",
    "half-cycle not 0 or 1 amid a frame given",
    "message not carried",
    "REPEAT of one not carried",
    "message with an opening above 25",
    "REPEAT of one with an opening above 25",
    "message carried after one not carried",
    "message carried after an opening above 25",
    "one message in a slice",
    "another message in a slice",
    "another message of type 0 in a slice",
];

/// The counts of a slice's answers beside those of the whole call: modules, then shutters.
pub const WHOLE: [&str; 5] = [
    "whole is the answers' sum",
    "whole is less",
    "whole is 0, every level back",
    "17 to 255 modules over the whole",
    "256 modules over the whole",
];
pub const SHUTTER_WHOLE: [&str; 5] = [
    "whole of shutters is the answers' sum",
    "whole of shutters is less",
    "whole of shutters is 0, every opening back",
    "17 to 255 shutters over the whole",
    "256 shutters over the whole",
];

/// A slice of the mains route so far.
#[derive(Default)]
pub struct Slice {
    /// A half-cycle not 0 or 1 stood in the frame that is read.
    bad_in_frame: bool,
    not_carried: bool,
    too_open: bool,
    /// Why the last message was refused.
    last: Option<Refusal>,
    messages: usize,
    type_0: usize,
    /// Of the answers' counts.
    sum: Counts,
}

impl Slice {
    /// What comes with a half-cycle: the receiver's place before it, its event and the tables' answer.
    pub fn next(&mut self, at: u8, event: &[u8], answer: Result<Counts, Refusal>) -> Option<&'static str> {
        let code = event[0];
        if code == 5 {
            self.bad_in_frame |= at > 4;
            return Some("half-cycle not 0 or 1");
        }
        let bad_in_frame = self.bad_in_frame && at > 4;
        self.bad_in_frame = bad_in_frame && code == 0;
        match code {
            1 => Some(self.message(bad_in_frame, event[1] == 3 && event[5] < 16, answer)),
            2 if self.last == Some(Refusal::NotCarried) => Some("REPEAT of one not carried"),
            2 if self.last == Some(Refusal::Opening) => Some("REPEAT of one with an opening above 25"),
            _ => None,
        }
    }

    fn message(&mut self, bad_in_frame: bool, type_0: bool, answer: Result<Counts, Refusal>) -> &'static str {
        let counts = answer.unwrap_or_default();
        self.messages += 1;
        self.type_0 += usize::from(type_0);
        self.sum.modules += counts.modules;
        self.sum.shutters += counts.shutters;
        self.last = answer.err();
        match answer {
            Err(Refusal::Opening) => {
                self.too_open = true;
                "message with an opening above 25"
            }
            Err(_) => {
                self.not_carried = true;
                "message not carried"
            }
            Ok(_) if bad_in_frame => "half-cycle not 0 or 1 amid a frame given",
            Ok(_) if self.too_open => "message carried after an opening above 25",
            Ok(_) if self.not_carried => "message carried after one not carried",
            Ok(_) if self.messages == 1 => "one message in a slice",
            Ok(_) if type_0 && self.type_0 > 1 => "another message of type 0 in a slice",
            Ok(_) => "another message in a slice",
        }
    }

    /// What the counts of the whole call are to the answers' counts.
    pub fn whole(&self, counts: Counts) -> impl Iterator<Item = &'static str> {
        let modules = whole(&WHOLE, counts.modules, self.sum.modules);
        modules.into_iter().chain(whole(&SHUTTER_WHOLE, counts.shutters, self.sum.shutters))
    }
}

fn whole(names: &[&'static str; 5], count: usize, sum: usize) -> Option<&'static str> {
    match count {
        _ if sum == 0 => None,
        0 => Some(names[2]),
        256 => Some(names[4]),
        17.. => Some(names[3]),
        _ if count < sum => Some(names[1]),
        _ => Some(names[0]),
    }
}

/// What a refusal came before: the first in the routine's order is given. A table of a wrong length is
/// taken to break a rule where it does so with zeros put in or bytes left out at its end. 4 and 18 never
/// apply both, and of 12, 13 and 14 the first is looked for.
pub const APPLY_ORDERS: [&str; 20] = [
    "1 before 16",
    "1 before 2",
    "1 before 3",
    "1 before 17",
    "1 before 4",
    "1 before 18",
    "16 before 2",
    "16 before 3",
    "16 before 17",
    "16 before 4",
    "16 before 18",
    "2 before 3",
    "2 before 17",
    "2 before 4",
    "2 before 18",
    "3 before 17",
    "3 before 4",
    "3 before 18",
    "17 before 4",
    "17 before 18",
];
pub const TABLE_ORDERS: [&str; 6] =
    ["1 before 16", "1 before 3", "1 before 17", "16 before 3", "16 before 17", "3 before 17"];
pub const RADIO_ORDERS: [&str; 12] = [
    "1 before 12",
    "1 before 13",
    "1 before 14",
    "16 before 12",
    "16 before 13",
    "16 before 14",
    "3 before 12",
    "3 before 13",
    "3 before 14",
    "17 before 12",
    "17 before 13",
    "17 before 14",
];
pub const MAINS_ORDERS: [&str; 9] = [
    "1 before 6",
    "1 before 9",
    "16 before 6",
    "16 before 9",
    "3 before 6",
    "3 before 9",
    "17 before 6",
    "17 before 9",
    "6 before 9",
];

/// Names what a refusal that was given came before.
pub fn orders(given: Refusal, wrong: impl IntoIterator<Item = Refusal>, mut reach: impl FnMut(&str)) {
    for also in wrong.into_iter().filter(|also| *also != given) {
        reach(&format!("{} before {}", given as u8, also as u8));
    }
}

/// Room for the mains route's events and answers, against what they take.
pub const EVENTS_ROOM: [&str; 4] = ["events one short", "events exact", "events one over", "other events"];
pub const ANSWERS_ROOM: [&str; 4] =
    ["answers one short", "answers exact", "answers one over", "other answers"];

pub fn room(names: &[&'static str; 4], len: usize, asked: usize) -> &'static str {
    match len {
        _ if len + 1 == asked => names[0],
        _ if len == asked => names[1],
        _ if len == asked + 1 => names[2],
        _ => names[3],
    }
}

/// Forms of a message that tables carry. Hail, status and 37 to 3B are counted wherever they were
/// carried, the forms below `RECORD_FORMS` where they changed a record, others where they changed a
/// level.
pub const FORMS: [&str; 37] = [
    "address",
    "all units off",
    "all lights on",
    "on",
    "off",
    "dim",
    "bright",
    "all lights off",
    "hail request",
    "hail acknowledge",
    "status on",
    "status off",
    "status request",
    "30",
    "30 relative",
    "31",
    "32",
    "33",
    "34",
    "35 unit",
    "35 house",
    "36 to presets",
    "36 to 0",
    "36 relative to presets",
    "36 relative to 0",
    "37 with 00",
    "37 with 01",
    "37 with 10",
    "37 with 11",
    "38",
    "39",
    "3A",
    "3B",
    "3C bright",
    "3C dim",
    "3C relative bright",
    "3C relative dim",
];

const RECORD_FORMS: [&str; 6] = ["address", "30", "30 relative", "32", "35 unit", "35 house"];
const HEARD_FORMS: [&str; 13] = [
    "hail request",
    "hail acknowledge",
    "status on",
    "status off",
    "status request",
    "37 with 00",
    "37 with 01",
    "37 with 10",
    "37 with 11",
    "38",
    "39",
    "3A",
    "3B",
];

/// The form of a message that a table carried, where it did what it is counted for.
pub fn form(numbers: [u8; MESSAGE], levels: usize, records_changed: bool) -> Option<&'static str> {
    let form = form_of(numbers);
    let counted = if HEARD_FORMS.contains(&form) {
        true
    } else if RECORD_FORMS.contains(&form) {
        records_changed
    } else {
        levels > 0
    };
    counted.then_some(form)
}

fn form_of([kind, _, third, data, command]: [u8; MESSAGE]) -> &'static str {
    match (kind, third, command) {
        (1, ..) => "address",
        (2, 0, _) => "all units off",
        (2, 1, _) => "all lights on",
        (2, 2, _) => "on",
        (2, 3, _) => "off",
        (2, 4, _) => "dim",
        (2, 5, _) => "bright",
        (2, 6, _) => "all lights off",
        (2, 8, _) => "hail request",
        (2, 9, _) => "hail acknowledge",
        (2, 13, _) => "status on",
        (2, 14, _) => "status off",
        (2, ..) => "status request",
        (_, _, 0x31) => "31",
        (_, _, 0x32) => "32",
        (_, _, 0x33) => "33",
        (_, _, 0x34) => "34",
        (_, _, 0x35) if data >> 4 == 0 => "35 unit",
        (_, _, 0x35) => "35 house",
        (_, _, 0x38) => "38",
        (_, _, 0x39) => "39",
        (_, _, 0x3A) => "3A",
        (_, _, 0x3B) => "3B",
        _ => form_by_bits(data, command),
    }
}

/// The form of 30, 36, 37 and 3C, which bits 5 and 4 of the data decide.
fn form_by_bits(data: u8, command: u8) -> &'static str {
    let forms = match command {
        0x30 => ["30", "30", "30 relative", "30 relative"],
        0x36 => ["36 to presets", "36 to 0", "36 relative to presets", "36 relative to 0"],
        0x37 => ["37 with 00", "37 with 01", "37 with 10", "37 with 11"],
        _ => ["3C dim", "3C bright", "3C relative dim", "3C relative bright"],
    };
    forms[usize::from(data >> 4 & 3)]
}

/// Extended messages that tables do not carry.
pub const NOT_CARRIED: [&str; 5] = [
    "4 for type 0",
    "4 for 35 with other top bits",
    "4 for 37 with 10 and low four bits not 0",
    "4 for another command of type 3",
    "4 for another type",
];

/// None for a message that they carry.
pub fn not_carried([kind, _, _, data, command]: [u8; MESSAGE]) -> Option<&'static str> {
    match command {
        _ if kind != 3 => None,
        0x00 | 0x06 | 0x0D => Some("4 for type 0"),
        0x35 if !matches!(data >> 4, 0 | 15) => Some("4 for 35 with other top bits"),
        0x37 if data >> 4 & 3 == 2 && data & 15 != 0 => Some("4 for 37 with 10 and low four bits not 0"),
        0x3D..=0x3F => Some("4 for another command of type 3"),
        0x10..=0x2F | 0x40.. => Some("4 for another type"),
        _ => None,
    }
}

/// The unit that a message for one unit names.
pub const NAMED: [&str; 3] = ["names an absent unit", "names a lamp", "names an appliance"];

/// None for a message that is not for one unit.
pub fn named(numbers: [u8; MESSAGE], table: &[u8]) -> Option<&'static str> {
    let place = RECORD * (16 * usize::from(numbers[1]) + usize::from(numbers[2]));
    let for_one = matches!(form_of(numbers), "address" | "30" | "30 relative" | "31" | "32" | "35 unit");
    for_one.then(|| NAMED[usize::from(table[place])])
}

/// Benches by their number of stations.
pub const STATIONS: [&str; 6] = ["0 stations", "1", "2 to 15", "16", "17", "more stations"];

pub fn stations(n: usize) -> &'static str {
    match n {
        0 => "0 stations",
        1 => "1",
        2..=15 => "2 to 15",
        16 => "16",
        17 => "17",
        _ => "more stations",
    }
}

/// Why a run of a bench was refused by 7. With too short marks, it came before a 9.
pub const DRAWS: [&str; 7] = [
    "draw of loads",
    "one draw too few",
    "one draw too many",
    "other number of draws",
    "one draw too few, marks short",
    "one draw too many, marks short",
    "other number of draws, marks short",
];

pub fn draws(loads: &[u8], len: usize, asked: usize, marks_short: bool) -> &'static str {
    if loads.iter().copied().any(bad_draw) {
        return DRAWS[0];
    }
    let names = if marks_short { &DRAWS[4..] } else { &DRAWS[1..4] };
    match len {
        _ if len + 1 == asked => names[0],
        _ if len == asked + 1 => names[1],
        _ => names[2],
    }
}

/// What came in a run of a bench.
pub const RUNS: [&str; 5] =
    ["no call", "one DONE", "several DONE", "every station DONE", "some calls refused"];

/// Why bytes are no station, or one in no state that there is.
pub const NO_STATION: [&str; 16] = [
    "not eight bytes",
    "kind of no message alone",
    "code of no function alone",
    "data beside a short message alone",
    "house alone",
    "unit alone",
    "wait below 8 alone",
    "wait above 10 alone",
    "count above the wait alone",
    "place 44 alone",
    "place 124 alone",
    "place beyond the burst alone",
    "place with a count below the wait alone",
    "wait of an empty station alone",
    "count of an empty station alone",
    "place of an empty station alone",
];

/// None where there is more than one cause.
pub fn no_station(station: &[u8]) -> Option<&'static str> {
    let &[kind, house, third, data, command, wait, count, place] = station else {
        return Some("not eight bytes");
    };
    let held = holds(station);
    let short = kind == 1 || kind == 2;
    let burst = if short { 44 } else { 124 };
    let causes = [
        (held && !(1..=3).contains(&kind), "kind of no message alone"),
        (kind == 2 && matches!(third, 7 | 10..=12 | 16..), "code of no function alone"),
        (short && [data, command] != [0; 2], "data beside a short message alone"),
        (house > 15, "house alone"),
        (kind != 2 && third > 15, "unit alone"),
        (held && wait < 8, "wait below 8 alone"),
        (held && wait > 10, "wait above 10 alone"),
        (held && count > wait, "count above the wait alone"),
        (short && place == 44, "place 44 alone"),
        (held && !short && place == 124, "place 124 alone"),
        (held && place > burst, "place beyond the burst alone"),
        (held && place > 0 && count < wait, "place with a count below the wait alone"),
        (!held && wait != 8, "wait of an empty station alone"),
        (!held && count > 0, "count of an empty station alone"),
        (!held && place > 0, "place of an empty station alone"),
    ];
    only(&causes)
}

/// Whether eight bytes are to hold a message, a right one or not.
pub fn holds(station: &[u8]) -> bool {
    station.len() == STATION && station[..MESSAGE] != [0; MESSAGE]
}

pub fn bad_draw(draw: u8) -> bool {
    !(8..=10).contains(&draw)
}

/// Refusals of a load and of a station's half-cycle, alone and where another applies too.
pub const LOAD_REFUSALS: [&str; 10] = [
    "2 alone",
    "6 alone",
    "7 alone",
    "8 alone",
    "2 before 6",
    "2 before 7",
    "2 before 8",
    "6 before 7",
    "6 before 8",
    "7 before 8",
];
pub const HALF_CYCLE_REFUSALS: [&str; 9] = [
    "5 alone",
    "6 alone",
    "7 alone",
    "15 alone",
    "5 before 6",
    "5 before 7",
    "6 before 7",
    "7 before 15",
    "5 before 6 and 7",
];

/// Names a refusal that was given among those that apply.
pub fn refusals(given: Refusal, wrong: &[Option<Refusal>], mut reach: impl FnMut(&'static str)) {
    let also = || wrong.iter().flatten().filter(|also| **also != given);
    if also().next().is_none() {
        return reach(match given {
            Refusal::Message => "2 alone",
            Refusal::Half => "5 alone",
            Refusal::State => "6 alone",
            Refusal::Draw => "7 alone",
            Refusal::Busy => "8 alone",
            _ => "15 alone",
        });
    }
    for also in also() {
        reach(match (given, also) {
            (Refusal::Message, Refusal::State) => "2 before 6",
            (Refusal::Message, Refusal::Draw) => "2 before 7",
            (Refusal::Message, _) => "2 before 8",
            (Refusal::Half, Refusal::State) => "5 before 6",
            (Refusal::Half, _) => "5 before 7",
            (Refusal::State, Refusal::Draw) => "6 before 7",
            (Refusal::State, _) => "6 before 8",
            (_, Refusal::Busy) => "7 before 8",
            _ => "7 before 15",
        });
    }
    if given == Refusal::Half && also().count() == 2 {
        reach("5 before 6 and 7");
    }
}

/// What a load left: data and command that a short message does not have are 0.
pub const LOADED: [&str; 3] = ["data and command kept", "data and command dropped", "neither to drop"];

pub fn loaded(numbers: [u8; MESSAGE], after: &[u8]) -> &'static str {
    match numbers {
        [3, ..] => "data and command kept",
        _ if numbers[3..] != after[3..MESSAGE] => "data and command dropped",
        _ => "neither to drop",
    }
}

/// What a station is about when it is asked what it sends.
pub const SENDING: [&str; 7] = [
    "empty station",
    "waiting",
    "sends 0",
    "sends 1",
    "sends 0 in the second frame",
    "sends 1 in the second frame",
    "sends the last half-cycle",
];

pub fn sending(station: &[u8], half: usize) -> &'static str {
    let (count, wait, place) = (station[6], station[5], station[7]);
    let frame = if station[0] == 3 { 62 } else { 22 };
    match (holds(station), half) {
        (false, _) => "empty station",
        _ if count < wait => "waiting",
        _ if place == 2 * frame - 1 => "sends the last half-cycle",
        (_, 0) if place < frame => "sends 0",
        (_, 1) if place < frame => "sends 1",
        (_, 0) => "sends 0 in the second frame",
        _ => "sends 1 in the second frame",
    }
}

/// What a half-cycle made of a station.
pub const HALF_CYCLES: [&str; 10] = [
    "empty station hears 0",
    "empty station hears 1",
    "waits on",
    "wait is over",
    "wait begins anew",
    "sends 0, hears 0",
    "sends 1, hears 1",
    "abort",
    "DONE of 44",
    "DONE of 124",
];

pub fn half_cycle(before: &[u8], sent_1: bool, heard: u8, done: bool) -> &'static str {
    let (count, wait) = (before[6], before[5]);
    match (holds(before), heard) {
        (false, 0) => "empty station hears 0",
        (false, _) => "empty station hears 1",
        _ if done && before[0] == 3 => "DONE of 124",
        _ if done => "DONE of 44",
        (_, 0) if count + 1 == wait => "wait is over",
        (_, 0) if count < wait => "waits on",
        _ if count < wait => "wait begins anew",
        (_, 0) => "sends 0, hears 0",
        _ if sent_1 => "sends 1, hears 1",
        _ => "abort",
    }
}

/// A bad draw, by what it would be used for.
pub const BAD_DRAWS: [&str; 6] = [
    "bad draw of an empty station",
    "bad draw of one that waits on",
    "bad draw of one that sends on",
    "bad draw of one that sent 1 and heard 0",
    "bad draw of a wait that begins anew",
    "bad draw of an abort",
];

pub fn draw_used(before: &[u8], sent_1: bool, heard: u8) -> &'static str {
    let waits = before[6] < before[5];
    match (holds(before), heard) {
        (false, _) => "bad draw of an empty station",
        (_, 0) if waits => "bad draw of one that waits on",
        (_, 0) if sent_1 => "bad draw of one that sent 1 and heard 0",
        (_, 1) if waits => "bad draw of a wait that begins anew",
        (_, 1) if !sent_1 => "bad draw of an abort",
        _ => "bad draw of one that sends on",
    }
}

/// How a station came from load to DONE.
pub const LIVES: [&str; 4] = [
    "life to DONE at once",
    "life to DONE, a wait begun anew",
    "life to DONE after an abort",
    "life to DONE after both",
];

/// A life so far.
#[derive(Default)]
pub struct Life {
    waited_anew: bool,
    aborted: bool,
}

impl Life {
    /// A half-cycle that was not refused, with the station as it was before it.
    pub fn next(&mut self, before: &[u8], sent_1: bool, heard: u8) {
        if heard == 1 && !sent_1 {
            let waits = before[6] < before[5];
            self.waited_anew |= waits;
            self.aborted |= !waits;
        }
    }

    pub fn end(&self) -> &'static str {
        LIVES[usize::from(self.waited_anew) + 2 * usize::from(self.aborted)]
    }
}
