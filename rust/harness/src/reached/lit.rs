//! Situations of the bytes that say how many modules of a house are lit.

use super::form_of;
use crate::inputs::{self, HEARD, LIT, RECORD};
use std::cmp::Ordering;
use x10_model::bytes::MESSAGE;
use x10_model::table::Table;

/// Why a table is refused, where these bytes are all that is wrong with it: whose they are, and what one
/// of them says instead of the count. A table of before there were any is of another length.
pub const LIT_BROKEN: [&str; 12] = [
    "A's lit byte alone",
    "P's lit byte alone",
    "a lit byte between alone",
    "several lit bytes",
    "lit byte one over",
    "lit byte one under",
    "lit byte 17",
    "lit byte 255",
    "lit byte of the lamps only",
    "other lit byte",
    "heard and lit bytes exchanged",
    "no lit bytes",
];

/// Nothing where something else is wrong.
pub fn lit_broken(table: &[u8]) -> Vec<&'static str> {
    let mut exchanged = table.to_vec();
    exchanged[HEARD..].rotate_left(16);
    if valid(&exchanged) {
        return vec!["heard and lit bytes exchanged"];
    }
    let mut counted = table.to_vec();
    inputs::count_lit(&mut counted);
    if !valid(&counted) {
        return vec![];
    }
    let wrong: Vec<usize> = (0..16).filter(|house| table[LIT + house] != counted[LIT + house]).collect();
    let whose = match wrong[..] {
        [0] => "A's lit byte alone",
        [15] => "P's lit byte alone",
        [_] => "a lit byte between alone",
        _ => return vec!["several lit bytes"],
    };
    vec![whose, instead(table, wrong[0])]
}

/// Whether the model finds nothing wrong with a table of modules.
pub fn valid(table: &[u8]) -> bool {
    Table::open(&mut table.to_vec()).is_ok_and(|table| table.judge().is_ok())
}

/// What a house's byte says instead of the count.
fn instead(table: &[u8], house: usize) -> &'static str {
    let count = inputs::lit_of(table, house);
    match table[LIT + house] {
        17 => "lit byte 17",
        255 => "lit byte 255",
        byte if byte == count + 1 => "lit byte one over",
        byte if byte + 1 == count => "lit byte one under",
        byte if byte == inputs::lit_lamps(table, house) => "lit byte of the lamps only",
        _ => "other lit byte",
    }
}

/// Forms of a message by whether they left more modules of the house lit or fewer.
pub const LIT_FORMS: [&str; 21] = [
    "on: more lit",
    "dim: more lit",
    "bright: more lit",
    "all lights on: more lit",
    "31: more lit",
    "33: more lit",
    "36 to presets: more lit",
    "36 relative to presets: more lit",
    "3C bright: more lit",
    "3C dim: more lit",
    "3C relative bright: more lit",
    "3C relative dim: more lit",
    "off: fewer lit",
    "all lights off: fewer lit",
    "all units off: fewer lit",
    "31: fewer lit",
    "34: fewer lit",
    "36 to presets: fewer lit",
    "36 to 0: fewer lit",
    "36 relative to presets: fewer lit",
    "36 relative to 0: fewer lit",
];

/// None where as many are lit, or the message is an address.
pub fn lit_form(numbers: [u8; MESSAGE], [before, after]: [&[u8]; 2]) -> Option<String> {
    let place = LIT + usize::from(numbers[1]);
    match after[place].cmp(&before[place]) {
        Ordering::Greater => Some(format!("{}: more lit", form_of(numbers))),
        Ordering::Less => Some(format!("{}: fewer lit", form_of(numbers))),
        Ordering::Equal => None,
    }
}

/// How many more or fewer modules of a house are lit. The last needs some that go on and some that go off.
pub const LIT_MOVES: [&str; 8] = [
    "1 more lit",
    "2 to 15 more lit",
    "16 more lit",
    "1 fewer lit",
    "2 to 15 fewer lit",
    "16 fewer lit",
    "levels changed, the same lit",
    "levels changed, as many others lit",
];

/// None where no level of the house was changed.
pub fn lit_move(house: usize, [before, after]: [&[u8]; 2]) -> Option<&'static str> {
    let levels =
        |table: &[u8]| -> [u8; 16] { std::array::from_fn(|unit| table[RECORD * (16 * house + unit) + 1]) };
    let (was, is) = (levels(before), levels(after));
    let place = LIT + house;
    Some(match i16::from(after[place]) - i16::from(before[place]) {
        16 => "16 more lit",
        2.. => "2 to 15 more lit",
        1 => "1 more lit",
        -1 => "1 fewer lit",
        -16 => "16 fewer lit",
        ..-1 => "2 to 15 fewer lit",
        0 if was == is => return None,
        0 if was.map(|level| level > 0) == is.map(|level| level > 0) => "levels changed, the same lit",
        0 => "levels changed, as many others lit",
    })
}

/// The house that is asked about.
pub const HOUSES: [&str; 5] = ["house A", "house B to O", "house P", "house 16", "house above 16"];

pub fn house(house: u8) -> &'static str {
    match house {
        0 => "house A",
        1..=14 => "house B to O",
        15 => "house P",
        16 => "house 16",
        _ => "house above 16",
    }
}

/// What is answered, and of which table; the byte that is refused.
pub const ASKED: [&str; 9] = [
    "none lit",
    "1 to 15 lit",
    "16 lit",
    "byte 17",
    "byte 18 to 254",
    "byte 255",
    "asked of a valid table",
    "asked of one whose byte disagrees",
    "asked of one that breaks another rule",
];

pub fn asked(byte: u8) -> &'static str {
    match byte {
        0 => "none lit",
        1..=15 => "1 to 15 lit",
        16 => "16 lit",
        17 => "byte 17",
        18..=254 => "byte 18 to 254",
        255 => "byte 255",
    }
}

/// Which table gave an answer.
pub fn asked_of(table: &[u8], house: u8) -> &'static str {
    let house = usize::from(house);
    match table[LIT + house] {
        byte if byte != inputs::lit_of(table, house) => "asked of one whose byte disagrees",
        _ if valid(table) => "asked of a valid table",
        _ => "asked of one that breaks another rule",
    }
}

/// What a refused question came before: a house above 15 has no byte.
pub const LIT_ORDERS: [&str; 2] = ["1 before 2", "1 before 3"];
