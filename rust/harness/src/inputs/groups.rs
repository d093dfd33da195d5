//! Groups: references of members, right and wrong, and messages that join, call and leave.

use super::{edge, send, RECORD, RECORDS};
use crate::rng::Rng;
use x10_model::bytes::MESSAGE;

/// Where a record's references begin, group 0 first, and the one of an absolute member.
pub const REFERENCES: usize = 8;
pub const ABSOLUTE: u8 = 16;

/// Bytes of a table of before there were references.
pub const TABLE_BEFORE: usize = RECORDS * 8 + 32;

/// Gives each membership of a record a reference: absolute, one that others have too, or any.
pub fn refer(rng: &mut Rng, record: &mut [u8; RECORD]) {
    for group in 0..4 {
        if record[3] >> group & 1 == 1 {
            record[REFERENCES + group] = if rng.one_in(3) { ABSOLUTE } else { reference(rng) };
        }
    }
}

/// One of a few references, or any.
fn reference(rng: &mut Rng) -> u8 {
    if rng.one_in(2) {
        rng.pick(&[0, 1, 15])
    } else {
        rng.below(16) as u8
    }
}

/// Changes one reference, more often than not of the first or the last record; of a member it may be right
/// all the same.
pub fn damage_reference(rng: &mut Rng, bytes: &mut [u8]) {
    let record = match rng.below(4) {
        0 => 0,
        1 => RECORDS - 1,
        _ => rng.below(RECORDS),
    };
    let byte = if rng.one_in(4) { edge(rng) } else { rng.pick(&[1, 15, ABSOLUTE, ABSOLUTE + 1]) };
    bytes[RECORD * record + REFERENCES + rng.below(4)] = byte;
}

/// A message that joins, calls or leaves a group, or asks for its state, with a reference that members of a
/// table often have.
pub fn group_message(rng: &mut Rng, house: u8) -> [u8; MESSAGE] {
    let group = rng.below(4) as u8;
    let data = group << 6 | (rng.below(4) << 4) as u8 | reference(rng);
    match rng.pick(&[0x30, 0x30, 0x32, 0x35, 0x36, 0x36, 0x36, 0x37, 0x3C, 0x3C]) {
        0x35 => leave(rng, house, group),
        command => extended(rng, house, data, command),
    }
}

/// An extended message for a house and some unit of it.
fn extended(rng: &mut Rng, house: u8, data: u8, command: u8) -> [u8; MESSAGE] {
    [3, house, rng.below(16) as u8, data, command]
}

/// A unit or the house leaves a group.
fn leave(rng: &mut Rng, house: u8, group: u8) -> [u8; MESSAGE] {
    let whose = rng.pick(&[0x00, 0xF0]);
    extended(rng, house, whose | 1 << group, 0x35)
}

/// Units of a house join one group, by a reference, by another or absolute. All units are switched on or
/// off, and the group is called by either reference and absolute; then a unit or the house leaves it, and
/// it is called again.
pub fn joined_and_called(rng: &mut Rng, house: u8) -> Vec<[u8; MESSAGE]> {
    let group = rng.below(4) as u8;
    let (one, other) = (reference(rng), rng.below(16) as u8);
    let of_group = |rng: &mut Rng, commands: &[u8]| {
        let form = rng.pick(&[0x20 | one, 0x20 | one, 0x20 | other, one]);
        let data = group << 6 | (rng.below(2) << 4) as u8 | form;
        let command = rng.pick(commands);
        extended(rng, house, data, command)
    };
    let mut messages = Vec::new();
    messages.extend((0..5).map(|_| of_group(rng, &[0x30, 0x30, 0x32])));
    let switched = rng.pick(&[0x33, 0x34]);
    messages.push(extended(rng, house, 0, switched));
    messages.extend((0..5).map(|_| of_group(rng, &[0x36, 0x36, 0x37, 0x3C])));
    messages.push(leave(rng, house, group));
    messages.extend((0..2).map(|_| of_group(rng, &[0x36, 0x3C])));
    messages
}

/// The bursts of such messages.
pub fn group_presses(rng: &mut Rng, line: &mut Vec<u8>) {
    line.clear();
    let house = rng.below(16) as u8;
    for numbers in joined_and_called(rng, house) {
        send(rng, numbers, line);
    }
}
