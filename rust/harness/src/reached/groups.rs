//! Situations of groups: how units join and leave, whom a call of a group reaches and whom it passes over,
//! and references that break a rule. A call is an execution, an off or a step.

use super::lit::valid;
use crate::inputs::{ABSOLUTE, HEARD, RECORD, REFERENCES};
use x10_model::bytes::MESSAGE;

/// What a message that was carried did to groups. Says whether references are as the message has them, and
/// whether a call changed the levels of those that it reaches and of no others.
pub fn grouped(numbers: [u8; MESSAGE], table: [&[u8]; 2], reach: &mut dyn FnMut(&str)) -> bool {
    let [kind, house, unit, data, command] = numbers;
    let mut records = records(house, table);
    match (kind, command) {
        (3, 0x30 | 0x32) => {
            let (was, is) = records.nth(usize::from(unit)).expect("sixteen records");
            joined(data, command, was, is, reach)
        }
        (3, 0x35) => records.all(|(was, is)| left(was, is, reach)),
        (3, 0x36 | 0x3C) => {
            references_stay(table) && records.all(|(was, is)| called(data, command, was, is, reach))
        }
        _ => references_stay(table),
    }
}

/// The records of a house, each before and after.
fn records(house: u8, [before, after]: [&[u8]; 2]) -> impl Iterator<Item = (&[u8], &[u8])> {
    let first = 16 * RECORD * usize::from(house);
    before[first..].chunks(RECORD).zip(after[first..].chunks(RECORD)).take(16)
}

fn references_stay([before, after]: [&[u8]; 2]) -> bool {
    let mut records = before[..HEARD].chunks(RECORD).zip(after[..HEARD].chunks(RECORD));
    records.all(|(was, is)| was[REFERENCES..] == is[REFERENCES..])
}

/// The group that a data byte names, whether relative to a reference, and that reference.
fn group_of(data: u8) -> (usize, bool, u8) {
    (usize::from(data >> 6), data >> 5 & 1 == 1, data & 15)
}

fn is_member(record: &[u8], group: usize) -> bool {
    record[3] >> group & 1 == 1
}

/// How a unit that is there joined a group.
pub const JOINED: [&str; 9] = [
    "30 joins relative",
    "30 joins relative, bit 4 set",
    "30 relative in place of another reference",
    "30 relative in place of absolute",
    "30 joins absolute",
    "30 joins absolute, low four bits not 0",
    "30 absolute in place of relative",
    "32 joins absolute",
    "32 in place of relative",
];

/// Whether the unit's reference is the one that it joined by.
fn joined(data: u8, command: u8, was: &[u8], is: &[u8], reach: &mut dyn FnMut(&str)) -> bool {
    let (group, bit_5, low) = group_of(data);
    if was[0] == 0 {
        return was == is;
    }
    let reference = if command == 0x30 && bit_5 { low } else { ABSOLUTE };
    let before = is_member(was, group).then_some(was[REFERENCES + group]);
    reach(match (command, reference, before) {
        (0x32, _, Some(..ABSOLUTE)) => "32 in place of relative",
        (0x32, ..) => "32 joins absolute",
        (_, ABSOLUTE, Some(..ABSOLUTE)) => "30 absolute in place of relative",
        (_, ABSOLUTE, _) if low != 0 => "30 joins absolute, low four bits not 0",
        (_, ABSOLUTE, _) => "30 joins absolute",
        (_, _, Some(ABSOLUTE)) => "30 relative in place of absolute",
        (_, _, Some(other)) if other != reference => "30 relative in place of another reference",
        _ if data >> 4 & 1 == 1 => "30 joins relative, bit 4 set",
        _ => "30 joins relative",
    });
    is[REFERENCES + group] == reference
}

/// What became of a module's references when it left a group.
pub const LEFT: [&str; 4] = [
    "35 zeroes a relative reference",
    "35 zeroes an absolute one",
    "35 keeps a relative reference of another group",
    "35 keeps an absolute one of another group",
];

/// Whether the references of groups that were left are 0 and the others as they were.
fn left(was: &[u8], is: &[u8], reach: &mut dyn FnMut(&str)) -> bool {
    (0..4).filter(|group| is_member(was, *group)).all(|group| {
        let (before, after) = (was[REFERENCES + group], is[REFERENCES + group]);
        let stays = is_member(is, group);
        // A reference 0 does not tell.
        if was[3] != is[3] && before != 0 {
            reach(LEFT[2 * usize::from(stays) + usize::from(before == ABSOLUTE)]);
        }
        after == if stays { before } else { 0 }
    })
}

/// Whom a call reached, and whom it passed over; each where being reached changes the level.
pub const CALLED: [&str; 8] = [
    "relative call reaches the reference",
    "relative call reaches an absolute member",
    "relative call passes over another reference",
    "relative call to 0 passes over one that is no member",
    "absolute call reaches an absolute member",
    "absolute call passes over a relative member",
    "absolute call passes over reference 0",
    "absolute call passes over the reference in its low four bits",
];

/// Whether a record's level was changed just where the call reaches it.
fn called(data: u8, command: u8, was: &[u8], is: &[u8], reach: &mut dyn FnMut(&str)) -> bool {
    let changed = was[1] != is[1];
    if !moves(data, command, was) {
        return !changed;
    }
    let (reached, name) = whom(data, was);
    name.into_iter().for_each(&mut *reach);
    if name == Some("relative call reaches the reference") {
        called_by(data).into_iter().for_each(reach);
    }
    changed == reached
}

/// Whether a call changes the level of a record that it reaches.
fn moves(data: u8, command: u8, record: &[u8]) -> bool {
    let (kind, level, preset) = (record[0], record[1], record[4 + group_of(data).0]);
    match (command, data >> 4 & 1) {
        (0x36, 0) => level != preset,
        (0x36, _) => level != 0,
        (_, 0) => kind == 1 && level != 1,
        _ => kind == 1 && level != 63,
    }
}

/// Whether a call reaches a record, and what that is.
fn whom(data: u8, record: &[u8]) -> (bool, Option<&'static str>) {
    let (group, relative, low) = group_of(data);
    if !is_member(record, group) {
        let name = "relative call to 0 passes over one that is no member";
        return (false, (relative && low == 0).then_some(name));
    }
    let (reached, name) = match (relative, record[REFERENCES + group]) {
        (true, ABSOLUTE) => (true, "relative call reaches an absolute member"),
        (true, reference) if reference == low => (true, "relative call reaches the reference"),
        (true, _) => (false, "relative call passes over another reference"),
        (false, ABSOLUTE) => (true, "absolute call reaches an absolute member"),
        (false, 0) => (false, "absolute call passes over reference 0"),
        (false, reference) if reference == low => {
            (false, "absolute call passes over the reference in its low four bits")
        }
        (false, _) => (false, "absolute call passes over a relative member"),
    };
    (reached, Some(name))
}

/// Calls that reached a member with their reference: by the group, and by the reference.
pub const CALLED_BY: [&str; 7] = [
    "group 0 called by a reference",
    "group 1 called by a reference",
    "group 2 called by a reference",
    "group 3 called by a reference",
    "called by reference 0",
    "called by reference 1 to 14",
    "called by reference 15",
];

fn called_by(data: u8) -> [&'static str; 2] {
    let (group, _, reference) = group_of(data);
    let by = match reference {
        0 => "called by reference 0",
        15 => "called by reference 15",
        _ => "called by reference 1 to 14",
    };
    [CALLED_BY[group], by]
}

/// Why a table is refused, where one reference is all that is wrong with it: what it says, of which group it
/// is and in which record. A table of before there were references is of another length.
pub const REFERENCE_BROKEN: [&str; 13] = [
    "reference of group 0 alone",
    "reference of group 1 alone",
    "reference of group 2 alone",
    "reference of group 3 alone",
    "reference 17 of a member",
    "reference above 17 of a member",
    "reference 16 of one that is no member",
    "other reference of one that is no member",
    "reference of an absent unit",
    "reference in A1's record alone",
    "reference in P16's record alone",
    "reference in a record between alone",
    "records of 8 bytes",
];

/// Nothing where something else is wrong.
pub fn reference_broken(table: &[u8]) -> Vec<&'static str> {
    let wrong = (0..HEARD).filter(|place| place % RECORD >= REFERENCES && !reference_ok(table, *place));
    let [place] = wrong.collect::<Vec<_>>()[..] else { return vec![] };
    let mut mended = table.to_vec();
    mended[place] = 0;
    if !valid(&mended) {
        return vec![];
    }
    let whose = match place / RECORD {
        0 => "reference in A1's record alone",
        255 => "reference in P16's record alone",
        _ => "reference in a record between alone",
    };
    vec![REFERENCE_BROKEN[place % RECORD - REFERENCES], said(table, place), whose]
}

/// The record that has this place in a table, and whether it is a member of the group whose reference
/// stands there.
fn around(table: &[u8], place: usize) -> (&[u8], bool) {
    let record = table.chunks(RECORD).nth(place / RECORD).expect("a record");
    (record, is_member(record, place % RECORD - REFERENCES))
}

fn reference_ok(table: &[u8], place: usize) -> bool {
    let (_, member) = around(table, place);
    table[place] <= if member { ABSOLUTE } else { 0 }
}

/// What a wrong reference says.
fn said(table: &[u8], place: usize) -> &'static str {
    let (record, member) = around(table, place);
    match (record[0], member, table[place]) {
        (0, ..) => "reference of an absent unit",
        (_, true, 17) => "reference 17 of a member",
        (_, true, _) => "reference above 17 of a member",
        (_, false, ABSOLUTE) => "reference 16 of one that is no member",
        _ => "other reference of one that is no member",
    }
}
