//! Situations of shutters: lengths, broken rules, what a message of type 0 did.

use super::only;
use crate::inputs::{RECORD, SHUTTER};
use x10_model::bytes::MESSAGE;

/// The shutter table's length against the one that is asked for.
pub const SHUTTER_LENGTHS: [&str; 5] =
    ["shutters empty", "shutters one short", "shutters exact", "shutters one over", "shutters other length"];

/// Why a table breaks a rule, where there is one cause in one shutter: in the first, in the last, in one
/// between.
pub const BROKEN: [[&str; 9]; 3] = [
    [
        "first: present above 1",
        "first: opening above 25",
        "first: limit above 25",
        "first: protection above 1",
        "first: mark above 1",
        "first: stored opening above 25",
        "first: stored opening without a mark",
        "first: protected above its limit",
        "first: absent and not all zeros",
    ],
    [
        "last: present above 1",
        "last: opening above 25",
        "last: limit above 25",
        "last: protection above 1",
        "last: mark above 1",
        "last: stored opening above 25",
        "last: stored opening without a mark",
        "last: protected above its limit",
        "last: absent and not all zeros",
    ],
    [
        "between: present above 1",
        "between: opening above 25",
        "between: limit above 25",
        "between: protection above 1",
        "between: mark above 1",
        "between: stored opening above 25",
        "between: stored opening without a mark",
        "between: protected above its limit",
        "between: absent and not all zeros",
    ],
];

/// None where there is more than one cause.
pub fn broken(table: &[u8]) -> Option<&'static str> {
    let causes = table.chunks(SHUTTER).enumerate().map(|(i, shutter)| {
        let names = match i {
            0 => &BROKEN[0],
            255 => &BROKEN[1],
            _ => &BROKEN[2],
        };
        causes_of(shutter, names)
    });
    only(&causes.flatten().collect::<Vec<_>>())
}

fn causes_of(shutter: &[u8], names: &[&'static str; 9]) -> [(bool, &'static str); 9] {
    let [present, opening, limit, protection] = shutter[..4] else { unreachable!("twenty bytes") };
    let stored = || shutter[4..12].iter().zip(&shutter[12..]);
    let causes = [
        present > 1,
        opening > 25,
        limit > 25,
        protection > 1,
        stored().any(|(&mark, _)| mark > 1),
        stored().any(|(_, &opening)| opening > 25),
        stored().any(|(&mark, &opening)| mark == 0 && opening > 0),
        protection == 1 && opening > limit,
        present == 0 && shutter[1..].iter().any(|&byte| byte != 0),
    ];
    let mut named = names.map(|name| (false, name));
    named.iter_mut().zip(causes).for_each(|(named, holds)| named.0 = holds);
    named
}

/// Messages of type 0. A command is counted where it moved a shutter; 02, 07, 09 and 0A where they
/// changed one, 0E and 0F wherever they were carried.
pub const TYPE_0: [&str; 31] = [
    "01",
    "02",
    "03",
    "04",
    "05",
    "07",
    "08",
    "09",
    "0A",
    "0B",
    "0C",
    "0E",
    "0F",
    "01 names an absent shutter",
    "02 names an absent shutter",
    "03 names an absent shutter",
    "07 names an absent shutter",
    "09 names an absent shutter",
    "01 cut by the limit",
    "01 enables protection and cuts what stood above",
    "02 enables protection and cuts",
    "02 cuts a protected opening",
    "02 widens a limit",
    "03 stands above the limit",
    "07 stores above a protected limit",
    "07 stores anew",
    "08 cut by the limit",
    "08 above the limit, unprotected",
    "08 passes over one that is not included",
    "0B enables protection",
    "0C enables protection",
];

/// What a message of type 0 that was carried did.
pub fn type_0(numbers: [u8; MESSAGE], before: &[u8], after: &[u8], reach: &mut dyn FnMut(&str)) {
    let [_, house, unit, data, command] = numbers;
    let (lifestyle, asked) = (usize::from(data >> 5), data & 31);
    let named = SHUTTER * (16 * usize::from(house) + usize::from(unit));
    let (was, is) = (&before[named..][..SHUTTER], &after[named..][..SHUTTER]);
    let there = was[0] == 1;
    let moved = before.chunks(SHUTTER).zip(after.chunks(SHUTTER)).any(|(was, is)| was[1] != is[1]);
    let came = match command {
        0x02 | 0x07 | 0x09 | 0x0A => before != after,
        0x0E | 0x0F => true,
        _ => moved,
    };
    let name = format!("{command:02X}");
    if came {
        reach(&name);
    }
    if matches!(command, 1..=3 | 7 | 9) && !there {
        reach(&format!("{name} names an absent shutter"));
    }
    let begun = |shutter: &&[u8]| shutter[4 + lifestyle] == 1 && shutter[12 + lifestyle] > shutter[2];
    let any = |holds: &dyn Fn(&&[u8]) -> bool| before.chunks(SHUTTER).any(|shutter| holds(&shutter));
    let enables = |first: usize, last: usize| {
        let shutters = before.chunks(SHUTTER).zip(after.chunks(SHUTTER)).skip(first).take(last);
        shutters.into_iter().any(|(was, is)| was[3] == 0 && is[3] == 1)
    };
    let situations = [
        (command == 1 && there && asked > was[2], "01 cut by the limit"),
        (
            command == 1 && was[3] == 0 && was[1] > was[2] && is[1] < was[1] && asked >= was[1],
            "01 enables protection and cuts what stood above",
        ),
        (command == 2 && was[3] == 0 && is[1] < was[1], "02 enables protection and cuts"),
        (command == 2 && was[3] == 1 && is[1] < was[1], "02 cuts a protected opening"),
        (command == 2 && was[3] == 1 && is[2] > was[2], "02 widens a limit"),
        (command == 3 && there && asked > was[2], "03 stands above the limit"),
        (command == 7 && was[3] == 1 && asked > was[2], "07 stores above a protected limit"),
        (command == 7 && was[4 + lifestyle] == 1 && was != is, "07 stores anew"),
        (command == 8 && any(&|shutter| begun(shutter) && shutter[3] == 1), "08 cut by the limit"),
        (
            command == 8 && any(&|shutter| begun(shutter) && shutter[3] == 0),
            "08 above the limit, unprotected",
        ),
        (
            command == 8 && any(&|shutter| shutter[0] == 1 && shutter[4 + lifestyle] == 0),
            "08 passes over one that is not included",
        ),
        (command == 0x0B && enables(16 * usize::from(house), 16), "0B enables protection"),
        (command == 0x0C && enables(0, 256), "0C enables protection"),
    ];
    situations.iter().filter(|(holds, _)| *holds).for_each(|(_, name)| reach(name));
}

/// How many shutters were moved.
pub const SHUTTER_COUNTS: [&str; 5] =
    ["0 shutters moved", "1 shutter", "2 to 16 shutters", "17 to 255 shutters", "256 shutters"];

pub fn shutter_count(count: usize) -> &'static str {
    match count {
        0 => "0 shutters moved",
        1 => "1 shutter",
        2..=16 => "2 to 16 shutters",
        17..=255 => "17 to 255 shutters",
        _ => "256 shutters",
    }
}

/// What stood in the table that a message is not for, and must stay.
pub const BESIDE: [&str; 4] = [
    "address beside shutters",
    "function beside shutters",
    "other extended beside shutters",
    "type 0 beside modules",
];

pub fn beside([kind, .., command]: [u8; MESSAGE], table: &[u8], shutters: &[u8]) -> Option<&'static str> {
    let name = match (kind, command) {
        (1, _) => BESIDE[0],
        (2, _) => BESIDE[1],
        (_, 0x10..) => BESIDE[2],
        _ => BESIDE[3],
    };
    let (other, size) = if name == BESIDE[3] { (table, RECORD) } else { (shutters, SHUTTER) };
    other.chunks(size).take(256).any(|entry| entry[0] != 0).then_some(name)
}
