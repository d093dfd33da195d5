//! Each command of type 0 on shutters at A1, A2, B1 and P16, and the rules of the table.

use super::*;
use crate::message::{Function, Message};
use crate::table;
use crate::tables::{self, Counts};

/// Present, with opening, limit and protection, in no lifestyle.
fn shutter(opening: u8, limit: u8, protection: u8) -> Shutter {
    let mut shutter = [0; SHUTTER];
    shutter[..4].copy_from_slice(&[1, opening, limit, protection]);
    shutter
}

/// The same, included in a lifestyle.
fn included(shutter: Shutter, lifestyle: usize, opening: u8) -> Shutter {
    let mut included = shutter;
    included[MARKS + lifestyle] = 1;
    included[OPENINGS + lifestyle] = opening;
    included
}

/// Places that are filled: A1, A2, B1 and P16.
const FILLED: [usize; 4] = [0, 1, 16, 255];

fn filled(shutters: [Shutter; 4]) -> Vec<u8> {
    let mut table = vec![0; LEN];
    let (places, _) = table.as_chunks_mut::<SHUTTER>();
    for (place, shutter) in FILLED.into_iter().zip(shutters) {
        places[place] = shutter;
    }
    table
}

/// What a message for A1, or for the unit named, makes of the four, and how many moved. The other
/// places stay absent, and a table of modules stays as it is.
fn after_for(unit: u8, shutters: [Shutter; 4], data: u8, command: u8) -> ([Shutter; 4], usize) {
    let mut table = filled(shutters);
    let mut modules = vec![0; table::LEN];
    modules[..12].copy_from_slice(&[1, 40, 1, 1, 9, 0, 0, 0, 7, 0, 0, 0]);
    modules[table::LIT] = 1;
    let before = modules.clone();
    let message = Message::Extended { house: 0, unit, data, command };
    let counts = tables::apply(&mut modules, &mut table, message).unwrap();
    assert_eq!((modules, counts.modules), (before, 0));
    let (places, _) = table.as_chunks::<SHUTTER>();
    let four = FILLED.map(|place| places[place]);
    assert_eq!(table, filled(four));
    (four, counts.shutters)
}

fn after(shutters: [Shutter; 4], data: u8, command: u8) -> ([Shutter; 4], usize) {
    after_for(0, shutters, data, command)
}

/// What a message for A1 makes of it; the others stay.
fn a1(first: Shutter, data: u8, command: u8) -> (Shutter, usize) {
    let others = [included(shutter(7, 9, 0), 3, 4), shutter(20, 2, 0), shutter(5, 5, 1)];
    let ([first, rest @ ..], count) = after([first, others[0], others[1], others[2]], data, command);
    assert_eq!(rest, others);
    (first, count)
}

#[test]
fn open_with_protection_is_cut_by_the_limit() {
    assert_eq!(a1(shutter(3, 10, 0), 7, 0x01), (shutter(7, 10, 1), 1));
    assert_eq!(a1(shutter(3, 10, 0), 25, 0x01), (shutter(10, 10, 1), 1));
    assert_eq!(a1(shutter(10, 10, 1), 25, 0x01), (shutter(10, 10, 1), 0));
    // Protection arrives, and the opening asked for is that of before: it is cut all the same.
    assert_eq!(a1(shutter(20, 10, 0), 20, 0x01), (shutter(10, 10, 1), 1));
    assert_eq!(a1(shutter(20, 0, 0), 20, 0x01), (shutter(0, 0, 1), 1));
}

#[test]
fn a_limit_enables_protection_and_cuts() {
    assert_eq!(a1(shutter(20, 0, 0), 12, 0x02), (shutter(12, 12, 1), 1));
    assert_eq!(a1(shutter(20, 25, 1), 12, 0x02), (shutter(12, 12, 1), 1));
    // A wider limit opens nothing.
    assert_eq!(a1(shutter(12, 12, 1), 25, 0x02), (shutter(12, 25, 1), 0));
    assert_eq!(a1(shutter(5, 3, 0), 5, 0x02), (shutter(5, 5, 1), 0));
    assert_eq!(a1(shutter(5, 3, 0), 0, 0x02), (shutter(0, 0, 1), 1));
}

#[test]
fn open_without_protection_leaves_the_limit_stored() {
    assert_eq!(a1(shutter(4, 10, 1), 25, 0x03), (shutter(25, 10, 0), 1));
    assert_eq!(a1(shutter(4, 10, 1), 4, 0x03), (shutter(4, 10, 0), 0));
    assert_eq!(a1(shutter(25, 10, 0), 0, 0x03), (shutter(0, 10, 0), 1));
}

#[test]
fn the_top_bits_of_an_opening_are_not_looked_at() {
    for x in 0..8 {
        assert_eq!(a1(shutter(3, 25, 0), x << 5 | 7, 0x01), (shutter(7, 25, 1), 1));
        assert_eq!(a1(shutter(3, 25, 0), x << 5 | 7, 0x02), (shutter(3, 7, 1), 0));
        assert_eq!(a1(shutter(3, 25, 1), x << 5 | 7, 0x03), (shutter(7, 25, 0), 1));
    }
}

#[test]
fn open_and_close_a_house() {
    let four = [shutter(0, 3, 1), shutter(25, 3, 0), shutter(0, 3, 1), shutter(9, 9, 1)];
    for (unit, data) in [(0, 0), (9, 255), (15, 31)] {
        let open = [shutter(25, 3, 0), shutter(25, 3, 0), four[2], four[3]];
        assert_eq!(after_for(unit, four, data, 0x04), (open, 1));
        let closed = [shutter(0, 3, 1), shutter(0, 3, 1), four[2], four[3]];
        assert_eq!(after_for(unit, four, data, 0x0B), (closed, 1));
    }
}

#[test]
fn open_and_close_every_house() {
    let four = [shutter(0, 3, 1), shutter(25, 3, 0), shutter(0, 3, 0), shutter(9, 9, 1)];
    for (unit, data) in [(0, 0), (9, 255), (15, 31)] {
        let open = [shutter(25, 3, 0), shutter(25, 3, 0), shutter(25, 3, 0), shutter(25, 9, 0)];
        assert_eq!(after_for(unit, four, data, 0x05), (open, 3));
        let closed = [shutter(0, 3, 1), shutter(0, 3, 1), shutter(0, 3, 1), shutter(0, 9, 1)];
        assert_eq!(after_for(unit, four, data, 0x0C), (closed, 2));
    }
}

#[test]
fn include_is_never_cut_and_moves_nothing() {
    for lifestyle in 0..8 {
        let data = (lifestyle as u8) << 5 | 25;
        let protected = shutter(2, 2, 1);
        assert_eq!(a1(protected, data, 0x07), (included(protected, lifestyle, 25), 0));
        let again = included(protected, lifestyle, 25);
        assert_eq!(a1(again, data - 25, 0x07), (included(protected, lifestyle, 0), 0));
    }
}

#[test]
fn begin_reaches_those_included_in_every_house() {
    let four = [
        included(shutter(1, 8, 1), 5, 25),
        included(shutter(1, 8, 0), 5, 25),
        included(shutter(1, 8, 0), 4, 25),
        included(shutter(1, 8, 1), 5, 0),
    ];
    for x in [0, 9, 31] {
        let begun = [
            // Protection stays as it is, and cuts the opening but not what is stored.
            included(shutter(8, 8, 1), 5, 25),
            included(shutter(25, 8, 0), 5, 25),
            four[2],
            included(shutter(0, 8, 1), 5, 0),
        ];
        assert_eq!(after_for(9, four, 5 << 5 | x, 0x08), (begun, 3));
        assert_eq!(after_for(9, four, 3 << 5 | x, 0x08), (four, 0));
    }
}

#[test]
fn a_limit_that_arrives_later_does_not_cut_what_is_stored() {
    let stored = included(included(shutter(25, 25, 0), 0, 25), 7, 20);
    let (limited, count) = a1(stored, 6, 0x02);
    assert_eq!((limited, count), (included(included(shutter(6, 6, 1), 0, 25), 7, 20), 1));
    let (begun, count) = a1(limited, 7 << 5, 0x08);
    assert_eq!((begun, count), (limited, 0));
    let (open, _) = a1(begun, 6, 0x03);
    assert_eq!(a1(open, 7 << 5, 0x08), (included(included(shutter(20, 6, 0), 0, 25), 7, 20), 1));
}

#[test]
fn exclude_the_unit_from_one() {
    let one = included(shutter(3, 9, 1), 6, 4);
    let both = included(one, 2, 0);
    assert_eq!(a1(both, 2 << 5 | 31, 0x09), (one, 0));
    assert_eq!(a1(both, 1 << 5, 0x09), (both, 0));
    assert_eq!(a1(one, 6 << 5, 0x09), (shutter(3, 9, 1), 0));
}

#[test]
fn exclude_all_from_all() {
    let bare = [shutter(3, 9, 1), shutter(25, 0, 0), shutter(0, 0, 1), shutter(9, 9, 0)];
    let mut four = bare;
    for lifestyle in 0..8 {
        four = four.map(|shutter| included(shutter, lifestyle, 3 * lifestyle as u8));
    }
    assert_eq!(after_for(9, four, 255, 0x0A), (bare, 0));
}

#[test]
fn self_tests_are_heard_only() {
    let four = [included(shutter(3, 9, 1), 6, 4), shutter(25, 0, 0), shutter(0, 0, 1), shutter(9, 9, 0)];
    for data in 0..=255 {
        assert_eq!(after(four, data, 0x0E), (four, 0));
        assert_eq!(after(four, data, 0x0F), (four, 0));
    }
}

#[test]
fn absent_shutters_stay_all_zeros() {
    let four = [included(shutter(3, 9, 1), 6, 4), shutter(25, 0, 0), shutter(0, 0, 1), shutter(9, 9, 0)];
    for command in [0x01, 0x02, 0x03, 0x07, 0x09, 0x0E, 0x0F] {
        for lifestyle in 0..8 {
            assert_eq!(after_for(2, four, lifestyle << 5 | 20, command), (four, 0));
        }
    }
    let mut nothing = vec![0; LEN];
    for command in (1..=15).filter(|command| ![6, 13].contains(command)) {
        let message = Message::Extended { house: 15, unit: 15, data: 25, command };
        let counts = tables::apply(&mut [0; table::LEN], &mut nothing, message);
        assert_eq!((counts, &nothing), (Ok(Counts::default()), &vec![0; LEN]));
    }
}

#[test]
fn other_messages_leave_shutters() {
    let shutters = [shutter(3, 9, 1), shutter(25, 0, 0), shutter(0, 0, 1), shutter(9, 9, 0)];
    let mut table = filled(shutters);
    let mut modules = vec![0; table::LEN];
    let mut messages: Vec<Message> =
        Function::ALL.iter().map(|&function| Message::Function { house: 0, function }).collect();
    messages.push(Message::Address { house: 0, unit: 0 });
    for command in 0x10..=0xFF {
        messages.extend((0..=255).map(|data| Message::Extended { house: 0, unit: 0, data, command }));
    }
    for message in messages {
        let applied = tables::apply(&mut modules, &mut table, message);
        assert!(applied.is_err() || applied.unwrap().shutters == 0);
        assert_eq!(table, filled(shutters));
    }
}

#[test]
fn what_is_carried_and_18_by_the_data_alone() {
    for command in 0..=15 {
        for data in 0..=255 {
            let told = match command {
                0x00 | 0x06 | 0x0D => Err(Refusal::NotCarried),
                0x01 | 0x02 | 0x03 | 0x07 if data % 32 > 25 => Err(Refusal::Opening),
                _ => Ok(()),
            };
            assert_eq!(Command::read(data, command).map(drop), told, "{command} {data}");
            // Whether or not the unit is there.
            for unit in [0, 2] {
                let mut table = filled([shutter(3, 9, 1); 4]);
                let message = Message::Extended { house: 0, unit, data, command };
                let applied = tables::apply(&mut [0; table::LEN], &mut table, message);
                assert_eq!(applied.map(drop), told);
                assert!(told.is_ok() || table == filled([shutter(3, 9, 1); 4]));
            }
        }
    }
}

/// The rules once more, one after the other.
fn keeps_rules(shutter: &Shutter) -> bool {
    let [present, opening, limit, protection, lifestyles @ ..] = *shutter;
    let (marks, openings) = lifestyles.split_at(8);
    let stored = |(&mark, &opening): (&u8, &u8)| mark <= 1 && opening <= 25 * mark;
    match present {
        0 => *shutter == [0; SHUTTER],
        1 => {
            opening <= 25
                && limit <= 25
                && protection <= 1
                && (protection == 0 || opening <= limit)
                && marks.iter().zip(openings).all(stored)
        }
        _ => false,
    }
}

#[test]
fn every_byte_at_every_place_of_a_shutter() {
    let bases = [
        [0; SHUTTER],
        shutter(0, 0, 0),
        shutter(9, 9, 1),
        shutter(25, 3, 0),
        included(shutter(25, 25, 1), 0, 25),
        [1, 5, 6, 1, 1, 1, 1, 1, 1, 1, 1, 1, 25, 25, 25, 25, 25, 25, 25, 25],
    ];
    let mut broken = 0;
    for base in bases {
        for place in 0..SHUTTER {
            for byte in 0..=255 {
                let mut shutter = base;
                shutter[place] = byte;
                assert_eq!(shutter_ok(&shutter), keeps_rules(&shutter), "{shutter:?}");
                broken += usize::from(!shutter_ok(&shutter));
            }
        }
    }
    assert!(broken > 20_000);
}

#[test]
fn every_two_bytes_of_a_shutter() {
    const EDGES: [u8; 14] = [0, 1, 2, 3, 24, 25, 26, 31, 32, 57, 58, 128, 250, 255];
    for base in [[0; SHUTTER], shutter(9, 9, 1), included(shutter(25, 25, 1), 3, 25)] {
        for first in 0..SHUTTER {
            for second in 0..first {
                for (a, b) in EDGES.iter().flat_map(|&a| EDGES.map(|b| (a, b))) {
                    let mut shutter = base;
                    shutter[first] = a;
                    shutter[second] = b;
                    assert_eq!(shutter_ok(&shutter), keeps_rules(&shutter), "{shutter:?}");
                }
            }
        }
    }
}

#[test]
fn a_rule_is_broken_at_the_first_and_at_the_last() {
    for place in [0, LEN - SHUTTER] {
        let mut table = filled([shutter(9, 9, 1); 4]);
        assert_eq!(Shutters::open(&mut table).unwrap().judge(), Ok(()));
        table[place + OPENING] = 10;
        assert_eq!(Shutters::open(&mut table).unwrap().judge(), Err(Refusal::ShutterRecord));
    }
}
