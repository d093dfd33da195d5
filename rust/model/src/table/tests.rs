//! Tests of the module table; groups against what the bits of a command say, one member at a time.

use super::*;
use crate::drawn::Drawn;
use crate::{shutters, tables};

/// Applies a message where there are no shutters.
fn apply(table: &mut [u8], message: Message) -> Result<usize, Refusal> {
    let counts = tables::apply(table, &mut [0; shutters::LEN], message)?;
    assert_eq!(counts.shutters, 0);
    Ok(counts.modules)
}

/// A table with one module, A1.
fn with_a1(record: Record) -> Vec<u8> {
    house_a(&[record])
}

/// A table with these modules from A1 on, and their number above level 0.
fn house_a(records: &[Record]) -> Vec<u8> {
    let mut table = vec![0; LEN];
    table[..RECORD * records.len()].copy_from_slice(&records.concat());
    table[LIT] = records.iter().filter(|record| record[LEVEL] != 0).count() as u8;
    table
}

fn function(function: Function) -> Message {
    Message::Function { house: 0, function }
}

fn extended(data: u8, command: u8) -> Message {
    Message::Extended { house: 0, unit: 0, data, command }
}

/// Messages that tables do not carry: one of no command, and a request with half of a reference.
const NOT_CARRIED: [Message; 2] = [
    Message::Extended { house: 0, unit: 0, data: 0x20, command: 0x3D },
    Message::Extended { house: 0, unit: 0, data: 0x21, command: 0x37 },
];

/// The record that a message makes of A1, and the count. A's byte says whether A1 is lit then.
fn after(record: Record, message: Message) -> (Record, usize) {
    let mut table = with_a1(record);
    let count = apply(&mut table, message).unwrap();
    assert_eq!(lit(&table, 0), Ok(usize::from(table[LEVEL] > 0)));
    (table[..RECORD].try_into().unwrap(), count)
}

/// What house A says is lit after each of the messages, all of which are carried.
fn lit_after(mut table: Vec<u8>, messages: &[Message]) -> Vec<usize> {
    let one = |message: &Message| {
        apply(&mut table, *message).unwrap();
        lit(&table, 0).unwrap()
    };
    messages.iter().map(one).collect()
}

fn level_after(record: Record, message: Message) -> u8 {
    after(record, message).0[LEVEL]
}

/// A module that is not addressed and has joined no group.
const fn module(kind: u8, level: u8) -> Record {
    [kind, level, 0, 0, 0, 0, 0, 0, 0, 0, 0, 0]
}

/// Addressed lamps, and others that are not.
const LAMP_AT: fn(u8) -> Record = |level| [LAMP, level, 1, 0, 0, 0, 0, 0, 0, 0, 0, 0];
const DARK: Record = module(LAMP, 0);
const OFF: Record = module(APPLIANCE, 0);
const RUNNING: Record = module(APPLIANCE, 63);

/// The record with that membership, whatever it had been in the group.
fn member(mut record: Record, group: usize, preset: u8, reference: u8) -> Record {
    record[GROUPS] |= 1 << group;
    record[PRESETS + group] = preset;
    record[REFERENCES + group] = reference;
    record
}

/// A lamp in all four groups: relative to 0, absolute, relative to 15 and to 7.
const IN_FOUR: Record = [LAMP, 5, 1, 15, 10, 20, 30, 40, 0, 16, 15, 7];

#[test]
fn p8_lamp_2_dim() {
    assert_eq!(level_after(LAMP_AT(2), function(Function::Dim)), 1);
}

#[test]
fn p9_lamp_0_dim() {
    assert_eq!(level_after(LAMP_AT(0), function(Function::Dim)), 60);
}

#[test]
fn p10_lamp_62_bright() {
    assert_eq!(level_after(LAMP_AT(62), function(Function::Bright)), 63);
}

#[test]
fn p11_lamp_31_with_c0() {
    assert_eq!(level_after(LAMP_AT(20), extended(0xC0, 0x31)), 0);
}

#[test]
fn p12_appliance_31_with_05() {
    assert_eq!(level_after(OFF, extended(0x05, 0x31)), 63);
}

#[test]
fn on_leaves_a_lit_module() {
    assert_eq!(after(LAMP_AT(7), function(Function::On)), (LAMP_AT(7), 0));
    assert_eq!(after(LAMP_AT(0), function(Function::On)), (LAMP_AT(63), 1));
    assert_eq!(after(DARK, function(Function::On)).1, 0);
}

#[test]
fn all_units_off_unaddresses() {
    assert_eq!(after(LAMP_AT(7), function(Function::AllUnitsOff)), (DARK, 1));
}

#[test]
fn all_lights_reach_lamps_only() {
    let appliance = [APPLIANCE, 63, 1, 0, 0, 0, 0, 0, 0, 0, 0, 0];
    assert_eq!(after(appliance, function(Function::AllLightsOff)), (appliance, 0));
    assert_eq!(level_after(module(LAMP, 4), function(Function::AllLightsOff)), 0);
    assert_eq!(level_after(module(LAMP, 4), function(Function::AllLightsOn)), 63);
}

#[test]
fn dim_moves_no_appliance() {
    let appliance = [APPLIANCE, 63, 1, 0, 0, 0, 0, 0, 0, 0, 0, 0];
    assert_eq!(after(appliance, function(Function::Dim)), (appliance, 0));
}

#[test]
fn an_address_after_a_function_starts_anew() {
    let mut table = with_a1(LAMP_AT(5));
    let byte = RECORDS * RECORD;
    table[RECORD] = LAMP;
    assert_eq!(apply(&mut table, function(Function::HailRequest)), Ok(0));
    assert_eq!(table[byte], 1);
    assert_eq!(apply(&mut table, Message::Address { house: 0, unit: 1 }), Ok(0));
    assert_eq!((table[ADDRESSED], table[RECORD + ADDRESSED], table[byte]), (0, 1, 0));
    assert_eq!(apply(&mut table, Message::Address { house: 0, unit: 0 }), Ok(0));
    assert_eq!((table[ADDRESSED], table[RECORD + ADDRESSED]), (1, 1));
    // An absent unit is not addressed, and still clears the house.
    assert_eq!(apply(&mut table, function(Function::StatusOn)), Ok(0));
    assert_eq!(apply(&mut table, Message::Address { house: 0, unit: 9 }), Ok(0));
    assert_eq!((table[ADDRESSED], table[RECORD + ADDRESSED], table[byte]), (0, 0, 0));
    assert_eq!(table[9 * RECORD..10 * RECORD], [0; RECORD]);
}

#[test]
fn extended_commands_touch_neither_addressing_nor_house_bytes() {
    let mut table = with_a1(LAMP_AT(5));
    let byte = RECORDS * RECORD;
    for heard in [0, 1] {
        table[byte] = heard;
        for command in 0..=255 {
            for data in [0x00, 0x10, 0x20, 0x31, 0xF3] {
                let _ = apply(&mut table, extended(data, command));
                assert_eq!((table[ADDRESSED], table[byte]), (1, heard));
            }
        }
    }
}

#[test]
fn groups() {
    let joined = after(LAMP_AT(5), extended(0x80, 0x30)).0;
    assert_eq!(joined, [LAMP, 5, 1, 4, 0, 0, 5, 0, 0, 0, 16, 0]);
    let (preset, count) = after(joined, extended(0x4A, 0x32));
    assert_eq!((preset, count), ([LAMP, 5, 1, 6, 0, 10, 5, 0, 0, 16, 16, 0], 0));
    assert_eq!(level_after(preset, extended(0x40, 0x36)), 10);
    assert_eq!(level_after(preset, extended(0x50, 0x36)), 0);
    assert_eq!(level_after(preset, extended(0x00, 0x36)), 5);
    assert_eq!(level_after(preset, extended(0x50, 0x3C)), 8);
    assert_eq!(level_after(preset, extended(0x40, 0x3C)), 2);
    assert_eq!(after(preset, extended(0x02, 0x35)).0, joined);
    assert_eq!(after(preset, extended(0xFF, 0x35)).0, LAMP_AT(5));
    assert_eq!(after(preset, extended(0x00, 0x35)).0, preset);
    assert_eq!(after(RUNNING, extended(0xC1, 0x32)).0, [APPLIANCE, 63, 0, 8, 0, 0, 0, 63, 0, 0, 0, 16]);
    assert_eq!(after(RUNNING, extended(0xC0, 0x32)).0, [APPLIANCE, 63, 0, 8, 0, 0, 0, 0, 0, 0, 0, 16]);
    // Joined at level 0: a member with preset 0.
    assert_eq!(after(LAMP_AT(0), extended(0x00, 0x30)).0, [LAMP, 0, 1, 1, 0, 0, 0, 0, 16, 0, 0, 0]);
    // 3C on a lamp at 0.
    let dark = member(DARK, 0, 0, 16);
    assert_eq!(level_after(dark, extended(0x00, 0x3C)), 60);
    assert_eq!(level_after(dark, extended(0x10, 0x3C)), 63);
}

#[test]
fn groups_with_a_reference() {
    // Group 3 relative to 6, then group 0 relative to 0, which is not absolute.
    let joined = after(LAMP_AT(5), extended(0xE6, 0x30)).0;
    assert_eq!(joined, [LAMP, 5, 1, 8, 0, 0, 0, 5, 0, 0, 0, 6]);
    let joined = after(joined, extended(0x20, 0x30)).0;
    assert_eq!(joined, [LAMP, 5, 1, 9, 5, 0, 0, 5, 0, 0, 0, 6]);
    let moved = after(joined, extended(0x32, 0x31)).0;
    assert_eq!(moved, [LAMP, 50, 1, 9, 5, 0, 0, 5, 0, 0, 0, 6]);
    assert_eq!(level_after(moved, extended(0xE6, 0x36)), 5);
    assert_eq!(level_after(moved, extended(0xF6, 0x36)), 0);
    assert_eq!(level_after(moved, extended(0xF6, 0x3C)), 53);
    assert_eq!(level_after(moved, extended(0xE6, 0x3C)), 47);
    assert_eq!(level_after(moved, extended(0x20, 0x36)), 5);
    for data in [0xC0, 0xC6, 0xD6, 0xE0, 0xE7, 0xF7, 0x00, 0x10, 0x26, 0x36, 0x66] {
        assert_eq!(after(moved, extended(data, 0x36)), (moved, 0), "{data:X}");
        assert_eq!(after(moved, extended(data, 0x3C)), (moved, 0), "{data:X}");
    }
    // 3C on a lamp at 0.
    let dark = member(DARK, 2, 0, 9);
    assert_eq!(level_after(dark, extended(0xA9, 0x3C)), 60);
    assert_eq!(level_after(dark, extended(0xB9, 0x3C)), 63);
}

#[test]
fn joining_replaces_preset_and_reference() {
    let not_yet = |group| after(IN_FOUR, extended(1u8 << group, 0x35)).0;
    for group in 0..4 {
        let number = usize::from(group);
        let befores =
            [IN_FOUR, not_yet(group), member(IN_FOUR, number, 63, 16), member(IN_FOUR, number, 0, 3)];
        for before in befores {
            let joined = |data, command| {
                let (record, count) = after(before, extended(group << 6 | data, command));
                assert_eq!(count, 0);
                record
            };
            for low in 0..16 {
                // The absolute form ignores the low four bits, both ignore bit 4.
                assert_eq!(joined(low, 0x30), member(IN_FOUR, number, 5, 16));
                assert_eq!(joined(0x10 | low, 0x30), member(IN_FOUR, number, 5, 16));
                assert_eq!(joined(0x20 | low, 0x30), member(IN_FOUR, number, 5, low));
                assert_eq!(joined(0x30 | low, 0x30), member(IN_FOUR, number, 5, low));
            }
            for preset in 0..64 {
                assert_eq!(joined(preset, 0x32), member(IN_FOUR, number, preset, 16));
            }
        }
    }
}

#[test]
fn appliances_join() {
    for low in 0..16 {
        assert_eq!(after(RUNNING, extended(0x60 | low, 0x30)).0, member(RUNNING, 1, 63, low));
        assert_eq!(after(OFF, extended(0x60 | low, 0x30)).0, member(OFF, 1, 0, low));
        let joined = member(OFF, 1, 63, low);
        assert_eq!(after(joined, extended(0x41, 0x32)).0, member(OFF, 1, 63, 16));
        assert_eq!(after(joined, extended(0x40, 0x32)).0, member(OFF, 1, 0, 16));
    }
}

#[test]
fn an_absent_unit_joins_nothing() {
    for command in [0x30, 0x31, 0x32] {
        for data in 0..=255 {
            assert_eq!(after([0; RECORD], extended(data, command)), ([0; RECORD], 0));
        }
    }
    for data in (0..16).chain(0xF0..=0xFF) {
        assert_eq!(after([0; RECORD], extended(data, 0x35)), ([0; RECORD], 0));
    }
}

#[test]
fn leaving_zeroes_presets_and_references() {
    let others = [IN_FOUR, member(RUNNING, 3, 63, 2), module(LAMP, 9), module(NONE, 0)];
    for groups in 0..16 {
        let left = others.map(|mut record| {
            record[GROUPS] &= 15 - groups;
            for group in (0..4).filter(|group| groups >> group & 1 == 1) {
                record[PRESETS + group] = 0;
                record[REFERENCES + group] = 0;
            }
            record
        });
        for unit in 0..16 {
            // The unit's form, for one of the four or for none of them.
            let mut table = house_a(&others);
            let mut told = others;
            if let Some(record) = told.get_mut(usize::from(unit)) {
                *record = left[usize::from(unit)];
            }
            let leave = |data| Message::Extended { house: 0, unit, data, command: 0x35 };
            assert_eq!(apply(&mut table, leave(groups)), Ok(0));
            assert_eq!(table, house_a(&told));
            // The house's form, whichever the unit.
            let mut table = house_a(&others);
            assert_eq!(apply(&mut table, leave(0xF0 | groups)), Ok(0));
            assert_eq!(table, house_a(&left));
        }
    }
    assert_eq!(after(IN_FOUR, extended(0x06, 0x35)).0, [LAMP, 5, 1, 9, 10, 0, 0, 40, 0, 0, 0, 7]);
    assert_eq!(after(IN_FOUR, extended(0xFF, 0x35)).0, LAMP_AT(5));
    for data in 0x10..0xF0 {
        assert_eq!(apply(&mut with_a1(IN_FOUR), extended(data, 0x35)), Err(Refusal::NotCarried));
    }
}

/// Modules to be reached through group 1: lamps relative to 3 and 4, an absolute one, one that is in
/// group 2 only, one in no group; appliances relative to 3, absolute and relative to 4; a lamp relative to
/// 0. Lamps have preset 20 and appliances 0.
fn nine() -> [Record; 9] {
    let lamp = module(LAMP, 5);
    [
        member(lamp, 1, 20, 3),
        member(lamp, 1, 20, 4),
        member(lamp, 1, 20, 16),
        member(lamp, 2, 20, 3),
        lamp,
        member(RUNNING, 1, 0, 3),
        member(RUNNING, 1, 0, 16),
        member(RUNNING, 1, 0, 4),
        member(lamp, 1, 20, 0),
    ]
}

/// The levels of the nine after a message, whichever the unit that it names, and the count. All else
/// stays, also the same nine in house B, but for the number that are lit.
fn nine_after(data: u8, command: u8) -> ([u8; 9], usize) {
    let mut before = house_a(&nine());
    before.copy_within(..UNITS * RECORD, UNITS * RECORD);
    before[LIT + 1] = 9;
    let answers: Vec<([u8; 9], usize)> = (0..16)
        .map(|unit| {
            let mut table = before.clone();
            let count = apply(&mut table, Message::Extended { house: 0, unit, data, command }).unwrap();
            let levels = std::array::from_fn(|unit| table[unit * RECORD + LEVEL]);
            let mut told = before.clone();
            for (unit, &level) in levels.iter().enumerate() {
                told[unit * RECORD + LEVEL] = level;
            }
            told[LIT] = levels.iter().filter(|&&level| level > 0).count() as u8;
            assert_eq!(table, told);
            (levels, count)
        })
        .collect();
    assert_eq!(answers, [answers[0]; 16]);
    answers[0]
}

#[test]
fn an_execution_reaches_its_reference_and_absolute_members() {
    assert_eq!(nine_after(0x63, 0x36), ([20, 5, 20, 5, 5, 0, 0, 63, 5], 4));
    assert_eq!(nine_after(0x64, 0x36), ([5, 20, 20, 5, 5, 63, 0, 0, 5], 4));
    assert_eq!(nine_after(0x60, 0x36), ([5, 5, 20, 5, 5, 63, 0, 63, 20], 3));
    assert_eq!(nine_after(0x6F, 0x36), ([5, 5, 20, 5, 5, 63, 0, 63, 5], 2));
    assert_eq!(nine_after(0xA3, 0x36), ([5, 5, 5, 20, 5, 63, 63, 63, 5], 1));
    // An absolute one absolute members only, whatever its low four bits.
    for low in 0..16 {
        assert_eq!(nine_after(0x40 | low, 0x36), ([5, 5, 20, 5, 5, 63, 0, 63, 5], 2));
    }
}

#[test]
fn a_group_off_reaches_its_reference_and_absolute_members() {
    assert_eq!(nine_after(0x73, 0x36), ([0, 5, 0, 5, 5, 0, 0, 63, 5], 4));
    assert_eq!(nine_after(0x74, 0x36), ([5, 0, 0, 5, 5, 63, 0, 0, 5], 4));
    assert_eq!(nine_after(0x70, 0x36), ([5, 5, 0, 5, 5, 63, 0, 63, 0], 3));
    assert_eq!(nine_after(0x7F, 0x36), ([5, 5, 0, 5, 5, 63, 0, 63, 5], 2));
    assert_eq!(nine_after(0xB3, 0x36), ([5, 5, 5, 0, 5, 63, 63, 63, 5], 1));
    for low in 0..16 {
        assert_eq!(nine_after(0x50 | low, 0x36), ([5, 5, 0, 5, 5, 63, 0, 63, 5], 2));
    }
}

#[test]
fn a_step_reaches_lamps_of_its_reference_and_absolute_ones() {
    assert_eq!(nine_after(0x73, 0x3C), ([8, 5, 8, 5, 5, 63, 63, 63, 5], 2));
    assert_eq!(nine_after(0x63, 0x3C), ([2, 5, 2, 5, 5, 63, 63, 63, 5], 2));
    assert_eq!(nine_after(0x74, 0x3C), ([5, 8, 8, 5, 5, 63, 63, 63, 5], 2));
    assert_eq!(nine_after(0x60, 0x3C), ([5, 5, 2, 5, 5, 63, 63, 63, 2], 2));
    assert_eq!(nine_after(0x7F, 0x3C), ([5, 5, 8, 5, 5, 63, 63, 63, 5], 1));
    assert_eq!(nine_after(0xA3, 0x3C), ([5, 5, 5, 2, 5, 63, 63, 63, 5], 1));
    for low in 0..16 {
        assert_eq!(nine_after(0x50 | low, 0x3C), ([5, 5, 8, 5, 5, 63, 63, 63, 5], 1));
        assert_eq!(nine_after(0x40 | low, 0x3C), ([5, 5, 2, 5, 5, 63, 63, 63, 5], 1));
    }
}

#[test]
fn every_group_command_on_every_membership() {
    for (group, reference) in (0..4u8).flat_map(|group| (0..=16).map(move |reference| (group, reference))) {
        let lamp = member(module(LAMP, 40), usize::from(group), 21, reference);
        let appliance = member(OFF, usize::from(group), 63, reference);
        for data in 0..=255 {
            let is_reached = group == data >> 6
                && match data & 0x20 {
                    0 => reference == 16,
                    _ => reference == 16 || reference == data & 0x0F,
                };
            let told = |level, record: Record| if is_reached { level } else { record[LEVEL] };
            let bit_4 = data & 0x10 != 0;
            let (executed, stepped) = (if bit_4 { [0, 0] } else { [21, 63] }, if bit_4 { 43 } else { 37 });
            assert_eq!(level_after(lamp, extended(data, 0x36)), told(executed[0], lamp));
            assert_eq!(level_after(appliance, extended(data, 0x36)), told(executed[1], appliance));
            assert_eq!(level_after(lamp, extended(data, 0x3C)), told(stepped, lamp));
            assert_eq!(level_after(appliance, extended(data, 0x3C)), 0);
        }
    }
}

#[test]
fn requests_and_status_change_nothing() {
    let room = house_a(&nine());
    for data in 0..=255u8 {
        for command in 0x37..=0x3B {
            let refused = command == 0x37 && data & 0x30 == 0x20 && data & 0x0F != 0;
            let told = if refused { Err(Refusal::NotCarried) } else { Ok(0) };
            let mut table = room.clone();
            assert_eq!(apply(&mut table, extended(data, command)), told, "{data:X} {command:X}");
            assert_eq!(table, room);
        }
    }
}

#[test]
fn what_is_carried() {
    let mut carried = Vec::new();
    for command in 0..=255u8 {
        let count = (0..=255).filter(|&data| Extended::read(data, command).is_some()).count();
        if count > 0 {
            carried.push((command, count));
        }
    }
    let told = [
        (0x30, 256),
        (0x31, 256),
        (0x32, 256),
        (0x33, 256),
        (0x34, 256),
        (0x35, 32),
        (0x36, 256),
        (0x37, 196),
        (0x38, 256),
        (0x39, 256),
        (0x3A, 256),
        (0x3B, 256),
        (0x3C, 256),
    ];
    assert_eq!(carried, told);
}

#[test]
fn refusals_in_order_and_nothing_changed() {
    let none = |data, command| Message::Extended { house: 0, unit: 16, data, command };
    for none in [none(0, 0x33), none(0x20, 0x30), none(0x23, 0x36), none(0x33, 0x3C), none(0x21, 0x37)] {
        assert_eq!(apply(&mut [0; LEN - 1], none), Err(Refusal::Table));
        // One record breaks a rule of before there were references, one of theirs.
        for record in [module(LAMP, 64), member(LAMP_AT(9), 2, 9, 17)] {
            let mut bad = with_a1(record);
            let copy = bad.clone();
            assert_eq!(apply(&mut bad, none), Err(Refusal::Message));
            for message in NOT_CARRIED {
                assert_eq!(apply(&mut bad, message), Err(Refusal::Record));
            }
            for data in 0..=255 {
                for command in [0x30, 0x32, 0x35, 0x36, 0x37, 0x3C] {
                    assert_eq!(apply(&mut bad, extended(data, command)), Err(Refusal::Record));
                }
            }
            assert_eq!(bad, copy);
        }
        let mut good = with_a1(IN_FOUR);
        assert_eq!(apply(&mut good, none), Err(Refusal::Message));
        for message in NOT_CARRIED {
            assert_eq!(apply(&mut good, message), Err(Refusal::NotCarried));
        }
        assert_eq!(good, with_a1(IN_FOUR));
    }
}

#[test]
fn lengths_that_are_none() {
    // Those of before there were references and lit bytes too.
    for len in [0, 2064, 2080, 3088, 3103, 3105] {
        let mut table = vec![0; len];
        assert_eq!(apply(&mut table, function(Function::On)), Err(Refusal::Table), "{len}");
        assert_eq!(table, vec![0; len]);
    }
    assert_eq!(apply(&mut [0; 3104], function(Function::On)), Ok(0));
}

#[test]
fn records_that_break_a_rule() {
    let bad: [Record; 23] = [
        [3, 0, 0, 0, 0, 0, 0, 0, 0, 0, 0, 0],
        [NONE, 1, 0, 0, 0, 0, 0, 0, 0, 0, 0, 0],
        [NONE, 0, 1, 0, 0, 0, 0, 0, 0, 0, 0, 0],
        [NONE, 0, 0, 1, 0, 0, 0, 0, 0, 0, 0, 0],
        [NONE, 0, 0, 0, 0, 0, 0, 1, 0, 0, 0, 0],
        [NONE, 0, 0, 0, 0, 0, 0, 0, 16, 0, 0, 0],
        [NONE, 0, 0, 0, 0, 0, 0, 0, 0, 0, 0, 1],
        [NONE, 0, 0, 1, 0, 0, 0, 0, 16, 0, 0, 0],
        [LAMP, 64, 0, 0, 0, 0, 0, 0, 0, 0, 0, 0],
        [LAMP, 0, 2, 0, 0, 0, 0, 0, 0, 0, 0, 0],
        [LAMP, 0, 0, 16, 0, 0, 0, 0, 0, 0, 0, 0],
        [LAMP, 0, 0, 1, 64, 0, 0, 0, 16, 0, 0, 0],
        [LAMP, 0, 0, 1, 0, 1, 0, 0, 16, 0, 0, 0],
        [LAMP, 0, 0, 1, 0, 0, 0, 0, 17, 0, 0, 0],
        [LAMP, 0, 0, 1, 0, 0, 0, 0, 16, 16, 0, 0],
        [LAMP, 0, 0, 7, 0, 0, 0, 0, 16, 16, 16, 1],
        [LAMP, 0, 0, 0, 0, 0, 0, 0, 0, 0, 1, 0],
        [APPLIANCE, 62, 0, 0, 0, 0, 0, 0, 0, 0, 0, 0],
        [APPLIANCE, 0, 0, 8, 0, 0, 0, 62, 0, 0, 0, 0],
        [APPLIANCE, 0, 0, 7, 0, 0, 0, 63, 0, 0, 0, 0],
        [APPLIANCE, 0, 0, 8, 0, 0, 0, 63, 0, 0, 0, 17],
        [APPLIANCE, 0, 0, 8, 0, 0, 0, 63, 0, 0, 16, 0],
        [APPLIANCE, 0, 0, 0, 0, 0, 0, 0, 16, 0, 0, 0],
    ];
    for record in bad {
        let mut table = with_a1(record);
        assert_eq!(apply(&mut table, function(Function::On)), Err(Refusal::Record), "{record:?}");
        assert_eq!(table, with_a1(record));
    }
    let mut table = with_a1(LAMP_AT(0));
    table[RECORDS * RECORD + 15] = 2;
    assert_eq!(apply(&mut table, function(Function::On)), Err(Refusal::Record));
}

#[test]
fn every_reference_of_every_group() {
    let told = |ok| if ok { Ok(0) } else { Err(Refusal::Record) };
    let judged = |record| apply(&mut with_a1(record), function(Function::HailRequest));
    for group in 0..4 {
        for reference in 0..=255 {
            for base in [DARK, OFF, RUNNING, IN_FOUR] {
                assert_eq!(judged(member(base, group, 0, reference)), told(reference <= 16));
                let mut other = member(base, group, 0, reference);
                other[GROUPS] &= !(1 << group);
                assert_eq!(judged(other), told(reference == 0));
            }
            let mut absent = [0; RECORD];
            absent[REFERENCES + group] = reference;
            assert_eq!(judged(absent), told(reference == 0));
        }
    }
    // Every record is judged, whichever the message is for.
    for place in 0..RECORDS {
        let mut table = vec![0; LEN];
        table[place * RECORD..][..RECORD].copy_from_slice(&member(DARK, 3, 0, 16));
        assert_eq!(apply(&mut table, function(Function::HailRequest)), Ok(0));
        table[place * RECORD + REFERENCES + 3] = 17;
        assert_eq!(apply(&mut table, function(Function::HailRequest)), Err(Refusal::Record));
    }
}

/// The rules of a record, one byte after the other.
fn keeps_the_rules(record: &Record) -> bool {
    let is_level = |level: u8| match record[KIND] {
        LAMP => level <= 63,
        _ => level == 0 || level == 63,
    };
    let group_ok = |group: usize| match record[GROUPS] >> group & 1 {
        1 => is_level(record[PRESETS + group]) && record[REFERENCES + group] <= 16,
        _ => record[PRESETS + group] == 0 && record[REFERENCES + group] == 0,
    };
    match record[KIND] {
        NONE => record.iter().all(|&byte| byte == 0),
        LAMP | APPLIANCE => {
            is_level(record[LEVEL]) && record[ADDRESSED] < 2 && record[GROUPS] < 16 && (0..4).all(group_ok)
        }
        _ => false,
    }
}

/// A record that keeps the rules.
fn some_record(drawn: &mut Drawn) -> Record {
    let kind = drawn.below(3) as u8;
    let level = |drawn: &mut Drawn| match kind {
        LAMP => drawn.below(64) as u8,
        _ => 63 * drawn.below(2) as u8,
    };
    if kind == NONE {
        return [0; RECORD];
    }
    let mut record = module(kind, level(drawn));
    record[ADDRESSED] = drawn.below(2) as u8;
    for group in 0..4 {
        if drawn.below(2) == 1 {
            record = member(record, group, level(drawn), drawn.below(17) as u8);
        }
    }
    record
}

#[test]
fn four_groups_at_once_are_judged_as_one_after_the_other() {
    let mut drawn = Drawn(17);
    let mut kept = 0;
    for _ in 0..300_000 {
        let record = some_record(&mut drawn);
        assert!(keeps_the_rules(&record) && record_ok(&record), "{record:?}");
        // One to three bytes at once are others, near the limits or any.
        let mut record = record;
        for _ in 0..=drawn.below(3) {
            let byte = match drawn.below(2) {
                0 => [0, 1, 15, 16, 17, 31, 32, 62, 63, 64, 240, 241, 255][drawn.below(13) as usize],
                _ => drawn.below(256) as u8,
            };
            record[drawn.below(RECORD as u64) as usize] = byte;
        }
        assert_eq!(record_ok(&record), keeps_the_rules(&record), "{record:?}");
        kept += usize::from(record_ok(&record));
    }
    assert!((10_000..290_000).contains(&kept), "{kept}");
}

#[test]
fn a_valid_table_stays_valid() {
    let mut drawn = Drawn(19);
    for _ in 0..100 {
        let mut table = vec![0; LEN];
        for place in 0..RECORDS {
            let record = some_record(&mut drawn);
            table[place * RECORD..][..RECORD].copy_from_slice(&record);
            table[LIT + place / UNITS] += u8::from(record[LEVEL] > 0);
        }
        for _ in 0..200 {
            let (house, unit) = (drawn.below(16) as u8, drawn.below(16) as u8);
            let message = match drawn.below(8) {
                0 => Message::Address { house, unit },
                1 => Message::Function { house, function: Function::ALL[drawn.below(12) as usize] },
                _ => {
                    let (data, command) = (drawn.below(256) as u8, 0x30 + drawn.below(14) as u8);
                    Message::Extended { house, unit, data, command }
                }
            };
            let before = table.clone();
            let applied = apply(&mut table, message);
            assert_eq!(Table::open(&mut table).unwrap().judge(), Ok(()), "{message:?}");
            assert_eq!(lit(&table, house), counted(&table, house));
            let level = |table: &[u8], place: usize| table[place * RECORD + LEVEL];
            let changed = (0..RECORDS).filter(|&place| level(&table, place) != level(&before, place)).count();
            match applied {
                Ok(count) => assert_eq!(count, changed),
                Err(refusal) => assert_eq!((refusal, &table), (Refusal::NotCarried, &before)),
            }
            // The other houses stay.
            let others = |table: &[u8]| {
                let mut table = table.to_vec();
                let house = usize::from(house);
                table[house * UNITS * RECORD..][..UNITS * RECORD].fill(0);
                table[RECORDS * RECORD + house] = 0;
                table[LIT + house] = 0;
                table
            };
            assert_eq!(others(&table), others(&before));
        }
    }
}

#[test]
fn the_byte_follows_functions() {
    use Function::{AllLightsOff, AllLightsOn, AllUnitsOff, Bright, Dim, Off, On, StatusOn};
    let after = |records: &[Record], functions: &[Function]| {
        lit_after(house_a(records), &functions.iter().map(|&each| function(each)).collect::<Vec<_>>())
    };
    let three = [LAMP_AT(0), DARK, RUNNING];
    assert_eq!(after(&three, &[On, StatusOn, Off, Dim, Dim]), [2, 2, 1, 2, 2]);
    assert_eq!(after(&three, &[AllLightsOn, AllLightsOff, Bright]), [3, 1, 2]);
    assert_eq!(after(&three, &[AllLightsOn, AllUnitsOff, On]), [3, 0, 0]);
    // A lamp that is dimmed stays lit.
    assert_eq!(after(&[LAMP_AT(2)], &[Dim, Dim]), [1, 1]);
    assert_eq!(after(&[LAMP_AT(0); UNITS], &[On, Bright, Off]), [16, 16, 0]);
}

#[test]
fn the_byte_follows_extended_commands() {
    let unit = |unit, data, command| Message::Extended { house: 0, unit, data, command };
    let level = |at, data| unit(at, data, 0x31);
    let room = house_a(&[DARK, LAMP_AT(9), OFF]);
    // A dark lamp, the same once more, an appliance, each back to 0, and an absent unit.
    let levels = [level(0, 1), level(0, 63), level(2, 5), level(0, 0xC0), level(2, 0x40), level(9, 7)];
    assert_eq!(lit_after(room.clone(), &levels), [2, 2, 3, 2, 1, 1]);
    let (all, none) = (unit(9, 0, 0x33), unit(9, 0, 0x34));
    assert_eq!(lit_after(room.clone(), &[all, all, none, none]), [3, 3, 0, 0]);
    // Group 1 has A1 at 20 and A2 at 0; when it is called, one goes on and the other off.
    let groups = [unit(0, 0x40 + 20, 0x32), unit(1, 0x40, 0x32), unit(9, 0x40, 0x36), unit(9, 0x50, 0x36)];
    assert_eq!(lit_after(room.clone(), &groups), [1, 1, 1, 0]);
    let steps = [groups[0], unit(9, 0x40, 0x3C), unit(9, 0x50, 0x36), unit(9, 0x50, 0x3C)];
    assert_eq!(lit_after(room.clone(), &steps), [1, 2, 1, 2]);
    // A2 joins relative to 8: put off and on again by that alone.
    let relative = [unit(1, 0x68, 0x30), unit(9, 0x50, 0x36), unit(9, 0x78, 0x36), unit(9, 0x68, 0x36)];
    assert_eq!(lit_after(room, &relative), [1, 1, 0, 1]);
}

#[test]
fn each_house_has_its_own_byte() {
    let mut table = vec![0; LEN];
    table[..RECORDS * RECORD].as_chunks_mut().0.fill(DARK);
    for house in 0..16 {
        let on = Message::Function { house, function: Function::AllLightsOn };
        assert_eq!(apply(&mut table, on), Ok(16));
        let mut told = [0; HOUSES];
        told[..=usize::from(house)].fill(16);
        assert_eq!(table[LIT..], told);
    }
    assert_eq!(table[RECORDS * RECORD..LIT], [1; HOUSES]);
}

#[test]
fn a_byte_that_disagrees_breaks_a_rule() {
    let records = [LAMP_AT(1), DARK, RUNNING];
    for byte in 0..=255 {
        let mut table = house_a(&records);
        table[LIT] = byte;
        let copy = table.clone();
        let told = if byte == 2 { Ok(0) } else { Err(Refusal::Record) };
        assert_eq!(apply(&mut table, function(Function::HailRequest)), told, "{byte}");
        assert_eq!(table[LIT..], copy[LIT..]);
        // 4 comes after it.
        let told = if byte == 2 { Refusal::NotCarried } else { Refusal::Record };
        let mut table = copy.clone();
        for message in NOT_CARRIED {
            assert_eq!(apply(&mut table, message), Err(told), "{byte}");
        }
        assert_eq!(table, copy);
    }
    // Every house is judged, whichever the message is for.
    for house in 0..HOUSES {
        let mut table = house_a(&records);
        table[LIT + house] += 1;
        assert_eq!(apply(&mut table, function(Function::HailRequest)), Err(Refusal::Record));
    }
}

#[test]
fn the_question_reads_its_byte_alone() {
    // Whatever the records are: 5 for a table with no module, and where every other byte is 255.
    for other in [0, 255] {
        for house in 0..16 {
            let mut table = [other; LEN];
            let place = LIT + usize::from(house);
            for byte in 0..=16 {
                table[place] = byte;
                assert_eq!(lit(&table, house), Ok(usize::from(byte)));
            }
            for byte in 17..=255 {
                table[place] = byte;
                assert_eq!(lit(&table, house), Err(Refusal::Record));
            }
        }
    }
}

#[test]
fn the_question_refuses_in_order() {
    let table = [255; LEN + 1];
    for len in [0, LIT - 1, LIT, LEN - 1, LEN + 1] {
        for house in [0, 15, 16, 255] {
            assert_eq!(lit(&table[..len], house), Err(Refusal::Table));
            assert_eq!(counted(&table[..len], house), Err(Refusal::Table));
        }
    }
    for house in 16..=255 {
        assert_eq!(lit(&table[..LEN], house), Err(Refusal::Message));
        assert_eq!(counted(&table[..LEN], house), Err(Refusal::Message));
    }
    assert_eq!(lit(&table[..LEN], 15), Err(Refusal::Record));
    assert_eq!((LIT, LEN), (3088, 3104));
}

#[test]
fn the_question_equals_the_count_over_a_valid_table() {
    for n in 0..=UNITS {
        let mut records = [DARK; UNITS];
        records[UNITS - n..].fill(LAMP_AT(1));
        records[0] = if n == UNITS { RUNNING } else { OFF };
        let mut table = house_a(&records);
        assert_eq!(apply(&mut table, function(Function::HailRequest)), Ok(0));
        assert_eq!((lit(&table, 0), counted(&table, 0)), (Ok(n), Ok(n)));
        assert_eq!((lit(&table, 1), counted(&table, 1)), (Ok(0), Ok(0)));
    }
}
