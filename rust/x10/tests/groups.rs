//! Groups with and without a reference, by the library.

use x10::*;

/// House A: A1, A2 and A3 are dark lamps and members of group 1 with presets 20, 30 and 40, A1 relative to
/// 5, A2 absolute and A3 relative to 6.
fn room() -> [u8; TABLE_BYTES] {
    let mut table = [0; TABLE_BYTES];
    for (unit, (preset, reference)) in (0..).zip([(20, 5), (30, ABSOLUTE), (40, 6)]) {
        let bytes = [module::LAMP, 0, 0, 2, 0, preset, 0, 0, 0, reference, 0, 0];
        table[record_at(0, unit)..][..RECORD_BYTES].copy_from_slice(&bytes);
    }
    table
}

/// Applies an extended message for house A to a table beside no shutter.
fn told(table: &mut [u8], unit: u8, data: u8, command: u8) -> Answer {
    apply(table, &mut [0; SHUTTER_TABLE_BYTES], Message::extended(0, unit, data, command))
}

/// The levels of A1, A2 and A3 after these messages, data and command each.
fn levels(messages: &[(u8, u8)]) -> [u8; 3] {
    let mut table = room();
    for &(data, command) in messages {
        assert_eq!(told(&mut table, 0, data, command).number(), number::OK);
    }
    [0, 1, 2].map(|unit| table[record_at(0, unit) + record::LEVEL])
}

#[test]
fn an_execution_reaches() {
    // Absolute, whatever its low four bits are.
    for data in [0x40, 0x45, 0x46] {
        assert_eq!(levels(&[(data, 0x36)]), [0, 30, 0]);
    }
    assert_eq!(levels(&[(0x65, 0x36)]), [20, 30, 0]);
    assert_eq!(levels(&[(0x66, 0x36)]), [0, 30, 40]);
    assert_eq!(levels(&[(0x60, 0x36)]), [0, 30, 0]);
    // Of another group, nobody.
    assert_eq!(levels(&[(0x25, 0x36)]), [0, 0, 0]);
}

#[test]
fn an_off_reaches() {
    let on = (0, 0x33);
    assert_eq!(levels(&[on, (0x55, 0x36)]), [63, 0, 63]);
    assert_eq!(levels(&[on, (0x75, 0x36)]), [0, 0, 63]);
    assert_eq!(levels(&[on, (0x7F, 0x36)]), [63, 0, 63]);
}

#[test]
fn a_step_reaches() {
    let on = (0, 0x33);
    assert_eq!(levels(&[on, (0x45, 0x3C)]), [63, 60, 63]);
    assert_eq!(levels(&[on, (0x65, 0x3C)]), [60, 60, 63]);
    assert_eq!(levels(&[(0x55, 0x3C)]), [0, 63, 0]);
    assert_eq!(levels(&[(0x76, 0x3C)]), [0, 63, 63]);
}

/// Groups, presets and references of A1.
fn groups_of(table: &[u8]) -> &[u8] {
    &table[record::GROUPS..RECORD_BYTES]
}

#[test]
fn joining_and_leaving() {
    let mut table = room();
    let messages: [(u8, u8, [u8; 9]); 8] = [
        (7, 0x31, [2, 0, 20, 0, 0, 0, 5, 0, 0]),
        // Bit 4 is not looked at.
        (0x79, 0x30, [2, 0, 7, 0, 0, 0, 9, 0, 0]),
        (0x20, 0x30, [3, 7, 7, 0, 0, 0, 9, 0, 0]),
        (0x4F, 0x30, [3, 7, 7, 0, 0, 0, ABSOLUTE, 0, 0]),
        (0xEF, 0x30, [11, 7, 7, 0, 7, 0, ABSOLUTE, 0, 15]),
        (0xF0, 0x32, [11, 7, 7, 0, 48, 0, ABSOLUTE, 0, ABSOLUTE]),
        (0x02, 0x35, [9, 7, 0, 0, 48, 0, 0, 0, ABSOLUTE]),
        (0xFF, 0x35, [0; 9]),
    ];
    for (data, command, left) in messages {
        assert_eq!(told(&mut table, 0, data, command).number(), number::OK);
        assert_eq!(groups_of(&table), left, "data {data:02X}, command {command:02X}");
    }
}

#[test]
fn a_status_request() {
    let mut table = room();
    for data in 0..=255 {
        let refused = data & 0x30 == 0x20 && data & 15 != 0;
        let number = if refused { number::NOT_CARRIED } else { number::OK };
        assert_eq!(told(&mut table, 0, data, 0x37), Answer::from_bits(u64::from(number)));
    }
    assert_eq!(table, room());
}

#[test]
fn references_are_judged() {
    // A1 is a member of group 1 and of no other, and at A4 is no module.
    for (unit, group, most) in [(0, 1, ABSOLUTE), (0, 0, 0), (0, 3, 0), (3, 1, 0)] {
        for byte in 0..=255 {
            let mut table = room();
            table[record_at(0, unit) + record::REFERENCES + group] = byte;
            let number = if byte <= most { number::OK } else { number::RECORD };
            assert_eq!(told(&mut table, 0, 0, 0x38).number(), number, "unit {unit}, group {group}: {byte}");
        }
    }
}
