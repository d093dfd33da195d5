//! The question how many modules of a house are lit, by the library.

use x10::*;

/// House B with a dark lamp, a lamp at 1 and an appliance that is on.
fn room() -> [u8; TABLE_BYTES] {
    let mut table = [0; TABLE_BYTES];
    let modules = [(module::LAMP, 0), (module::LAMP, 1), (module::APPLIANCE, 63)];
    for (unit, (kind, level)) in (0..).zip(modules) {
        table[record_at(1, unit) + record::KIND] = kind;
        table[record_at(1, unit) + record::LEVEL] = level;
    }
    table[LIT_AT + 1] = 2;
    table
}

/// Number and count.
fn told(answer: Answer) -> (u8, u64) {
    (answer.number(), answer.count())
}

#[test]
fn it_is_true_after_each_message() {
    let (mut table, mut shutters) = (room(), [0; SHUTTER_TABLE_BYTES]);
    let messages = [
        (Message::address(1, 0), 2),
        (Message::function(1, function::ON), 3),
        (Message::function(1, function::ALL_LIGHTS_OFF), 1),
        (Message::extended(1, 1, 20, 0x31), 2),
        (Message::function(0, function::ALL_LIGHTS_ON), 2),
        (Message::function(1, function::ALL_UNITS_OFF), 0),
        (Message::extended(1, 0, 0, 0x33), 3),
    ];
    for (message, count) in messages {
        assert_eq!(apply(&mut table, &mut shutters, message).number(), number::OK);
        assert_eq!(told(lit(&table, 1)), (number::OK, count), "{message:?}");
        assert_eq!(told(lit(&table, 0)), (number::OK, 0), "{message:?}");
    }
}

#[test]
fn refusals_in_order() {
    let mut table = [255; TABLE_BYTES + 1];
    for len in [0, LIT_AT, TABLE_BYTES - 1, TABLE_BYTES + 1] {
        assert_eq!(told(lit(&table[..len], 16)), (number::TABLE, 0));
        assert_eq!(told(lit(&table[..len], 15)), (number::TABLE, 0));
    }
    let table = &mut table[..TABLE_BYTES];
    assert_eq!(told(lit(table, 16)), (number::MESSAGE, 0));
    for (byte, answer) in [(17, (number::RECORD, 0)), (16, (number::OK, 16)), (0, (number::OK, 0))] {
        table[LIT_AT + 15] = byte;
        assert_eq!(told(lit(table, 15)), answer);
    }
}

#[test]
fn a_byte_that_disagrees_is_answered_and_no_message_is_applied() {
    let (mut table, mut shutters) = (room(), [0; SHUTTER_TABLE_BYTES]);
    table[LIT_AT] = 5;
    assert_eq!(told(lit(&table, 0)), (number::OK, 5));
    let before = table;
    let answer = apply(&mut table, &mut shutters, Message::function(1, function::ALL_UNITS_OFF));
    assert_eq!(told(answer), (number::RECORD, 0));
    assert_eq!(table, before);
}
