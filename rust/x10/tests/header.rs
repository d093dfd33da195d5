//! Header and binding say the same: numbers, texts, version and routines.

use std::collections::BTreeMap;
use x10::*;

const HEADER: &str = include_str!("../../../include/x10.h");
const ABI: &str = include_str!("../src/abi.rs");

/// Names without their X10_, and the binding's number for each.
macro_rules! numbers {
    ($($name:ident: $number:expr),* $(,)?) => {
        BTreeMap::from([$((concat!("X10_", stringify!($name)), $number as usize)),*])
    };
}

fn binding_numbers() -> BTreeMap<&'static str, usize> {
    numbers! {
        VERSION: VERSION.split('.').fold(0, |version, part| 100 * version + part.parse::<usize>().unwrap()),
        OK: number::OK,
        TABLE: number::TABLE,
        MESSAGE: number::MESSAGE,
        RECORD: number::RECORD,
        NOT_CARRIED: number::NOT_CARRIED,
        HALF: number::HALF,
        STATE: number::STATE,
        DRAW: number::DRAW,
        BUSY: number::BUSY,
        SHORT: number::SHORT,
        PAIR: number::PAIR,
        UNSUPPORTED: number::UNSUPPORTED,
        RF_LENGTH: number::RF_LENGTH,
        RF_COMPLEMENT: number::RF_COMPLEMENT,
        RF_CODE: number::RF_CODE,
        FAULT: number::FAULT,
        SHUTTER_TABLE: number::SHUTTER_TABLE,
        SHUTTER_RECORD: number::SHUTTER_RECORD,
        OPENING: number::OPENING,
        ADDRESS: kind::ADDRESS,
        FUNCTION: kind::FUNCTION,
        EXTENDED: kind::EXTENDED,
        ALL_UNITS_OFF: function::ALL_UNITS_OFF,
        ALL_LIGHTS_ON: function::ALL_LIGHTS_ON,
        ON: function::ON,
        OFF: function::OFF,
        DIM: function::DIM,
        BRIGHT: function::BRIGHT,
        ALL_LIGHTS_OFF: function::ALL_LIGHTS_OFF,
        HAIL_REQUEST: function::HAIL_REQUEST,
        HAIL_ACKNOWLEDGE: function::HAIL_ACKNOWLEDGE,
        STATUS_ON: function::STATUS_ON,
        STATUS_OFF: function::STATUS_OFF,
        STATUS_REQUEST: function::STATUS_REQUEST,
        NOTHING: event::NOTHING,
        GIVEN: event::GIVEN,
        REPEAT: event::REPEAT,
        RADIO_ON: radio::ON,
        RADIO_OFF: radio::OFF,
        RADIO_BRIGHT: radio::BRIGHT,
        RADIO_DIM: radio::DIM,
        NO_MODULE: module::NONE,
        LAMP: module::LAMP,
        APPLIANCE: module::APPLIANCE,
        KIND_AT: record::KIND,
        LEVEL_AT: record::LEVEL,
        ADDRESSED_AT: record::ADDRESSED,
        GROUPS_AT: record::GROUPS,
        PRESETS_AT: record::PRESETS,
        REFERENCES_AT: record::REFERENCES,
        ABSOLUTE: ABSOLUTE,
        PRESENT_AT: shutter::PRESENT,
        OPENING_AT: shutter::OPENING,
        LIMIT_AT: shutter::LIMIT,
        PROTECTION_AT: shutter::PROTECTION,
        INCLUDED_AT: shutter::INCLUDED,
        OPENINGS_AT: shutter::OPENINGS,
        WAKE: lifestyle::WAKE,
        LEAVE: lifestyle::LEAVE,
        RETURN: lifestyle::RETURN,
        SLEEP: lifestyle::SLEEP,
        EVENING: lifestyle::EVENING,
        VACATION: lifestyle::VACATION,
        SPECIAL_1: lifestyle::SPECIAL_1,
        SPECIAL_2: lifestyle::SPECIAL_2,
        MESSAGE_BYTES: MESSAGE_BYTES,
        LONGEST_BURST: LONGEST_BURST,
        RECEIVER_BYTES: RECEIVER_BYTES,
        STATION_BYTES: STATION_BYTES,
        EVENT_BYTES: EVENT_BYTES,
        ANSWER_BYTES: ANSWER_BYTES,
        TABLE_BYTES: TABLE_BYTES,
        SHUTTER_TABLE_BYTES: SHUTTER_TABLE_BYTES,
        SHUTTER_BYTES: SHUTTER_BYTES,
        RECORD_BYTES: RECORD_BYTES,
        HEARD_AT: HEARD_AT,
        LIT_AT: LIT_AT,
        MOST_STATIONS: MOST_STATIONS,
    }
}

/// Every `X10_NAME = NUMBER` and `#define X10_NAME NUMBER`.
fn header_numbers() -> BTreeMap<&'static str, usize> {
    let parted = |c: char| c.is_whitespace() || matches!(c, ',' | '{' | '}' | ';');
    let words: Vec<&str> = HEADER.split(parted).filter(|word| !word.is_empty()).collect();
    let named = words.windows(3).filter_map(|words| match words {
        [name, "=", number] | ["#define", name, number] if name.starts_with("X10_") => {
            Some((*name, number.parse().ok()?))
        }
        _ => None,
    });
    named.collect()
}

#[test]
fn every_number_of_the_header() {
    assert_eq!(binding_numbers(), header_numbers());
}

#[test]
fn the_version() {
    assert!(HEADER.contains(&format!("\n#define X10_VERSION_TEXT \"{VERSION}\"\n")));
}

/// What a function of the header with one `switch` gives for each number.
fn texts(function: &str) -> BTreeMap<usize, &'static str> {
    let (_, after) = HEADER.split_once(function).expect("the function");
    let (cases, _) = after.split_once("default: return \"\";").expect("the end of its switch");
    let numbers = header_numbers();
    let texts = cases.split("case ").skip(1).map(|case| {
        let (name, text) = case.split_once(": return \"").expect("a text");
        (numbers[name], text.trim_end().strip_suffix("\";").expect("the text's end"))
    });
    texts.collect()
}

#[test]
fn the_texts() {
    let numbers = texts("*x10_text(uint8_t number)");
    let functions = texts("*x10_function_name(uint8_t code)");
    assert_eq!((numbers.len(), functions.len()), (19, 12));
    for n in 0..=255 {
        assert_eq!(text(n), numbers.get(&usize::from(n)).copied().unwrap_or(""));
        assert_eq!(function_name(n), functions.get(&usize::from(n)).copied().unwrap_or(""));
    }
}

#[test]
fn where_records_begin() {
    assert_eq!((record_at(0, 0), record_at(0, 15), record_at(1, 0)), (0, 180, 192));
    assert_eq!(record_at(15, 15) + RECORD_BYTES, HEARD_AT);
    assert_eq!((HEARD_AT + 16, LIT_AT + 16), (LIT_AT, TABLE_BYTES));
    assert_eq!((record::PRESETS + 4, record::REFERENCES + 4), (record::REFERENCES, RECORD_BYTES));
}

#[test]
fn where_shutters_begin() {
    assert_eq!((shutter_at(0, 0), shutter_at(0, 15), shutter_at(1, 0)), (0, 300, 320));
    assert_eq!(shutter_at(15, 15) + SHUTTER_BYTES, SHUTTER_TABLE_BYTES);
    assert_eq!(shutter::OPENINGS + 8, SHUTTER_BYTES);
}

/// A parameter of the header as Rust writes it.
fn in_rust(parameter: &str) -> String {
    let (kind, name) = parameter.rsplit_once([' ', '*']).expect("a type and a name");
    let pointer = parameter.contains('*');
    let kind = match kind.trim() {
        "const uint8_t" if pointer => "*const u8",
        "uint8_t" if pointer => "*mut u8",
        "uint8_t" => "u8",
        "size_t" if !pointer => "usize",
        kind => panic!("no type of this header: {kind}"),
    };
    format!("{name}: {kind}")
}

/// Each declaration's name and parameters, between the words that stand before and after it.
fn declared(text: &str, before: &str, after: &str, written: fn(&str) -> String) -> Vec<String> {
    let declarations = text.split(before).skip(1).map(|rest| {
        let (declaration, _) = rest.split_once(after).expect("its end");
        let (name, parameters) = declaration.split_once('(').expect("its parameters");
        let parameters = parameters.split(',').map(str::trim).filter(|parameter| !parameter.is_empty());
        format!("{name}({})", parameters.map(written).collect::<Vec<_>>().join(", "))
    });
    declarations.collect()
}

#[test]
fn every_routine_of_the_header() {
    let header = declared(HEADER, "\nuint64_t ", ");", in_rust);
    assert_eq!(header.len(), 14);
    assert_eq!(declared(ABI, "pub fn ", ") -> u64;", str::to_string), header);
}
