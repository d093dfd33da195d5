//! Inputs for the comparison and for the timing: messages, lines, receivers, stations, tables and benches,
//! valid and damaged.

mod groups;
mod lit;
mod shutters;

pub use groups::{group_presses, joined_and_called, ABSOLUTE, REFERENCES, TABLE_BEFORE};
pub use lit::{count_lit, lit_lamps, lit_of, HEARD, LIT};
pub use shutters::{damage_shutters, shutter, shutters, type_0, SHUTTER, SHUTTER_TABLE};

use crate::rng::Rng;
use x10_model::burst::{frame_len, write_frame};
use x10_model::bytes::{self, MESSAGE, RECEIVER, STATION};
use x10_model::message::{Function, Word};
use x10_model::table;

pub const TABLE: usize = table::LEN;
pub const RECORD: usize = 12;
const RECORDS: usize = 256;

/// Bytes at and around the bounds that the rules name.
const EDGES: [u8; 20] = [0, 1, 2, 3, 4, 7, 8, 9, 10, 11, 14, 15, 16, 17, 60, 62, 63, 64, 128, 255];

pub fn edge(rng: &mut Rng) -> u8 {
    if rng.one_in(4) {
        rng.byte()
    } else {
        rng.pick(&EDGES)
    }
}

/// A length near one that a routine asks for.
pub fn length(rng: &mut Rng, asked: usize, most: usize) -> usize {
    match rng.below(8) {
        0 => rng.below(most + 1),
        1 => rng.below(2) * rng.below(asked + 1),
        2 => asked.saturating_sub(1),
        3 => (asked + 1).min(most),
        4 => (asked + rng.below(8)).min(most),
        _ => asked,
    }
}

pub fn function_code(rng: &mut Rng) -> u8 {
    rng.pick(&Function::ALL).code()
}

/// Five numbers that are a message. The timed rows have had these from the first, so few are of type 0.
pub fn message(rng: &mut Rng) -> [u8; MESSAGE] {
    let house = rng.below(16) as u8;
    match rng.below(3) {
        0 => [1, house, rng.below(16) as u8, rng.byte(), rng.byte()],
        1 => [2, house, function_code(rng), rng.byte(), rng.byte()],
        _ => extended(rng, house),
    }
}

/// An extended message, with a command that tables carry, and next ones to it, more often than not.
pub fn extended(rng: &mut Rng, house: u8) -> [u8; MESSAGE] {
    let command = if rng.one_in(8) { rng.byte() } else { 0x2F + rng.below(16) as u8 };
    let data = match (command, rng.below(2)) {
        // Few data bytes are forms of 35 that are carried.
        (0x35, 0) => rng.pick(&[0x00, 0xF0]) | rng.below(16) as u8,
        _ => rng.byte(),
    };
    [3, house, rng.below(16) as u8, data, command]
}

/// Five numbers that are a message; of the extended ones about half are of type 0, and a quarter are for
/// groups.
fn either_type(rng: &mut Rng) -> [u8; MESSAGE] {
    let numbers = message(rng);
    if numbers[0] != 3 {
        return numbers;
    }
    match rng.below(4) {
        0 | 1 => type_0(rng, numbers[1]),
        2 => groups::group_message(rng, numbers[1]),
        _ => numbers,
    }
}

/// Five numbers, a message or not.
pub fn numbers(rng: &mut Rng) -> [u8; MESSAGE] {
    let mut numbers = either_type(rng);
    if rng.one_in(3) {
        let place = rng.below(3);
        numbers[place] = edge(rng);
    }
    numbers
}

/// The bits of a message's frame.
fn word_of(numbers: [u8; MESSAGE]) -> Word {
    bytes::message(numbers).expect("a message").word()
}

/// The bits of a frame: of a message, or nine of any values, and so also unsupported codes.
fn word(rng: &mut Rng) -> Word {
    if rng.one_in(2) {
        return word_of(either_type(rng));
    }
    let house = rng.below(16) as u32;
    let code = if rng.one_in(2) { rng.pick(&[10, 11, 12]) } else { rng.below(16) as u32 };
    Word { bits: house << 5 | code << 1 | rng.below(2) as u32, len: 9 }
}

/// A line of about `len` half-cycles: clear parts, bursts, single frames, frames one after the other,
/// noise, some half-cycles inverted and, where `bad`, some that are neither 0 nor 1.
pub fn line(rng: &mut Rng, len: usize, bad: bool, line: &mut Vec<u8>) {
    line.clear();
    while line.len() < len {
        match rng.below(12) {
            0 => {
                let noise = rng.below(40);
                line.extend((0..noise).map(|_| rng.below(2) as u8));
                continue;
            }
            1 => line.extend(std::iter::repeat_n(1, rng.below(9))),
            _ => {}
        }
        line.extend(std::iter::repeat_n(0, rng.below(7)));
        let word = word(rng);
        let start = line.len();
        for _ in 0..rng.pick(&[1, 2, 2, 2, 2, 3]) {
            let frame = line.len();
            line.resize(frame + frame_len(word), 0);
            write_frame(word, &mut line[frame..]);
        }
        if rng.one_in(3) {
            for _ in 0..=rng.below(2) {
                let place = start + rng.below(line.len() - start);
                line[place] ^= 1;
            }
        }
        if bad && rng.one_in(6) {
            let place = start + rng.below(line.len() - start);
            line[place] = edge(rng);
        }
        if rng.one_in(8) {
            line.truncate(start + rng.below(line.len() - start));
        }
    }
    line.truncate(len);
}

/// A line of about `len` half-cycles: bursts with one half-cycle of each inverted, one after the
/// other with no gap or with clear half-cycles between them, some cut off before their end. Where
/// `bad`, some half-cycles are neither 0 nor 1.
pub fn damaged(rng: &mut Rng, len: usize, bad: bool, line: &mut Vec<u8>) {
    line.clear();
    line.extend([0; 3]);
    while line.len() < len {
        let start = line.len();
        let word = word(rng);
        burst(word, line);
        invert_one(rng, &mut line[start..]);
        if bad && rng.one_in(6) {
            line.insert(start + rng.below(line.len() - start), 2 + edge(rng) % 254);
        }
        if rng.one_in(6) {
            line.truncate(start + rng.below(line.len() - start));
        }
        if rng.one_in(2) {
            line.extend(std::iter::repeat_n(0, 1 + rng.below(6)));
        }
    }
    line.truncate(len);
}

/// Inverts one half-cycle of a burst: in a pair of its first copy, in one of its second, or in a
/// start.
fn invert_one(rng: &mut Rng, burst: &mut [u8]) {
    let copy = burst.len() / 2;
    let place = match rng.below(6) {
        0..=2 => 4 + rng.below(copy - 4),
        3 => copy + 4 + rng.below(copy - 4),
        4 => rng.below(4),
        _ => copy + rng.below(4),
    };
    burst[place] ^= 1;
}

/// Bursts of a few messages for one house, each after clear half-cycles: most move levels of many
/// modules, or many shutters, up or down, some are not carried; some are damaged. Where `bad`,
/// half-cycles that are neither 0 nor 1 stand between the others.
pub fn presses(rng: &mut Rng, bad: bool, line: &mut Vec<u8>) {
    line.clear();
    let house = rng.below(16) as u8;
    for _ in 0..2 + rng.below(5) {
        let unit = rng.below(16) as u8;
        let numbers = match rng.below(7) {
            0 => [2, house, rng.pick(&[0, 1, 6]), 0, 0],
            1 => [3, house, unit, rng.byte(), rng.pick(&[0x31, 0x33, 0x34])],
            2 => [2, house, rng.pick(&[2, 3, 4, 5]), 0, 0],
            3 => [3, house, unit, rng.byte(), rng.pick(&[0x04, 0x05, 0x08, 0x0B, 0x0C])],
            4 => type_0(rng, house),
            5 => groups::group_message(rng, house),
            _ => extended(rng, house),
        };
        let start = send(rng, numbers, line);
        if rng.one_in(4) {
            invert_one(rng, &mut line[start..]);
        }
    }
    for _ in 0..if bad { rng.below(4) } else { 0 } {
        line.insert(rng.below(line.len()), 2 + edge(rng) % 254);
    }
}

/// "All lights on", or 33 for one in two, to each house in turn, and a message that opens every shutter.
pub fn every_house(rng: &mut Rng, line: &mut Vec<u8>) {
    line.clear();
    for house in 0..16 {
        let numbers = if rng.one_in(2) { [2, house, 1, 0, 0] } else { [3, house, 0, 0, 0x33] };
        send(rng, numbers, line);
    }
    send(rng, [3, 7, 7, 7, 0x05], line);
}

/// Shutters of a house or of every house are opened and closed again, twice, and at last opened for one in two.
pub fn there_and_back(rng: &mut Rng, line: &mut Vec<u8>) {
    line.clear();
    let (open, close) = rng.pick(&[(0x04, 0x0B), (0x05, 0x0C), (0x04, 0x0C)]);
    for command in [open, close, open, close, open].into_iter().take(4 + rng.below(2)) {
        let numbers = [3, 9, rng.below(16) as u8, rng.byte(), command];
        send(rng, numbers, line);
    }
}

/// The burst of a message at the line's end, after three clear half-cycles or a few more: where it
/// begins.
fn send(rng: &mut Rng, numbers: [u8; MESSAGE], line: &mut Vec<u8>) -> usize {
    line.extend(std::iter::repeat_n(0, 3 + rng.below(4)));
    let start = line.len();
    burst(word_of(numbers), line);
    start
}

/// The frame of these bits twice, at the line's end.
fn burst(word: Word, line: &mut Vec<u8>) {
    for _ in 0..2 {
        let frame = line.len();
        line.resize(frame + frame_len(word), 0);
        write_frame(word, &mut line[frame..]);
    }
}

pub fn draw(rng: &mut Rng) -> u8 {
    8 + rng.below(3) as u8
}

/// A draw, or now and then a byte that may be none.
pub fn draw_or_not(rng: &mut Rng) -> u8 {
    if rng.one_in(8) {
        edge(rng)
    } else {
        draw(rng)
    }
}

/// An empty station.
pub const EMPTY_STATION: [u8; STATION] = [0, 0, 0, 0, 0, 8, 0, 0];

/// Eight bytes: a station, empty, waiting or sending, or one with a byte or two changed.
pub fn station(rng: &mut Rng) -> [u8; STATION] {
    let mut station = EMPTY_STATION;
    if !rng.one_in(5) {
        let numbers = written(rng);
        station[..MESSAGE].copy_from_slice(&numbers);
        let wait = draw(rng);
        station[5] = wait;
        if rng.one_in(3) {
            station[6] = rng.below(usize::from(wait) + 1) as u8;
        } else {
            let frame = if numbers[0] == 3 { 62 } else { 22 };
            station[6] = wait;
            // Around where the frames begin and end, or anywhere.
            station[7] = match rng.below(4) {
                0 => 2 * frame - 1,
                1 => rng.below(5) as u8,
                2 => frame - 2 + rng.below(6) as u8,
                _ => rng.below(2 * usize::from(frame)) as u8,
            };
        }
    }
    if rng.one_in(3) {
        for _ in 0..1 + rng.below(2) {
            let place = rng.below(STATION);
            station[place] = if rng.one_in(6) { rng.pick(&[43, 44, 45, 123, 124, 125]) } else { edge(rng) };
        }
    }
    station
}

/// The five bytes of a receiver's message given before: none, a message, or neither.
fn given(rng: &mut Rng) -> [u8; MESSAGE] {
    let mut given = match rng.below(6) {
        0 | 1 => return [0; MESSAGE],
        2 => [edge(rng), edge(rng), edge(rng), edge(rng), edge(rng)],
        _ => message(rng),
    };
    if given[0] != 3 && !rng.one_in(8) {
        given[3] = 0;
        given[4] = 0;
    }
    if rng.one_in(8) {
        let place = rng.below(MESSAGE);
        given[place] = edge(rng);
    }
    given
}

/// The last two bytes of each receiver that waits: where the next half-cycle stands, counted from
/// the start of the frame that broke, and the place waited for.
pub fn waitings() -> impl Iterator<Item = [u8; 2]> {
    let at_22 = (6..=25).map(|since| [since, 22]);
    at_22.chain((24..=65).map(|since| [since, 62]))
}

/// Those two bytes for a receiver at this place: none, of a receiver that waits, next to one, or
/// any.
fn waiting(rng: &mut Rng, at: u8) -> [u8; 2] {
    // Only a hunting receiver waits.
    if rng.one_in(3) || at > 0 && !rng.one_in(6) {
        return [0, 0];
    }
    match rng.below(6) {
        0 => [rng.pick(&[0, 5, 6, 23, 24, 25, 26, 65, 66]), rng.pick(&[0, 21, 22, 23, 61, 62, 63])],
        1 => [edge(rng), edge(rng)],
        2 => [22 + rng.below(4) as u8, 22],
        3 => [62 + rng.below(4) as u8, 62],
        _ if rng.one_in(2) => [6 + rng.below(20) as u8, 22],
        _ => [24 + rng.below(42) as u8, 62],
    }
}

/// Thirteen bytes with the fields of a receiver as given and the rest of any values, most of them
/// such that the receiver is not refused.
pub fn receiver_at(rng: &mut Rng, past: u8, at: u8) -> [u8; RECEIVER] {
    let mut bits = rng.next() as u32;
    if rng.one_in(2) {
        bits &= (1 << 29) - 1;
    }
    if at > 22 && !rng.one_in(8) {
        // From the tenth pair on: code 7 and function bit 1 where they belong.
        let after = u32::from(at - 23) / 2;
        if after < 27 {
            bits = bits & !(31 << after) | 15 << after;
        }
    }
    let mut state = [0; RECEIVER];
    state[0] = past;
    state[1] = at;
    state[2..6].copy_from_slice(&bits.to_be_bytes());
    state[6..11].copy_from_slice(&given(rng));
    state[11..].copy_from_slice(&waiting(rng, at));
    state
}

/// The same with these as the last two bytes, and a message before them that is none or one.
pub fn receiver_waiting(rng: &mut Rng, past: u8, at: u8, waiting: [u8; 2]) -> [u8; RECEIVER] {
    let mut state = receiver_at(rng, past, at);
    state[6..11].copy_from_slice(&if rng.one_in(2) { [0; MESSAGE] } else { written(rng) });
    state[11..].copy_from_slice(&waiting);
    state
}

/// Thirteen bytes: often near a frame's end, where a message is given by the next half-cycle.
pub fn receiver(rng: &mut Rng) -> [u8; RECEIVER] {
    let past = if rng.one_in(10) { edge(rng) } else { rng.below(64) as u8 };
    let at = match rng.below(10) {
        0 => edge(rng),
        1 | 2 => 0,
        3 => 1 + rng.below(4) as u8,
        4 | 5 => rng.pick(&[20, 21, 22, 23, 24]),
        6 | 7 => rng.pick(&[60, 61, 62, 62, 63]),
        _ => rng.below(63) as u8,
    };
    let mut state = receiver_at(rng, past, at);
    // A message up to the second half-cycle of its last pair, with itself, another or none before it.
    if rng.one_in(3) {
        let numbers = written(rng);
        let word = word_of(numbers);
        state[0] = state[0] & 62 | (word.bits & 1) as u8;
        state[1] = frame_len(word) as u8;
        state[2..6].copy_from_slice(&(word.bits >> 1).to_be_bytes());
        state[6..11].copy_from_slice(&match rng.below(3) {
            0 => numbers,
            1 => written(rng),
            _ => [0; MESSAGE],
        });
        state[11..].copy_from_slice(&waiting(rng, frame_len(word) as u8));
    }
    state
}

/// Five bytes of a message as the routines write them.
fn written(rng: &mut Rng) -> [u8; MESSAGE] {
    let mut numbers = either_type(rng);
    if numbers[0] != 3 {
        numbers[3] = 0;
        numbers[4] = 0;
    }
    numbers
}

/// A record that keeps the rules, of the kind given. Its references are drawn apart.
fn record(rng: &mut Rng, apart: &mut Rng, kind: u8) -> [u8; RECORD] {
    let mut record = [0; RECORD];
    if kind == 0 {
        return record;
    }
    let mut level = || match kind {
        1 => match rng.below(4) {
            0 => rng.pick(&[0, 1, 2, 3, 60, 61, 62, 63]),
            1 => 0,
            _ => rng.below(64) as u8,
        },
        _ => rng.pick(&[0, 63]),
    };
    record[..REFERENCES].copy_from_slice(&[kind, level(), 0, 0, level(), level(), level(), level()]);
    record[2] = rng.below(2) as u8;
    record[3] = rng.below(16) as u8;
    for group in 0..4 {
        if record[3] >> group & 1 == 0 {
            record[4 + group] = 0;
        }
    }
    groups::refer(apart, &mut record);
    record
}

/// A table that keeps the rules, with `absent` of 4 records of kind 0. Where `alike`, one house in
/// eight has one record sixteen times, so that a message may change every level of it. References are
/// drawn apart, so that the timed rows' other inputs are those of before there were any.
pub fn table(rng: &mut Rng, absent: usize, alike: bool, bytes: &mut [u8]) {
    let apart = &mut rng.apart();
    let (records, ends) = bytes.split_at_mut(HEARD);
    for house in records.chunks_exact_mut(16 * RECORD) {
        let one = (alike && rng.one_in(8)).then(|| {
            let kind = 1 + rng.below(2) as u8;
            record(rng, apart, kind)
        });
        for bytes in house.chunks_exact_mut(RECORD) {
            let kind = if rng.below(4) < absent { 0 } else { 1 + rng.below(2) as u8 };
            bytes.copy_from_slice(&one.unwrap_or_else(|| record(rng, apart, kind)));
        }
    }
    for heard in &mut ends[..16] {
        *heard = rng.below(2) as u8;
    }
    count_lit(bytes);
}

/// Changes one byte of a table to one at a bound, a reference, or what it says of lit modules; the table may
/// keep the rules all the same.
pub fn damage(rng: &mut Rng, bytes: &mut [u8]) {
    match rng.below(8) {
        0 => bytes[HEARD + rng.below(16)] = edge(rng),
        1 => lit::damage_lit(rng, bytes),
        2 => groups::damage_reference(rng, bytes),
        _ => {
            let place = rng.below(HEARD);
            bytes[place] = edge(rng);
            // Counted again in one of two, so that no more than the record's own rules may be broken.
            if rng.one_in(2) {
                let house = place / (16 * RECORD);
                bytes[LIT + house] = lit_of(bytes, house);
            }
        }
    }
}

/// Four radio bytes: of a command, or with something wrong.
pub fn radio_code(rng: &mut Rng) -> [u8; 4] {
    const HIGH: [u8; 2] = [0x00, 0x04];
    let b = (rng.below(16) << 4) as u8 | rng.pick(&HIGH);
    let c = match rng.below(8) {
        0 => rng.pick(&[136, 152]),
        1 => rng.byte(),
        _ => rng.byte() & 0x78,
    };
    let b = if c >= 128 && !rng.one_in(8) { b & 0xF0 } else { b };
    let mut code = [b, !b, c, !c];
    if rng.one_in(6) {
        let place = rng.below(4);
        code[place] ^= 1 << rng.below(8);
    }
    code
}

/// A bench: its messages one after the other, the loads and the draws of some calls.
pub struct Bench {
    pub messages: Vec<u8>,
    pub loads: Vec<u8>,
    pub draws: Vec<u8>,
}

/// A bench of n stations and `calls` calls. Houses and units are few, so that messages are equal or
/// differ late; with `bad`, some numbers are not what the rules ask for.
pub fn bench(rng: &mut Rng, n: usize, calls: usize, bad: bool, bench: &mut Bench) {
    bench.messages.clear();
    let few = rng.pick(&[1, 2, 16]);
    for _ in 0..n {
        let mut numbers = message(rng);
        numbers[1] %= few;
        if few < 16 && numbers[0] != 2 {
            numbers[2] %= few;
        }
        bench.messages.extend(numbers);
    }
    bench.loads.clear();
    bench.loads.extend((0..n).map(|_| draw(rng)));
    bench.draws.clear();
    bench.draws.extend((0..n * calls).map(|_| draw(rng)));
    if bad {
        spoil(rng, n, bench);
    }
}

/// Puts bytes at a bound among those of a bench, and changes lengths, now and then.
fn spoil(rng: &mut Rng, n: usize, bench: &mut Bench) {
    if n > 0 && rng.one_in(12) {
        let place = rng.below(5 * n);
        bench.messages[place] = edge(rng);
    }
    if n > 0 && rng.one_in(12) {
        let place = rng.below(n);
        bench.loads[place] = edge(rng);
    }
    if !bench.draws.is_empty() && rng.one_in(3) {
        for _ in 0..1 + rng.below(4) {
            let place = rng.below(bench.draws.len());
            bench.draws[place] = edge(rng);
        }
    }
    if rng.one_in(16) {
        let len = length(rng, bench.messages.len(), bench.messages.len() + 5);
        bench.messages.resize(len, 1);
    }
    if rng.one_in(16) {
        let len = length(rng, bench.draws.len(), bench.draws.len() + n + 1);
        bench.draws.resize(len, 8);
    }
}
