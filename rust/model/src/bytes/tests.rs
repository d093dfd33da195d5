//! Tests of the routines over bytes; those over a slice against single calls one after the other.

use super::*;
use crate::burst::LONGEST;
use crate::drawn::Drawn;
use crate::{shutters, table};

const A_ON: Message = Message::Function { house: 0, function: Function::AllLightsOn };
const A_OFF: Message = Message::Function { house: 0, function: Function::AllLightsOff };

/// An extended message that tables do not carry.
const NOT_CARRIED: Message = Message::Extended { house: 0, unit: 0, data: 0x20, command: 0x3D };

fn fresh() -> [u8; RECEIVER] {
    receiver_bytes(&Receiver::FRESH)
}

/// The messages' bursts, with three clear half-cycles before each.
fn line(messages: &[Message]) -> Vec<u8> {
    let mut line = Vec::new();
    for &message in messages {
        let mut burst = [0; LONGEST];
        let len = write_burst(message, &mut burst).unwrap();
        line.extend([0, 0, 0]);
        line.extend(&burst[..len]);
    }
    line
}

/// A table with dark lamps at A1 and A2.
fn room() -> Vec<u8> {
    let mut table = vec![0; table::LEN];
    table[0] = 1;
    table[12] = 1;
    table
}

/// A table with closed shutters at A1, A2 and P16, of which A2 is protected at limit 9.
fn windows() -> Vec<u8> {
    let mut table = vec![0; shutters::LEN];
    table[0] = 1;
    table[20..24].copy_from_slice(&[1, 0, 9, 1]);
    table[shutters::LEN - 20] = 1;
    table
}

fn type_0(unit: u8, data: u8, command: u8) -> Message {
    Message::Extended { house: 0, unit, data, command }
}

/// What a call of the mains route over a whole line leaves: answer, events and answers.
struct Run {
    counts: Counts,
    events: Vec<u8>,
    answers: Vec<u64>,
}

impl Run {
    fn over(state: &mut [u8], halves: &[u8], table: &mut [u8], shutters: &mut [u8]) -> Run {
        let mut events = vec![9; EVENT * halves.len()];
        let mut answers = vec![9; ANSWER * halves.len()];
        let counts = mains_route(state, halves, table, shutters, &mut events, &mut answers).unwrap();
        let (answers, _) = answers.as_chunks();
        Run { counts, events, answers: answers.iter().map(|&bytes| u64::from_le_bytes(bytes)).collect() }
    }

    /// Code and answer wherever the receiver said something.
    fn said(&self) -> Vec<(u8, u64)> {
        let codes = self.events.iter().step_by(EVENT).copied();
        codes.zip(self.answers.iter().copied()).filter(|(code, _)| *code != NOTHING).collect()
    }
}

/// Fields that the receiver refuses, one cause each.
fn impossible() -> [Receiver; 13] {
    let far = Message::Address { house: 16, unit: 0 };
    let waits = |at, since, target| Receiver { at, since, target, ..Receiver::FRESH };
    [
        waits(0, 5, 22),
        waits(0, 26, 22),
        waits(0, 23, 62),
        waits(0, 66, 62),
        waits(0, 6, 0),
        waits(0, 6, 21),
        waits(5, 6, 22),
        waits(22, 24, 62),
        Receiver { past: 64, ..Receiver::FRESH },
        Receiver { at: 63, bits: 0b01111 << 20, ..Receiver::FRESH },
        Receiver { at: 23, ..Receiver::FRESH },
        Receiver { given: Some(far), ..Receiver::FRESH },
        Receiver {
            given: Some(Message::Extended { house: 0, unit: 16, data: 0, command: 0 }),
            ..Receiver::FRESH
        },
    ]
}

#[test]
fn an_answer_in_its_bits() {
    assert_eq!(packed(Ok(0)), 0);
    assert_eq!(packed(Ok(256)), 0x1_0000);
    assert_eq!(packed(Ok(Counts { modules: 256, shutters: 3 })), 0x0301_0000);
    assert_eq!(packed(Ok(Counts { modules: 1, shutters: 256 })), 0x1_0000_0100);
    assert_eq!(packed(Err::<usize, _>(Refusal::NotCarried)), 4);
}

#[test]
fn receivers_read_back() {
    let given = [
        None,
        Some(Message::Address { house: 9, unit: 3 }),
        Some(Message::Function { house: 1, function: Function::AllUnitsOff }),
        Some(Message::Extended { house: 1, unit: 2, data: 3, command: 4 }),
    ];
    for given in given {
        let value = Receiver { past: 63, at: 22, bits: 0x89AB_CDEF, given, since: 0, target: 0 };
        assert_eq!(receiver(&receiver_bytes(&value)), Ok(value));
        for (since, target) in [(6, 22), (25, 22), (24, 62), (65, 62)] {
            let waits = Receiver { at: 0, since, target, ..value };
            assert_eq!(receiver(&receiver_bytes(&waits)), Ok(waits));
        }
    }
    assert_eq!(fresh(), [63, 0, 0, 0, 0, 0, 0, 0, 0, 0, 0, 0, 0]);
}

#[test]
fn a_receiver_in_its_bytes() {
    let given = Some(Message::Extended { house: 1, unit: 2, data: 3, command: 4 });
    let value = Receiver { past: 14, at: 0, bits: 0x89AB_CDEF, given, since: 24, target: 62 };
    assert_eq!(receiver_bytes(&value), [14, 0, 0x89, 0xAB, 0xCD, 0xEF, 3, 1, 2, 3, 4, 24, 62]);
}

#[test]
fn what_is_no_receiver() {
    let with = |given: [u8; MESSAGE]| {
        let mut state = fresh();
        state[6..11].copy_from_slice(&given);
        receiver(&state)
    };
    for given in [[0, 1, 0, 0, 0], [4, 0, 0, 0, 0], [1, 0, 0, 1, 0], [2, 0, 2, 0, 1], [2, 0, 7, 0, 0]] {
        assert_eq!(with(given), Err(Refusal::State), "{given:?}");
    }
    assert!(with([3, 0, 0, 0, 0]).is_ok());
    // 11 were those of a receiver that does not wait.
    for len in [0, 11, 12, 14] {
        assert_eq!(receiver(&vec![0; len]), Err(Refusal::State));
    }
    assert!(receiver(&[0; 13]).is_ok());
}

#[test]
fn an_impossible_receiver_is_refused_and_nothing_written() {
    for value in impossible() {
        let before = receiver_bytes(&value);
        for halves in [&[][..], &[1], &[2, 0]] {
            let mut state = before;
            let mut events = [9; 2 * EVENT];
            let mut answers = [9; 2 * ANSWER];
            assert_eq!(receive(&mut state, halves, &mut events), Err(Refusal::State), "{value:?}");
            let (mut room, mut windows) = (room(), windows());
            let routed = mains_route(&mut state, halves, &mut room, &mut windows, &mut events, &mut answers);
            assert_eq!(routed, Err(Refusal::State), "{value:?}");
            assert_eq!((state, events, answers), (before, [9; 2 * EVENT], [9; 2 * ANSWER]));
        }
    }
}

#[test]
fn a_half_cycle_that_is_none_is_an_event() {
    let mut state = fresh();
    let mut events = [9; 20];
    assert_eq!(receive(&mut state, &[0, 2, 1], &mut events), Ok(3));
    assert_eq!(events, [0, 0, 0, 0, 0, 0, 5, 0, 0, 0, 0, 0, 0, 0, 0, 0, 0, 0, 9, 9]);
    let mut without = fresh();
    assert_eq!(receive(&mut without, &[0, 1], &mut events), Ok(2));
    assert_eq!(state, without);
}

#[test]
fn mains_route_refuses_in_order() {
    let (mut table, mut shutters) = (room(), windows());
    let (mut events, mut answers) = ([7; EVENT], [7; ANSWER]);
    let mut refused =
        |state: &mut [u8], table: &mut [u8], shutters: &mut [u8], events_len: usize, answers_len: usize| {
            let (events, answers) = (&mut events[..events_len], &mut answers[..answers_len]);
            mains_route(state, &[2], table, shutters, events, answers)
        };
    assert_eq!(refused(&mut [], &mut [], &mut [], 0, 0), Err(Refusal::Table));
    table[0] = 3;
    shutters[0] = 2;
    assert_eq!(refused(&mut [], &mut table, &mut [], 0, 0), Err(Refusal::ShutterTable));
    assert_eq!(refused(&mut [], &mut table, &mut shutters, 0, 0), Err(Refusal::Record));
    table[0] = 1;
    assert_eq!(refused(&mut [], &mut table, &mut shutters, 0, 0), Err(Refusal::ShutterRecord));
    shutters[0] = 1;
    let mut refused = |state: &mut [u8], events_len: usize, answers_len: usize| {
        refused(state, &mut table, &mut shutters, events_len, answers_len)
    };
    assert_eq!(refused(&mut [], 0, 0), Err(Refusal::State));
    assert_eq!(refused(&mut fresh(), 0, ANSWER), Err(Refusal::Short));
    assert_eq!(refused(&mut fresh(), EVENT - 1, ANSWER), Err(Refusal::Short));
    assert_eq!(refused(&mut fresh(), EVENT, ANSWER - 1), Err(Refusal::Short));
    assert_eq!(refused(&mut fresh(), EVENT, ANSWER), Ok(Counts::default()));
    assert_eq!((table, shutters), (room(), windows()));
    assert_eq!((events, answers), ([5, 0, 0, 0, 0, 0], [0; ANSWER]));
}

#[test]
fn a_lit_byte_that_disagrees_is_refused_by_each() {
    let (mut table, mut shutters) = (room(), windows());
    table[table::LIT + 15] = 1;
    let copy = table.clone();
    assert_eq!(apply(&mut table, &mut shutters, A1), Err(Refusal::Record));
    assert_eq!(radio_route(&mut table, &mut shutters, &[0x60, 0x9F, 0x00, 0xFF]), Err(Refusal::Record));
    let routed = mains_route(&mut fresh(), &[], &mut table, &mut shutters, &mut [], &mut []);
    assert_eq!(routed, Err(Refusal::Record));
    assert_eq!(table, copy);
    // The question answers it, and is not answered where the table has no such bytes or shorter records.
    assert_eq!((lit(&table, 15), lit(&table, 16)), (Ok(1), Err(Refusal::Message)));
    for len in [3088, 2080, 2064] {
        assert_eq!(lit(&table[..len], 15), Err(Refusal::Table));
        assert_eq!(apply(&mut table[..len], &mut shutters, A1), Err(Refusal::Table));
    }
}

#[test]
fn a_message_that_is_not_carried_within_a_slice() {
    let mut table = room();
    let run = Run::over(&mut fresh(), &line(&[NOT_CARRIED, A_ON]), &mut table, &mut windows());
    assert_eq!(run.said(), [(GIVEN, 4), (REPEAT, 0), (GIVEN, 2 << 8), (REPEAT, 0)]);
    assert_eq!((run.counts, table[1], table[13]), (Counts { modules: 2, shutters: 0 }, 63, 63));
    assert_eq!(lit(&table, 0), Ok(2));
}

#[test]
fn a_second_copy_after_damage_is_applied() {
    // A pair of the first copy is damaged, then one of the second, which is repeated no more.
    for (place, said) in
        [(9, [(BROKEN_PAIR, 0), (GIVEN, 2 << 8)]), (9 + 22, [(GIVEN, 2 << 8), (BROKEN_PAIR, 0)])]
    {
        let (mut table, mut halves) = (room(), line(&[A_ON]));
        halves[place] ^= 1;
        let run = Run::over(&mut fresh(), &halves, &mut table, &mut windows());
        assert_eq!(run.said(), said);
        assert_eq!((run.counts, table[1], table[13]), (Counts { modules: 2, shutters: 0 }, 63, 63));
    }
}

#[test]
fn an_opening_above_25_within_a_slice() {
    let (mut table, mut shutters) = (room(), windows());
    let halves = line(&[type_0(0, 26, 1), type_0(1, 25, 1), A_ON, type_0(2, 31, 7)]);
    let run = Run::over(&mut fresh(), &halves, &mut table, &mut shutters);
    let given: Vec<u64> = run.said().into_iter().filter(|said| said.0 == GIVEN).map(|said| said.1).collect();
    assert_eq!(given, [18, 1 << 24, 2 << 8, 18]);
    assert_eq!(run.counts, Counts { modules: 2, shutters: 1 });
    assert_eq!((shutters[1], shutters[21], table[1]), (0, 9, 63));
}

#[test]
fn openings_that_come_back_are_not_counted_over_the_whole() {
    let mut shutters = windows();
    // A1, A2 and P16 open, A1 and A2 close again.
    let halves = line(&[type_0(5, 0, 0x05), type_0(5, 0, 0x0B)]);
    let run = Run::over(&mut fresh(), &halves, &mut room(), &mut shutters);
    assert_eq!(run.said(), [(GIVEN, 3 << 24), (REPEAT, 0), (GIVEN, 2 << 24), (REPEAT, 0)]);
    assert_eq!(run.counts, Counts { modules: 0, shutters: 1 });
}

#[test]
fn levels_that_come_back_are_not_counted_over_the_whole() {
    let mut table = room();
    let run = Run::over(&mut fresh(), &line(&[A_ON, A_OFF]), &mut table, &mut windows());
    assert_eq!(run.said(), [(GIVEN, 2 << 8), (REPEAT, 0), (GIVEN, 2 << 8), (REPEAT, 0)]);
    assert_eq!((run.counts, table[1], table[13]), (Counts::default(), 0, 0));
}

#[test]
fn all_256_of_both_in_one_slice() {
    let (mut table, mut shutters) = (vec![0; table::LEN], vec![0; shutters::LEN]);
    table[..256 * 12].chunks_mut(12).for_each(|record| record[0] = 1);
    shutters.chunks_mut(20).for_each(|shutter| shutter[0] = 1);
    let on = |house| Message::Function { house, function: Function::AllLightsOn };
    let mut messages: Vec<Message> = (0..16).map(on).collect();
    messages.push(type_0(0, 0, 0x05));
    let run = Run::over(&mut fresh(), &line(&messages), &mut table, &mut shutters);
    assert_eq!(run.counts, Counts { modules: 256, shutters: 256 });
    assert_eq!(table[table::LIT..], [16; 16]);
}

const A1: [u8; MESSAGE] = [1, 0, 0, 0, 0];
const EMPTY: [u8; STATION] = [0, 0, 0, 0, 0, 8, 0, 0];
/// A1 waiting, about to send its first half-cycle, a 1, and its fourth, a 0.
const WAITING: [u8; STATION] = [1, 0, 0, 0, 0, 8, 7, 0];
const SENDS_1: [u8; STATION] = [1, 0, 0, 0, 0, 8, 8, 0];
const SENDS_0: [u8; STATION] = [1, 0, 0, 0, 0, 8, 8, 3];

/// Bytes that are no station, or one in no state that there is: one cause each.
const NO_STATION: [&[u8]; 20] = [
    &[],
    &[1, 0, 0, 0, 0, 8, 8],
    &[1, 0, 0, 0, 0, 8, 8, 0, 0],
    &[0, 1, 0, 0, 0, 8, 0, 0],
    &[4, 0, 0, 0, 0, 8, 8, 3],
    &[2, 0, 7, 0, 0, 8, 8, 3],
    &[1, 0, 0, 1, 0, 8, 8, 3],
    &[2, 0, 2, 0, 1, 8, 8, 3],
    &[1, 16, 0, 0, 0, 8, 8, 3],
    &[1, 0, 16, 0, 0, 8, 8, 3],
    &[3, 0, 16, 0, 0, 8, 8, 3],
    &[1, 0, 0, 0, 0, 7, 7, 3],
    &[1, 0, 0, 0, 0, 11, 11, 3],
    &[1, 0, 0, 0, 0, 8, 9, 3],
    &[1, 0, 0, 0, 0, 8, 8, 44],
    &[3, 0, 0, 0, 0, 8, 8, 124],
    &[1, 0, 0, 0, 0, 8, 7, 1],
    &[0, 0, 0, 0, 0, 9, 0, 0],
    &[0, 0, 0, 0, 0, 8, 1, 0],
    &[0, 0, 0, 0, 0, 8, 0, 1],
];

/// The answer of a load; a refusal has left the bytes as they were.
fn load(from: &[u8], numbers: [u8; MESSAGE], draw: u8) -> (Result<usize, Refusal>, Vec<u8>) {
    let mut bytes = from.to_vec();
    let answer = station_load(&mut bytes, numbers, draw);
    assert!(answer.is_ok() || bytes == from, "{from:?}");
    (answer, bytes)
}

/// The same of a half-cycle.
fn half_cycle(from: &[u8], heard: u8, draw: u8) -> (Result<usize, Refusal>, Vec<u8>) {
    let mut bytes = from.to_vec();
    let answer = station_half_cycle(&mut bytes, heard, draw);
    assert!(answer.is_ok() || bytes == from, "{from:?}");
    (answer, bytes)
}

#[test]
fn eight_bytes_become_an_empty_station() {
    for len in [0, 7, 9, 16] {
        let mut bytes = vec![77; len];
        assert_eq!(station_empty(&mut bytes), Err(Refusal::State));
        assert_eq!(bytes, vec![77; len]);
    }
    let mut bytes = [77; STATION];
    assert_eq!(station_empty(&mut bytes), Ok(0));
    assert_eq!(bytes, EMPTY);
}

#[test]
fn stations_read_back() {
    let extended = Message::Extended { house: 1, unit: 2, data: 3, command: 4 };
    let stations = [
        Station::EMPTY,
        Station { message: Some(Message::Address { house: 15, unit: 15 }), wait: 10, count: 10, place: 43 },
        Station { message: Some(A_ON), wait: 9, count: 4, place: 0 },
        Station { message: Some(extended), wait: 8, count: 8, place: 123 },
    ];
    for value in stations {
        assert_eq!(station(&station_bytes(&value)), Ok(value));
    }
}

#[test]
fn what_is_no_station_is_refused_by_each() {
    for from in NO_STATION {
        assert_eq!(station_sends(from), Err(Refusal::State), "{from:?}");
        for draw in [8, 10, 7, 11] {
            assert_eq!(load(from, A1, draw).0, Err(Refusal::State), "{from:?}");
            assert_eq!(half_cycle(from, 0, draw).0, Err(Refusal::State), "{from:?}");
            assert_eq!(half_cycle(from, 1, draw).0, Err(Refusal::State), "{from:?}");
            assert_eq!(half_cycle(from, 2, draw).0, Err(Refusal::Half), "{from:?}");
            assert_eq!(load(from, [1, 16, 0, 0, 0], draw).0, Err(Refusal::Message), "{from:?}");
        }
    }
}

#[test]
fn station_load_refuses_in_order() {
    for no_message in [[0; MESSAGE], [4, 0, 0, 0, 0], [2, 0, 7, 0, 0], [1, 0, 16, 0, 0], [3, 16, 0, 0, 0]] {
        for from in [&EMPTY[..], &SENDS_1, &[]] {
            assert_eq!(load(from, no_message, 8).0, Err(Refusal::Message));
            assert_eq!(load(from, no_message, 11).0, Err(Refusal::Message));
        }
    }
    for draw in [0, 7, 11, 255] {
        assert_eq!(load(&EMPTY, A1, draw).0, Err(Refusal::Draw));
        assert_eq!(load(&SENDS_1, A1, draw).0, Err(Refusal::Draw));
    }
    for from in [WAITING, SENDS_1, SENDS_0] {
        assert_eq!(load(&from, A1, 8).0, Err(Refusal::Busy));
    }
}

#[test]
fn a_station_keeps_only_what_its_message_has() {
    assert_eq!(load(&EMPTY, [1, 2, 3, 4, 5], 8), (Ok(0), vec![1, 2, 3, 0, 0, 8, 0, 0]));
    assert_eq!(load(&EMPTY, [2, 2, 3, 4, 5], 9), (Ok(0), vec![2, 2, 3, 0, 0, 9, 0, 0]));
    assert_eq!(load(&EMPTY, [3, 2, 3, 4, 5], 10), (Ok(0), vec![3, 2, 3, 4, 5, 10, 0, 0]));
}

#[test]
fn station_half_cycle_refuses_in_order() {
    for from in [EMPTY, WAITING, SENDS_1, SENDS_0] {
        for heard in [2, 3, 255] {
            assert_eq!(half_cycle(&from, heard, 8).0, Err(Refusal::Half));
            assert_eq!(half_cycle(&from, heard, 7).0, Err(Refusal::Half));
        }
        // A draw is judged also where it is not used.
        for heard in [0, 1] {
            assert_eq!(half_cycle(&from, heard, 7).0, Err(Refusal::Draw));
            assert_eq!(half_cycle(&from, heard, 11).0, Err(Refusal::Draw));
        }
    }
    assert_eq!(half_cycle(&SENDS_1, 0, 8).0, Err(Refusal::Fault));
}

#[test]
fn a_half_cycle_of_each_kind() {
    assert_eq!(half_cycle(&EMPTY, 0, 10), (Ok(0), EMPTY.to_vec()));
    assert_eq!(half_cycle(&EMPTY, 1, 10), (Ok(0), EMPTY.to_vec()));
    assert_eq!(half_cycle(&WAITING, 0, 10), (Ok(0), SENDS_1.to_vec()));
    assert_eq!(half_cycle(&WAITING, 1, 10), (Ok(0), vec![1, 0, 0, 0, 0, 10, 0, 0]));
    assert_eq!(half_cycle(&SENDS_1, 1, 10), (Ok(0), vec![1, 0, 0, 0, 0, 8, 8, 1]));
    assert_eq!(half_cycle(&SENDS_0, 0, 10), (Ok(0), vec![1, 0, 0, 0, 0, 8, 8, 4]));
    assert_eq!(half_cycle(&SENDS_0, 1, 10), (Ok(0), vec![1, 0, 0, 0, 0, 10, 0, 0]));
}

#[test]
fn from_load_to_done_alone() {
    for numbers in [A1, [2, 0, 2, 0, 0], [3, 4, 5, 6, 7]] {
        for draw in 8..=10 {
            let (_, mut bytes) = load(&EMPTY, numbers, draw);
            let mut sent = Vec::new();
            loop {
                let half = station_sends(&bytes).unwrap() as u8;
                sent.push(half);
                if station_half_cycle(&mut bytes, half, 8).unwrap() == 1 {
                    break;
                }
            }
            let mut whole = [0; LONGEST];
            let len = burst(numbers, &mut whole).unwrap();
            assert_eq!(sent[..usize::from(draw)], [0; 10][..usize::from(draw)]);
            assert_eq!(sent[usize::from(draw)..], whole[..len]);
            assert_eq!(bytes, EMPTY);
        }
    }
}

#[test]
fn stations_on_a_line_are_those_of_a_bench() {
    let mut drawn = Drawn(11);
    for _ in 0..200 {
        let n = 1 + drawn.below(4) as usize;
        let loads: Vec<u8> = (0..n).map(|_| 8 + drawn.below(3) as u8).collect();
        let draws: Vec<u8> = (0..n * 134 * n).map(|_| 8 + drawn.below(3) as u8).collect();
        let messages: Vec<u8> = (0..n)
            .flat_map(|_| match drawn.below(2) {
                0 => [1, drawn.below(3) as u8, drawn.below(3) as u8, 0, 0],
                _ => [3, drawn.below(3) as u8, 0, drawn.below(3) as u8, 0x31],
            })
            .collect();
        let (mut lines, mut marks) = (vec![9; 134 * n], vec![9; 2 * 134 * n]);
        assert_eq!(bench_run(&messages, &loads, &draws, &mut lines, &mut marks), Ok(134 * n));

        let mut stations = vec![EMPTY; n];
        for (i, station) in stations.iter_mut().enumerate() {
            let numbers = messages.as_chunks().0[i];
            assert_eq!(station_load(station, numbers, loads[i]), Ok(0));
        }
        for (j, &line) in lines.iter().enumerate() {
            let sent = stations.iter().map(|station| station_sends(station).unwrap());
            assert_eq!(sent.fold(0, |line, sent| line | sent as u8), line);
            let mut done = 0;
            for (i, station) in stations.iter_mut().enumerate() {
                done |= station_half_cycle(station, line, draws[n * j + i]).unwrap() << i;
            }
            assert_eq!(done, usize::from(marks[2 * j]) << 8 | usize::from(marks[2 * j + 1]));
        }
        assert_eq!(stations, vec![EMPTY; n]);
    }
}

/// The addresses A1 and B2, and a draw to load each with.
const TWO: [u8; 2 * MESSAGE] = [1, 0, 0, 0, 0, 1, 1, 1, 0, 0];
const LOADS: [u8; 2] = [8, 10];

/// The answer of a bench for three calls. Where it is a refusal, lines and marks are as they were.
fn three_calls(messages: &[u8], loads: &[u8], draws: &[u8], marks_len: usize) -> Result<usize, Refusal> {
    let (mut lines, mut marks) = ([9; 3], [9; 8]);
    let ran = bench_run(messages, loads, draws, &mut lines, &mut marks[..marks_len]);
    if ran.is_err() {
        assert_eq!((lines, marks), ([9; 3], [9; 8]));
    }
    ran
}

#[test]
fn as_many_draws_as_stations_and_calls() {
    let run = |draws: &[u8], marks_len| three_calls(&TWO, &LOADS, draws, marks_len);
    // One too few, one too many, a call's too few or too many, none; of any values, and whether or not
    // the marks are too short as well.
    for n in [5, 7, 4, 8, 0, 1] {
        for marks_len in [6, 8, 5, 0] {
            assert_eq!(run(&[8; 8][..n], marks_len), Err(Refusal::Draw), "{n} draws, {marks_len} marks");
            assert_eq!(run(&[11; 8][..n], marks_len), Err(Refusal::Draw), "{n} draws, {marks_len} marks");
        }
    }
    assert_eq!(run(&[8; 6], 5), Err(Refusal::Short));
    assert_eq!(run(&[8; 6], 0), Err(Refusal::Short));
    assert_eq!(run(&[8; 6], 6), Ok(3));
    assert_eq!(run(&[8; 6], 8), Ok(3));
    // No call takes no draw.
    assert_eq!(bench_run(&TWO, &LOADS, &[], &mut [], &mut []), Ok(0));
    assert_eq!(bench_run(&TWO, &LOADS, &[8], &mut [], &mut []), Err(Refusal::Draw));
}

#[test]
fn a_call_that_is_refused_is_no_refusal_of_the_run() {
    let (mut lines, mut marks) = ([9; 3], [9; 8]);
    assert_eq!(bench_run(&TWO, &LOADS, &[8, 8, 8, 11, 8, 8], &mut lines, &mut marks), Ok(2));
    assert_eq!((lines, marks), ([0, 7, 0], [0, 0, 0, 0, 0, 0, 9, 9]));
}

#[test]
fn bench_run_refuses_in_order() {
    let mut no_message = TWO;
    no_message[6] = 16;
    assert_eq!(three_calls(&no_message, &[], &[], 0), Err(Refusal::Message));
    assert_eq!(three_calls(&no_message, &[11], &[], 0), Err(Refusal::Message));
    assert_eq!(three_calls(&TWO, &[], &[], 0), Err(Refusal::State));
    assert_eq!(three_calls(&TWO, &[11], &[], 0), Err(Refusal::State));
    assert_eq!(three_calls(&TWO[..9], &[11, 8], &[], 0), Err(Refusal::State));
    assert_eq!(three_calls(&TWO, &[8, 11], &[], 0), Err(Refusal::Draw));
    assert_eq!(three_calls(&TWO, &[8, 11], &[8; 6], 0), Err(Refusal::Draw));
    assert_eq!(three_calls(&TWO, &[8, 11], &[8; 6], 6), Err(Refusal::Draw));
    assert_eq!(three_calls(&TWO, &LOADS, &[8; 5], 5), Err(Refusal::Draw));
    assert_eq!(three_calls(&TWO, &LOADS, &[8; 6], 5), Err(Refusal::Short));
    assert_eq!(three_calls(&TWO, &LOADS, &[8; 6], 6), Ok(3));
}

/// Bursts of messages for house A, with half-cycles damaged here and there.
fn some_line(drawn: &mut Drawn) -> Vec<u8> {
    let messages: Vec<Message> = (0..drawn.below(5))
        .map(|_| match drawn.below(3) {
            0 => Message::Address { house: 0, unit: drawn.below(2) as u8 },
            1 => Message::Function { house: 0, function: Function::ALL[drawn.below(12) as usize] },
            _ => Message::Extended {
                house: 0,
                unit: drawn.below(2) as u8,
                data: drawn.below(256) as u8,
                command: (0x30 * drawn.below(2) + drawn.below(16)) as u8,
            },
        })
        .collect();
    let mut line = line(&messages);
    for _ in 0..drawn.below(3) {
        if let Some(half) = line.get_mut(drawn.below(300) as usize) {
            *half = drawn.below(3) as u8;
        }
    }
    line
}

#[test]
fn a_run_of_the_receiver_is_its_steps_one_after_the_other() {
    let mut drawn = Drawn(3);
    let mut state = fresh();
    let mut value = Receiver::FRESH;
    for _ in 0..2000 {
        let line = some_line(&mut drawn);
        let mut events = vec![9; EVENT * line.len()];
        assert_eq!(receive(&mut state, &line, &mut events), Ok(line.len()));
        for (event, &half) in events.chunks(EVENT).zip(&line) {
            let mut single = [0; EVENT];
            write_event(value.step(half), &mut single);
            assert_eq!(event, single);
        }
        assert_eq!(state, receiver_bytes(&value));
    }
}

#[test]
fn a_run_of_the_mains_route_is_receive_and_apply_one_after_the_other() {
    let mut drawn = Drawn(5);
    let (mut state, mut state_singly) = (fresh(), fresh());
    let (mut table, mut table_singly) = (room(), room());
    let (mut shutters, mut shutters_singly) = (windows(), windows());
    for _ in 0..2000 {
        let line = some_line(&mut drawn);
        let run = Run::over(&mut state, &line, &mut table, &mut shutters);
        let before = (table_singly.clone(), shutters_singly.clone());
        for ((event, &answer), &half) in run.events.chunks(EVENT).zip(&run.answers).zip(&line) {
            let mut single = [0; EVENT];
            assert_eq!(receive(&mut state_singly, &[half], &mut single), Ok(1));
            assert_eq!(event, single);
            let [code, numbers @ ..] = single;
            let applied = match code {
                GIVEN => apply(&mut table_singly, &mut shutters_singly, numbers),
                _ => Ok(Counts::default()),
            };
            assert_eq!(answer, packed(applied));
        }
        assert_eq!((state, &table, &shutters), (state_singly, &table_singly, &shutters_singly));
        // The byte after the first of each, which is the level or the opening.
        let differs = |before: &[u8], after: &[u8], size: usize| {
            (0..256).filter(|i| before[size * i + 1] != after[size * i + 1]).count()
        };
        let (modules, shutters) = (differs(&before.0, &table, 12), differs(&before.1, &shutters, 20));
        assert_eq!(run.counts, Counts { modules, shutters });
        assert_eq!(lit(&table, 0), lit_counted(&table, 0));
    }
}
