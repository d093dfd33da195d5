//! Tests of the receiver; one over half-cycles against one over the whole list of them.

use super::*;
use crate::burst::{frame_len, write_burst, write_frame, LONGEST, START};
use crate::drawn::Drawn;
use crate::message::{Function, Word};
use std::collections::BTreeSet;

const A1: Message = Message::Address { house: 0, unit: 0 };
const M13: Message = Message::Address { house: 12, unit: 12 };

fn burst(message: Message) -> Vec<u8> {
    let mut buf = [0; LONGEST];
    let len = write_burst(message, &mut buf).unwrap();
    buf[..len].to_vec()
}

fn frame(word: Word) -> Vec<u8> {
    let mut frame = vec![0; frame_len(word)];
    write_frame(word, &mut frame);
    frame
}

/// What a fresh receiver says, with the half-cycle's number counted from 1.
fn heard(line: &[u8]) -> Vec<(usize, Event)> {
    let mut receiver = Receiver::FRESH;
    let mut heard = Vec::new();
    for (i, &half) in line.iter().enumerate() {
        match receiver.step(half).unwrap() {
            Event::Nothing => {}
            event => heard.push((i + 1, event)),
        }
    }
    heard
}

/// The event of the pairs of a frame at the front of a line, and how many half-cycles they are.
/// None where the line ends before it.
fn frame_in_list(line: &[u8]) -> Option<(usize, Event)> {
    let mut bits: Vec<u8> = Vec::new();
    let mut pairs = 9;
    while bits.len() < pairs {
        let place = 2 * bits.len();
        let pair = line.get(place..place + 2)?;
        if pair[0] == pair[1] {
            return Some((place + 2, Event::BrokenPair));
        }
        bits.push(pair[0]);
        if bits.len() == 9 && bits[4..] == [0, 1, 1, 1, 1] {
            pairs = 29;
        }
    }
    let number = bits.iter().fold(0, |n, &bit| n * 2 + u32::from(bit));
    let event = match (pairs, Message::of_nine(number)) {
        (29, _) => Event::Message(Message::of_twenty_nine(number)),
        (_, Nine::Whole(message)) => Event::Message(message),
        _ => Event::BrokenUnsupported,
    };
    Some((2 * pairs, event))
}

/// The receiver once more, over the whole list of half-cycles, by looking back and ahead in it:
/// what is kept between half-cycles is the place, and the places where a start may yet stand after
/// a break.
fn heard_in_list(line: &[u8]) -> Vec<(usize, Event)> {
    let mut heard = Vec::new();
    let mut waited: Vec<usize> = Vec::new();
    let mut i = 0;
    while i < line.len() {
        i += 1;
        let at_place = i >= 4 && waited.first() == Some(&(i - 4));
        if at_place {
            waited.remove(0);
        }
        let begins = line[..i].ends_with(&[0, 0, 0, 1, 1, 1, 0]) || at_place && line[i - 4..i] == START;
        if !begins {
            continue;
        }
        waited.clear();
        let mut last = None;
        // i half-cycles have come, and the pairs of a frame are next.
        while let Some((taken, event)) = frame_in_list(&line[i..]) {
            let start = i - 4;
            i += taken;
            if last == Some(event) {
                heard.push((i, Event::Repeat));
                break;
            }
            heard.push((i, event));
            if event == Event::BrokenPair {
                // Nine pairs are 18 half-cycles.
                waited = if taken <= 18 { vec![start + 22, start + 62] } else { vec![start + 62] };
            }
            if !matches!(event, Event::Message(_)) {
                break;
            }
            last = Some(event);
            let Some(differs) = (0..4).find(|&k| line.get(i + k).is_none_or(|half| *half != START[k])) else {
                i += 4;
                continue;
            };
            i = line.len().min(i + differs + 1);
            break;
        }
    }
    heard
}

#[test]
fn two_clear_half_cycles_nothing_three_heard() {
    for message in [A1, M13, Message::Extended { house: 1, unit: 2, data: 3, command: 0x31 }] {
        let burst = burst(message);
        assert_eq!(heard(&[&[0, 0], &burst[..]].concat()), []);
        let frame = burst.len() / 2;
        assert_eq!(
            heard(&[&[0, 0, 0], &burst[..]].concat()),
            [(3 + frame, Event::Message(message)), (3 + 2 * frame, Event::Repeat)]
        );
    }
}

#[test]
fn the_trace_example() {
    let line = [&[0, 0, 0], &burst(A1)[..]].concat();
    assert_eq!(heard(&line), [(25, Event::Message(A1)), (47, Event::Repeat)]);
}

#[test]
fn m13_with_its_start_damaged_is_not_j_status_request() {
    let mut line = [&[0, 0, 0], &burst(M13)[..22], &[0; 60]].concat();
    line[6] = 1;
    assert_eq!(heard(&line), []);
}

#[test]
fn an_unsupported_code_is_broken_11() {
    for code in [10, 11, 12] {
        let word = Word { bits: 6 << 5 | code << 1 | 1, len: 9 };
        let line = [&[0, 0, 0], &frame(word)[..], &[0; 10]].concat();
        assert_eq!(heard(&line), [(25, Event::BrokenUnsupported)]);
    }
}

#[test]
fn a_different_second_frame_is_a_message() {
    let a = frame(A1.word());
    let b = frame(M13.word());
    let line = [&[0, 0, 0], &a[..], &b, &b, &b].concat();
    let told = [(25, Event::Message(A1)), (47, Event::Message(M13)), (69, Event::Repeat)];
    assert_eq!(heard(&line), told);
}

#[test]
fn the_history_includes_a_frame_that_was_read() {
    // A on ends in 1 0, and two clear half-cycles follow: with the frame's own 0 they are the
    // three that the next start needs. The first of them ends the awaiting.
    let mut line =
        [&[0, 0, 0], &burst(Message::Function { house: 0, function: Function::On })[..22]].concat();
    assert_eq!(line[24], 0);
    line.extend([0, 0]);
    line.extend(burst(A1));
    assert_eq!(heard(&line).len(), 3);
    assert_eq!(heard(&line)[1], (49, Event::Message(A1)));
}

/// All standard messages, and a spread of extended ones.
fn messages() -> Vec<Message> {
    let mut messages: Vec<Message> = Vec::new();
    for house in 0..16 {
        messages.extend((0..16).map(|unit| Message::Address { house, unit }));
        messages.extend(Function::ALL.map(|function| Message::Function { house, function }));
    }
    for n in 0..256u32 {
        let number = n.wrapping_mul(0x9E37_79B9);
        messages.push(Message::Extended {
            house: (number >> 28) as u8,
            unit: (number >> 24 & 15) as u8,
            data: (number >> 16) as u8,
            command: (number >> 8) as u8,
        });
    }
    messages
}

/// The messages given on a line.
fn given(line: &[u8]) -> Vec<Message> {
    let message = |(_, event)| match event {
        Event::Message(message) => Some(message),
        _ => None,
    };
    heard(line).into_iter().filter_map(message).collect()
}

/// Clear half-cycles, the burst with one half-cycle inverted, and clear ones after it.
fn inverted(clear: usize, burst: &[u8], place: usize) -> Vec<u8> {
    let mut line = [&vec![0; clear][..], burst, &[0; 70]].concat();
    line[clear + place] ^= 1;
    line
}

#[test]
fn one_inverted_half_cycle_gives_the_message_once() {
    for message in messages() {
        let burst = burst(message);
        for clear in [3, 4, 5, 9] {
            for place in 0..burst.len() {
                let given = given(&inverted(clear, &burst, place));
                // The start of the first copy keeps the old "at most once".
                let none = given.is_empty() && place < 4;
                assert!(none || given == [message], "{message:?} {place} {given:?}");
            }
        }
    }
}

/// A few frames with clear half-cycles before them or not, some half-cycles inverted.
fn some_line(drawn: &mut Drawn) -> Vec<u8> {
    let mut line = Vec::new();
    for _ in 0..drawn.below(6) {
        line.extend(vec![0; drawn.below(6) as usize]);
        let len = if drawn.below(2) == 0 { 9 } else { 29 };
        let mut bits = drawn.below(1 << len) as u32;
        if len == 29 {
            bits = bits & !(31 << 20) | EXTENDED_MARK << 20;
        }
        let frame = frame(Word { bits, len });
        for _ in 0..drawn.below(4) {
            line.extend(&frame);
        }
        for _ in 0..drawn.below(3) {
            let place = drawn.below(line.len() as u64 + 1) as usize;
            if place < line.len() {
                line[place] ^= 1;
            }
        }
    }
    line
}

#[test]
fn agrees_with_the_receiver_over_the_list() {
    let mut drawn = Drawn(1);
    for _ in 0..40_000 {
        let line = some_line(&mut drawn);
        assert_eq!(heard(&line), heard_in_list(&line), "{line:?}");
    }
}

const EXTENDED: Message = Message::Extended { house: 1, unit: 2, data: 3, command: 0x31 };

/// Three clear half-cycles and a frame, of which one half-cycle of pair n, counted from 1, is
/// inverted.
fn broken_in(message: Message, n: usize) -> Vec<u8> {
    let mut line = [&[0, 0, 0], &frame(message.word())[..]].concat();
    line[3 + 4 + 2 * (n - 1)] ^= 1;
    line
}

/// The receiver that hears a line.
fn after(line: &[u8]) -> Receiver {
    let mut receiver = Receiver::FRESH;
    for &half in line {
        receiver.step(half).unwrap();
    }
    receiver
}

fn waiting(receiver: Receiver) -> (u8, u8) {
    (receiver.since, receiver.target)
}

#[test]
fn what_a_break_waits_for() {
    for n in 1..=29 {
        // s is half-cycle 3, counted from 0, and the break comes with the second of the pair.
        let broken = &broken_in(EXTENDED, n)[..3 + 4 + 2 * n];
        assert_eq!(heard(broken), [(broken.len(), Event::BrokenPair)]);
        let place = if n <= 9 { 22 } else { 62 };
        assert_eq!(waiting(after(broken)), (4 + 2 * n as u8, place));
    }
}

#[test]
fn a_second_copy_after_a_break() {
    for n in 1..=9 {
        let line = [&broken_in(A1, n)[..], &frame(A1.word())].concat();
        assert_eq!(heard(&line), [(7 + 2 * n, Event::BrokenPair), (47, Event::Message(A1))]);
    }
    // For the first nine pairs the start is looked for at 22 first.
    for n in 1..=29 {
        let line = [&broken_in(EXTENDED, n)[..], &frame(EXTENDED.word())].concat();
        assert_eq!(heard(&line), [(7 + 2 * n, Event::BrokenPair), (127, Event::Message(EXTENDED))]);
    }
}

#[test]
fn four_are_awaited_after_a_second_copy() {
    let copy = frame(A1.word());
    let line = [&broken_in(A1, 4)[..], &copy, &copy].concat();
    let told = [(15, Event::BrokenPair), (47, Event::Message(A1)), (69, Event::Repeat)];
    assert_eq!(heard(&line), told);
    let other = [&broken_in(A1, 4)[..], &copy, &frame(M13.word())].concat();
    assert_eq!(heard(&other)[2], (69, Event::Message(M13)));
}

#[test]
fn a_second_copy_that_breaks() {
    // Its s is the first of the four that were awaited: half-cycle 25, counted from 0.
    let copy = frame(A1.word());
    for n in 1..=9 {
        let mut line = [&[0, 0, 0], &copy[..], &copy, &copy].concat();
        line[25 + 4 + 2 * (n - 1)] ^= 1;
        let told = [(25, Event::Message(A1)), (29 + 2 * n, Event::BrokenPair), (69, Event::Message(A1))];
        assert_eq!(heard(&line), told);
        assert_eq!(waiting(after(&line[..29 + 2 * n])), (4 + 2 * n as u8, 22));
    }
}

#[test]
fn a_frame_of_62_without_a_start_at_22() {
    // Pairs 10 and 11, at 22 to 25, and then the place is 62.
    let broken = broken_in(EXTENDED, 1);
    assert_eq!(waiting(after(&broken[..3 + 25])), (25, 22));
    assert_eq!(waiting(after(&broken[..3 + 26])), (26, 62));
    let start = [1, 1, 1, 0];
    assert_eq!(waiting(after(&[&broken[..3 + 62], &start[..3]].concat())), (65, 62));
    let begun = after(&[&broken[..3 + 62], &start[..]].concat());
    assert_eq!((begun.at, waiting(begun)), (FIRST_PAIR, (0, 0)));
    let over = after(&[&broken[..3 + 62], &[1, 1, 1, 1]].concat());
    assert_eq!((over.at, waiting(over)), (0, (0, 0)));
}

#[test]
fn a_start_at_another_place_is_none() {
    let copy = frame(A1.word());
    for off in [1, 2, 39, 41] {
        let line = [&broken_in(A1, 9)[..], &[1; 41][..off], &copy, &[0; 70]].concat();
        assert_eq!(heard(&line), [(25, Event::BrokenPair)], "{off}");
    }
    // 40 half-cycles on it is s + 62.
    let line = [&broken_in(A1, 9)[..], &[1; 40], &copy].concat();
    assert_eq!(heard(&line), [(25, Event::BrokenPair), (87, Event::Message(A1))]);
}

#[test]
fn a_break_after_the_ninth_pair_does_not_wait_at_22() {
    // A frame at s + 22 of one that has more pairs: its start breaks the tenth, and is none.
    let line = [&[0, 0, 0], &frame(EXTENDED.word())[..22], &frame(A1.word()), &[1; 60]].concat();
    assert_eq!(heard(&line), [(27, Event::BrokenPair)]);
    assert_eq!(waiting(after(&line[..27])), (24, 62));
}

#[test]
fn an_unsupported_code_starts_no_waiting() {
    let unsupported = Word { bits: 6 << 5 | 10 << 1 | 1, len: 9 };
    let line = [&[0, 0, 0], &frame(unsupported)[..], &frame(A1.word()), &[1; 18], &frame(A1.word())].concat();
    assert_eq!(heard(&line), [(25, Event::BrokenUnsupported)]);
    assert_eq!(waiting(after(&line[..25])), (0, 0));
}

#[test]
fn the_hunt_runs_on_while_a_start_is_waited_for() {
    let copy = frame(A1.word());
    // Broken in its first pair, and a burst after three clear half-cycles, before s + 22.
    let mut line = [&broken_in(A1, 1)[..9], &[0, 0, 0], &copy[..], &copy].concat();
    let told = [(9, Event::BrokenPair), (34, Event::Message(A1)), (56, Event::Repeat)];
    assert_eq!(heard(&line), told);
    assert_eq!(waiting(after(&line[..15])), (12, 22));
    let begun = after(&line[..16]);
    assert_eq!((begun.at, waiting(begun)), (FIRST_PAIR, (0, 0)));
    // Where that frame breaks, the waiting is counted from its own start.
    line[16] ^= 1;
    assert_eq!(waiting(after(&line[..18])), (6, 22));
    assert_eq!(heard(&line), [(9, Event::BrokenPair), (18, Event::BrokenPair), (56, Event::Message(A1))]);
}

#[test]
fn a_start_at_22_puts_62_off() {
    // The frame at s + 22 breaks, so its own places are 44 and 84 of the first.
    let mut line = [&broken_in(A1, 5)[..], &frame(A1.word())].concat();
    line[25 + 4] ^= 1;
    let told = [(17, Event::BrokenPair), (31, Event::BrokenPair)];
    assert_eq!(heard(&line), told);
    for (place, message) in [(44, Some(M13)), (62, None), (84, Some(M13))] {
        let mut line = line.clone();
        line.resize(3 + place, 1);
        line.extend(frame(M13.word()));
        let heard = heard(&line);
        assert_eq!(heard[..2], told);
        let then: Vec<_> = message.map(|message| (line.len(), Event::Message(message))).into_iter().collect();
        assert_eq!(heard[2..], then, "{place}");
    }
}

#[test]
fn a_half_cycle_that_is_none_is_not_counted() {
    let mut receiver = after(&broken_in(A1, 9));
    let waits = receiver;
    assert_eq!(receiver.step(2), Err(Refusal::Half));
    assert_eq!(receiver, waits);
}

#[test]
fn a_frame_waited_for_has_no_message_before_it() {
    // Made up: no call leads to a hunting receiver that keeps bits or a message.
    for (since, target) in [(25, 22), (65, 62)] {
        let made_up = Receiver { past: 0b100111, at: 0, bits: 5, given: Some(A1), since, target };
        let mut receiver = made_up;
        assert_eq!(receiver.step(0), Ok(Event::Nothing));
        assert_eq!(receiver, Receiver { past: 0b001110, at: FIRST_PAIR, ..Receiver::FRESH });
        let mut receiver = made_up;
        assert_eq!(receiver.step(1), Ok(Event::Nothing));
        let (since, target) = if target == 22 { (26, 62) } else { (0, 0) };
        assert_eq!(receiver, Receiver { past: 0b001111, since, target, ..Receiver::FRESH });
    }
}

/// What (at, since, target) `judge` lets pass, with bits that are right for the place.
fn passes(at: u8, since: u8, target: u8) -> bool {
    let bits = if (23..=62).contains(&at) { EXTENDED_MARK << ((at - 23) / 2) } else { 0 };
    Receiver { at, bits, since, target, ..Receiver::FRESH }.judge().is_ok()
}

#[test]
fn judged_well_is_what_a_break_with_calls_after_it_leads_to() {
    let mut reached = BTreeSet::new();
    let mut drawn = Drawn(13);
    for _ in 0..40_000 {
        let mut receiver = Receiver::FRESH;
        for half in some_line(&mut drawn) {
            receiver.step(half).unwrap();
            reached.insert((receiver.at, receiver.since, receiver.target));
        }
    }
    let mut well = BTreeSet::new();
    for at in 0..=255 {
        for since in 0..=255 {
            well.extend(
                (0..=255).filter(|&target| passes(at, since, target)).map(|target| (at, since, target)),
            );
        }
    }
    assert_eq!(reached, well);
    let waits = well.iter().filter(|(_, since, target)| (*since, *target) != (0, 0)).copied();
    let at_22 = (6..=25).map(|since| (0, since, 22));
    let at_62 = (24..=65).map(|since| (0, since, 62));
    assert_eq!(waits.collect::<BTreeSet<_>>(), at_22.chain(at_62).collect());
}

#[test]
fn an_awaited_half_cycle_that_differs_goes_to_the_hunt() {
    for at in 1..=3 {
        let made_up = Receiver { past: BEFORE_START, at, bits: 5, given: Some(A1), ..Receiver::FRESH };
        let mut receiver = made_up;
        assert_eq!(receiver.step(0), Ok(Event::Nothing));
        assert_eq!(receiver, Receiver { past: 14, at: FIRST_PAIR, ..Receiver::FRESH });
        let mut receiver = Receiver { past: 6, ..made_up };
        assert_eq!(receiver.step(0), Ok(Event::Nothing));
        assert_eq!(receiver, Receiver { past: 12, ..Receiver::FRESH });
    }
}

#[test]
fn refusals_leave_the_receiver() {
    let mut receiver = Receiver::FRESH;
    assert_eq!(receiver.step(2), Err(Refusal::Half));
    assert_eq!(receiver, Receiver::FRESH);
    let far = Message::Address { house: 16, unit: 0 };
    let states = [
        Receiver { past: 64, ..Receiver::FRESH },
        Receiver { at: 63, bits: EXTENDED_MARK << 20, ..Receiver::FRESH },
        Receiver { at: 23, bits: EXTENDED_MARK - 1, ..Receiver::FRESH },
        Receiver { at: 26, bits: EXTENDED_MARK, ..Receiver::FRESH },
        Receiver { given: Some(far), ..Receiver::FRESH },
        Receiver { since: 5, target: 22, ..Receiver::FRESH },
        Receiver { since: 6, target: 0, ..Receiver::FRESH },
        Receiver { at: 5, since: 6, target: 22, ..Receiver::FRESH },
    ];
    for state in states {
        let mut receiver = state;
        assert_eq!(receiver.step(1), Err(Refusal::State));
        assert_eq!(receiver.step(9), Err(Refusal::Half));
        assert_eq!(receiver, state);
    }
    for at in 23..=62 {
        let bits = EXTENDED_MARK << ((at - 23) / 2);
        assert_eq!(Receiver { at, bits, ..Receiver::FRESH }.judge(), Ok(()));
    }
}
