//! Receivers: a fresh one, and runs over half-cycles.

use super::{fresh, one};
use crate::inputs;
use crate::lent::Lent;
use crate::reached;
use crate::rng::Rng;
use crate::tally::Tally;
use x10_model::bytes::{self, EVENT, RECEIVER};
use x10_model::message::Refusal;

pub fn receiver_fresh(rng: &mut Rng, size: usize) -> Tally {
    let mut tally = Tally::new("receiver_fresh", &[0, 6], &[], &[&reached::LENGTHS]);
    let mut state = Lent::new("state", 64, rng);
    for _ in 0..100_000 * size {
        let len = inputs::length(rng, RECEIVER, 64);
        state.lend_random(len, rng);
        let rattle = x10::receiver_fresh(state.rattle());
        let rust = bytes::receiver_fresh(state.rust());
        tally.reach(reached::length(len, RECEIVER));
        tally.case(rattle, rust, &mut [&mut state], String::new);
    }
    tally
}

/// Half-cycles of the longest line.
const MOST: usize = 4000;

struct Receive {
    tally: Tally,
    state: Lent,
    halves: Lent,
    events: Lent,
}

pub fn receive(rng: &mut Rng, size: usize) -> Tally {
    let situations: [&[&str]; 6] = [
        &reached::TURNS,
        &reached::WAITS,
        &reached::SLICES,
        &reached::LINES,
        &reached::IMPOSSIBLE,
        &reached::LENGTHS,
    ];
    let mut receive = Receive {
        tally: Tally::new("receive", &[0, 6, 9], &[0, 1, 2, 5, 10, 11], &situations),
        state: Lent::new("state", 2 * RECEIVER, rng),
        halves: Lent::new("halves", MOST, rng),
        events: Lent::new("events", EVENT * MOST + 64, rng),
    };
    receive.single_half_cycles(rng, size);
    receive.waitings(rng, size);
    receive.waiting_bytes(rng, size);
    receive.lines(rng, size);
    receive.tally
}

impl Receive {
    /// One half-cycle from every past and place, with bits and message given of any values; then from
    /// receivers of any kind.
    fn single_half_cycles(&mut self, rng: &mut Rng, size: usize) {
        for _ in 0..4 * size {
            for past in 0..=255 {
                for at in 0..=255 {
                    for half in [0, 1, rng.byte()] {
                        let from = inputs::receiver_at(rng, past, at);
                        self.case(Some(&from), &[half], EVENT, rng);
                    }
                }
            }
        }
        for _ in 0..2_000_000 * size {
            let from = inputs::receiver(rng);
            self.case(Some(&from), &[rng.below(2) as u8], EVENT, rng);
        }
    }

    /// One half-cycle from every receiver that waits, with every past.
    fn waitings(&mut self, rng: &mut Rng, size: usize) {
        for _ in 0..4 * size {
            for waiting in inputs::waitings() {
                for (past, half) in (0..64).flat_map(|past| [(past, 0), (past, 1)]) {
                    let from = inputs::receiver_waiting(rng, past, 0, waiting);
                    self.case(Some(&from), &[half], EVENT, rng);
                }
            }
        }
    }

    /// The same from every two bytes of a waiting, in the hunt and at any place.
    fn waiting_bytes(&mut self, rng: &mut Rng, size: usize) {
        for _ in 0..2 * size {
            for (since, place) in (0..=255).flat_map(|since| (0..=255).map(move |place| (since, place))) {
                for at in [0, 1 + rng.below(62) as u8] {
                    let past = rng.below(64) as u8;
                    let from = inputs::receiver_waiting(rng, past, at, [since, place]);
                    self.case(Some(&from), &[rng.below(2) as u8], EVENT, rng);
                }
            }
        }
    }

    /// Lines of any length, from fresh receivers, from where the last line ended, from any bytes.
    fn lines(&mut self, rng: &mut Rng, size: usize) {
        let mut line = Vec::new();
        for i in 0..400_000 * size {
            let most = if i % 100 == 0 { MOST } else { rng.pick(&[3, 300, 300, 300]) };
            let len = rng.below(most + 1);
            let bad = rng.one_in(4);
            if rng.one_in(3) {
                inputs::damaged(rng, len, bad, &mut line);
            } else {
                inputs::line(rng, len, bad, &mut line);
            }
            let asked = EVENT * len;
            let room = match rng.below(10) {
                0 => inputs::length(rng, asked, asked + 64),
                1 => asked + rng.below(65),
                _ => asked,
            };
            match rng.below(8) {
                0 => self.case(Some(&inputs::receiver(rng)), &line, room, rng),
                1 => {
                    let mut from = [0; 2 * RECEIVER];
                    from[..RECEIVER].copy_from_slice(&inputs::receiver(rng));
                    let len = inputs::length(rng, RECEIVER, 2 * RECEIVER);
                    self.case(Some(&from[..len]), &line, room, rng);
                }
                2..=4 => self.case(None, &line, room, rng),
                _ => self.case(Some(&fresh()), &line, room, rng),
            }
        }
    }

    /// A receiver of these bytes, or the one that the case before left, hears a line.
    fn case(&mut self, from: Option<&[u8]>, line: &[u8], room: usize, rng: &mut Rng) {
        self.state.lend_or_keep(from, RECEIVER);
        self.halves.lend_bytes(line);
        self.events.lend_random(room, rng);
        let rattle = x10::receive(self.state.rattle(), self.halves.rattle(), self.events.rattle());
        let rust = bytes::receive(self.state.rust(), self.halves.rust(), self.events.rust());
        match rust {
            Ok(_) => self.reach(line),
            Err(Refusal::State) => {
                reached::impossible(self.state.before())
                    .into_iter()
                    .for_each(|cause| self.tally.reach(cause));
            }
            Err(_) => {}
        }
        if rust != Err(Refusal::State) {
            self.tally.reach(reached::length(room, EVENT * line.len()));
        }
        let lent = &mut [&mut self.state, &mut self.halves, &mut self.events];
        self.tally.case(rattle, rust, lent, || format!("room {room}"));
        if rust.is_ok() && line.len() > 1 {
            self.singly(line);
        } else if rust.is_err() {
            // What stands there need not be a receiver; the next line is heard by one.
            self.state.lend_bytes(&fresh());
        }
    }

    /// Counts what a run over a line reached.
    fn reach(&mut self, line: &[u8]) {
        for event in self.events.after()[..EVENT * line.len()].chunks(EVENT) {
            self.tally.wrote(event[0]);
        }
        self.tally.reach(reached::slice(line.len()));
        let before = self.state.before();
        if let [0 | 1] = line {
            self.tally.reach(reached::turn(before, self.events.after()[0], self.state.after()));
        } else if !line.is_empty() {
            self.tally.reach(reached::line(before));
        }
    }

    /// The model's calls for one half-cycle each, one after the other, must say the same. Counts
    /// what is reached on the way.
    fn singly(&mut self, line: &[u8]) {
        let mut state: [u8; RECEIVER] = self.state.before().try_into().expect("a receiver");
        let mut waits = reached::Waits::default();
        let mut same = true;
        for (&half, event) in line.iter().zip(self.events.after().chunks(EVENT)) {
            let before = state;
            let single = one(&mut state, half);
            same &= event == single;
            waits.next(&before, single[0], &state).into_iter().for_each(|came| self.tally.reach(came));
        }
        if !same || state != self.state.after() {
            self.tally.differ(&format!("the model by single half-cycles\n    line {line:?}"));
        }
    }
}
