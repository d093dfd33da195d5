//! Runs of a bench of stations.

use crate::inputs;
use crate::lent::Lent;
use crate::reached;
use crate::rng::Rng;
use crate::tally::Tally;
use x10_model::bytes;
use x10_model::message::Refusal;

/// Calls of the longest run: as many as the slowest bench takes.
const CALLS: usize = 134 * 16;

struct Run {
    tally: Tally,
    messages: Lent,
    loads: Lent,
    draws: Lent,
    lines: Lent,
    marks: Lent,
}

pub fn bench_run(rng: &mut Rng, size: usize) -> Tally {
    let situations: [&[&str]; 3] = [&reached::STATIONS, &reached::DRAWS, &reached::RUNS];
    let mut run = Run {
        tally: Tally::new("bench_run", &[0, 2, 6, 7, 9], &[0, 1, 7], &situations),
        messages: Lent::new("messages", 128, rng),
        loads: Lent::new("loads", 32, rng),
        draws: Lent::new("draws", 20 * CALLS + 32, rng),
        lines: Lent::new("lines", CALLS + 8, rng),
        marks: Lent::new("marks", 2 * CALLS + 16, rng),
    };
    let mut bench = inputs::Bench { messages: vec![], loads: vec![], draws: vec![] };
    for i in 0..1_000_000 * size {
        let n = if rng.one_in(16) { rng.below(20) } else { 1 + rng.below(16) };
        // Short ones mostly, and now and then as long as the slowest bench takes.
        let calls = if i % 200 == 0 { 134 * n.min(16) } else { rng.below(if i % 4 == 0 { 160 } else { 70 }) };
        inputs::bench(rng, n, calls, i % 2 == 0, &mut bench);
        let calls = if rng.one_in(40) { calls + 1 } else { calls };
        run.case(&bench, n, calls, rng);
    }
    run.tally
}

impl Run {
    fn case(&mut self, bench: &inputs::Bench, n: usize, calls: usize, rng: &mut Rng) {
        self.messages.lend_bytes(&bench.messages);
        self.loads.lend_bytes(&bench.loads);
        self.draws.lend_bytes(&bench.draws);
        self.lines.lend_random(calls, rng);
        let room = if rng.one_in(20) { inputs::length(rng, 2 * calls, 2 * calls + 8) } else { 2 * calls };
        self.marks.lend_random(room, rng);
        let Run { tally, messages, loads, draws, lines, marks } = self;
        let rattle =
            x10::bench_run(messages.rattle(), loads.rattle(), draws.rattle(), lines.rattle(), marks.rattle());
        let rust = bytes::bench_run(messages.rust(), loads.rust(), draws.rust(), lines.rust(), marks.rust());
        tally.reach(reached::stations(n));
        match rust {
            Ok(count) => {
                lines.after().iter().for_each(|&line| tally.wrote(line));
                ran(tally, n, count, &marks.after()[..2 * calls]);
            }
            Err(Refusal::Draw) => {
                let asked = n * calls;
                tally.reach(reached::draws(&bench.loads, bench.draws.len(), asked, room < 2 * calls));
            }
            Err(_) => {}
        }
        let lent = &mut [messages, loads, draws, lines, marks];
        tally.case(rattle, rust, lent, || format!("{n} stations, {calls} calls"));
    }
}

/// What came in a run of n stations, of whose calls so many were not refused.
fn ran(tally: &mut Tally, n: usize, count: usize, marks: &[u8]) {
    let mut done = 0;
    for mark in marks.chunks(2) {
        let now = u16::from_be_bytes([mark[0], mark[1]]);
        match now.count_ones() {
            0 => {}
            1 => tally.reach("one DONE"),
            _ => tally.reach("several DONE"),
        }
        done |= now;
    }
    if done.count_ones() as usize == n {
        tally.reach("every station DONE");
    }
    if marks.is_empty() {
        tally.reach("no call");
    } else if count > 0 && 2 * count < marks.len() {
        tally.reach("some calls refused");
    }
}
