//! Times the library and the model side by side, on the same inputs, in one run.
//!
//! A round times a batch of one side and then the same batch of the other; which is first changes
//! from round to round, and so does the place of the stack. The time of a side is the median of its
//! rounds. Lent buffers are not cleared between calls; tables and receivers start each batch from the
//! same bytes, which are put there outside the timed part.

use crate::inputs::{self, HEARD, RECORD, SHUTTER, SHUTTER_TABLE, TABLE};
use crate::rng::Rng;
use std::hint::black_box;
use std::time::Instant;
use x10_model::bytes::{self, ANSWER, EVENT, RECEIVER, STATION};

/// Rounds that are timed for each row where nothing else is asked for.
pub const ROUNDS: usize = 401;

/// A batch takes at least this long: enough for the clock's own time not to count, and short enough
/// for most batches to run through undisturbed where the machine has other work.
const BATCH_NS: u128 = 200_000;

/// Places of the stack that the rounds take in turn.
const DEPTHS: usize = 50;

/// How the table is made, for the reader of its numbers.
pub fn how(rounds: usize) -> String {
    format!(
        "Median of {rounds} rounds for each side, the two sides in turn on the same inputs; release builds. \
         Lent buffers are not cleared between calls; tables and receivers are put back before each round, \
         which is not timed."
    )
}

pub struct Row {
    pub routine: &'static str,
    /// What is timed, and over what.
    pub timed: &'static str,
    pub rattle_ns: f64,
    pub rust_ns: f64,
}

impl Row {
    pub fn ratio(&self) -> f64 {
        self.rattle_ns / self.rust_ns
    }
}

/// One side of a row: the lent memory that it works on, put back before each batch.
trait Side {
    fn reset(&mut self);
    fn run(&mut self);
}

struct Over<S, R: FnMut(&mut S), F: FnMut(&mut S)> {
    lent: S,
    reset: R,
    run: F,
}

impl<S, R: FnMut(&mut S), F: FnMut(&mut S)> Side for Over<S, R, F> {
    fn reset(&mut self) {
        (self.reset)(&mut self.lent);
    }
    fn run(&mut self) {
        (self.run)(&mut self.lent);
    }
}

/// The time of `batch` runs, in nanoseconds, so many calls deep.
fn time(side: &mut dyn Side, batch: usize, depth: usize) -> u128 {
    // Where the stack stands differs from process to process and may change what copies of locals cost.
    let pad = black_box([depth; 2]);
    if depth > 0 {
        return black_box(time(side, batch, pad[0] - 1));
    }
    side.reset();
    let start = Instant::now();
    for _ in 0..batch {
        side.run();
    }
    start.elapsed().as_nanos()
}

/// The table so far.
struct Rows {
    rounds: usize,
    /// The only row that is asked for, counted from 1, where not all are.
    only: Option<usize>,
    /// Rows that have come up so far.
    come: usize,
    rows: Vec<Row>,
}

impl Rows {
    /// Times both sides; a run of either has `units` of what is timed.
    fn add(
        &mut self,
        routine: &'static str,
        timed: &'static str,
        units: usize,
        rattle: &mut dyn Side,
        rust: &mut dyn Side,
    ) {
        self.come += 1;
        if self.only.is_some_and(|only| only != self.come) {
            return;
        }
        let mut batch = 1;
        while time(rust, batch, 0).min(time(rattle, batch, 0)) < BATCH_NS {
            batch *= 2;
        }
        let mut rattle_times = Vec::with_capacity(self.rounds);
        let mut rust_times = Vec::with_capacity(self.rounds);
        for round in 0..self.rounds {
            let depth = round / 2 % DEPTHS;
            if round % 2 == 0 {
                rattle_times.push(time(rattle, batch, depth));
                rust_times.push(time(rust, batch, depth));
            } else {
                rust_times.push(time(rust, batch, depth));
                rattle_times.push(time(rattle, batch, depth));
            }
        }
        let median = |mut times: Vec<u128>| {
            times.sort_unstable();
            times[self.rounds / 2] as f64 / (batch * units) as f64
        };
        let (rattle_ns, rust_ns) = (median(rattle_times), median(rust_times));
        self.rows.push(Row { routine, timed, rattle_ns, rust_ns });
    }
}

/// Both sides of a row from one text: `$lib` stands for the library and for the model in turn.
macro_rules! row {
    ($rows:expr, $routine:expr, $timed:expr, $units:expr, $lent:expr, $reset:expr,
     |$s:ident, $lib:ident| $run:expr) => {{
        let mut rattle = {
            use x10 as $lib;
            Over { lent: $lent, reset: $reset, run: |$s| $run }
        };
        // The library has a type of its own for messages; the model takes the five numbers.
        #[allow(clippy::useless_conversion)]
        let mut rust = {
            use bytes as $lib;
            Over { lent: $lent, reset: $reset, run: |$s| $run }
        };
        $rows.add($routine, $timed, $units, &mut rattle, &mut rust);
    }};
}

/// All rows, or only one, with so many rounds for each.
pub fn all(seed: u64, rounds: usize, only: Option<usize>) -> Vec<Row> {
    let rng = &mut Rng::new(seed);
    let mut rows = Rows { rounds, only, come: 0, rows: Vec::new() };
    bursts(rng, &mut rows);
    let line = receivers(rng, seed, &mut rows);
    radio(rng, &mut rows);
    tables(rng, seed, &mut rows);
    benches(rng, &mut rows);
    let start = Start { table: full_table(rng), shutters: full_shutters(seed) };
    radio_route(rng, &start, &mut rows);
    mains_route(&start, &sent_line(rng, 250, false), 1, "256 modules, one half-cycle a call", &mut rows);
    mains_route(&start, &line, line.len(), "256 modules, slice of bursts, a half-cycle", &mut rows);
    stations(rng, &mut rows);
    type_0(seed, &start, &mut rows);
    guest_house(seed, &mut rows);
    lit(&mut rows);
    groups(seed, &start, &mut rows);
    rows.rows
}

/// Messages of one kind.
fn messages(rng: &mut Rng, extended: bool) -> Vec<[u8; 5]> {
    let all = std::iter::repeat_with(|| inputs::message(rng));
    all.filter(|message| (message[0] == 3) == extended).take(1024).collect()
}

fn bursts(rng: &mut Rng, rows: &mut Rows) {
    let kinds = [(false, 44, "burst of 44, a call"), (true, 124, "burst of 124, a call")];
    for (extended, len, timed) in kinds {
        let messages = messages(rng, extended);
        row!(rows, "burst", timed, messages.len(), vec![0; len], |_| {}, |buf, lib| {
            for &message in black_box(&messages) {
                _ = black_box(&lib::burst(message.into(), black_box(buf)));
            }
        });
    }
}

fn fresh() -> [u8; RECEIVER] {
    let mut state = [0; RECEIVER];
    bytes::receiver_fresh(&mut state).expect("thirteen bytes");
    state
}

/// So many half-cycles: bursts, each after 8 to 10 clear half-cycles. Where `damaged`, one
/// half-cycle of a pair of each first copy is inverted.
fn sent_line(rng: &mut Rng, len: usize, damaged: bool) -> Vec<u8> {
    let mut line = Vec::new();
    while line.len() < len {
        line.extend(std::iter::repeat_n(0, 8 + rng.below(3)));
        let mut burst = [0; 124];
        let sent = bytes::burst(inputs::message(rng), &mut burst).expect("a message");
        if damaged {
            burst[4 + rng.below(sent / 2 - 4)] ^= 1;
        }
        line.extend(&burst[..sent]);
    }
    line.truncate(len);
    line
}

/// The slice of undamaged bursts that was timed. The damaged ones are drawn apart, so that the
/// other inputs are those of before there was this row.
fn receivers(rng: &mut Rng, seed: u64, rows: &mut Rows) -> Vec<u8> {
    row!(rows, "receiver_fresh", "a call", 1, fresh(), |_| {}, |state, lib| {
        _ = black_box(&lib::receiver_fresh(black_box(state)));
    });
    let sent = sent_line(rng, 10_000, false);
    let clear = vec![0; 10_000];
    let damaged = sent_line(&mut Rng::new(seed ^ 0xDA), 10_000, true);
    let lines = [
        (&sent, "slice of bursts, a half-cycle"),
        (&clear, "slice of clear line, a half-cycle"),
        (&damaged, "slice of damaged bursts, a half-cycle"),
    ];
    for (line, timed) in lines {
        let events = vec![0; EVENT * line.len()];
        row!(
            rows,
            "receive",
            timed,
            line.len(),
            (fresh(), events.clone()),
            |lent| lent.0 = fresh(),
            |lent, lib| {
                _ = black_box(&lib::receive(black_box(&mut lent.0), black_box(line), black_box(&mut lent.1)));
            }
        );
    }
    sent
}

/// The 544 commands in some order.
fn commands(rng: &mut Rng) -> Vec<[u8; 3]> {
    let mut all = Vec::new();
    for house in 0..16 {
        for unit in 0..16 {
            all.extend([[0, house, unit], [1, house, unit]]);
        }
        all.extend([[2, house, 0], [3, house, 0]]);
    }
    for i in (1..all.len()).rev() {
        all.swap(i, rng.below(i + 1));
    }
    all
}

fn codes(rng: &mut Rng) -> Vec<[u8; 4]> {
    let code = |[command, house, unit]: [u8; 3]| {
        let mut code = [0; 4];
        bytes::radio_write(command, house, unit, &mut code).expect("a command");
        code
    };
    commands(rng).into_iter().map(code).collect()
}

fn radio(rng: &mut Rng, rows: &mut Rows) {
    let commands = commands(rng);
    row!(rows, "radio_write", "the 544 commands, a call", commands.len(), [0; 4], |_| {}, |out, lib| {
        for &[command, house, unit] in black_box(&commands) {
            _ = black_box(&lib::radio_write(command, house, unit, black_box(out)));
        }
    });
    let codes = codes(rng);
    row!(rows, "radio_read", "the 544 codes, a call", codes.len(), [0; 3], |_| {}, |out, lib| {
        for code in black_box(&codes) {
            _ = black_box(&lib::radio_read(code, black_box(out)));
        }
    });
}

/// A table with all 256 records present.
fn full_table(rng: &mut Rng) -> Vec<u8> {
    let mut table = vec![0; TABLE];
    inputs::table(rng, 0, false, &mut table);
    table
}

/// A table with all 256 shutters present. Its numbers are drawn apart, so that the other inputs are those
/// of before there were shutters.
fn full_shutters(seed: u64) -> Vec<u8> {
    let mut shutters = vec![0; SHUTTER_TABLE];
    inputs::shutters(&mut Rng::new(!seed), 0, false, &mut shutters);
    shutters
}

/// What both tables have at the start of each batch.
#[derive(Clone)]
struct Start {
    table: Vec<u8>,
    shutters: Vec<u8>,
}

impl Start {
    fn put(&mut self, start: &Start) {
        self.table.copy_from_slice(&start.table);
        self.shutters.copy_from_slice(&start.shutters);
    }
}

fn tables(rng: &mut Rng, seed: u64, rows: &mut Rows) {
    let start = Start { table: full_table(rng), shutters: full_shutters(seed) };
    let messages: Vec<[u8; 5]> = (0..256).map(|_| inputs::message(rng)).collect();
    apply(&start, &messages, "256 modules, mixed messages, a call", rows);
}

/// Messages of type 0: for one unit, and for those of every house that are included in a lifestyle.
fn type_0(seed: u64, start: &Start, rows: &mut Rows) {
    let rng = &mut Rng::new(seed ^ 0xA1);
    let units: Vec<[u8; 5]> = (0..256)
        .map(|_| {
            let (house, unit) = (rng.below(16) as u8, rng.below(16) as u8);
            let data = (rng.below(8) << 5 | rng.below(26)) as u8;
            [3, house, unit, data, rng.pick(&[0x01, 0x02, 0x03, 0x07, 0x09])]
        })
        .collect();
    apply(start, &units, "256 shutters, type 0 for one unit, a call", rows);
    let begins: Vec<[u8; 5]> = (0..256).map(|_| [3, 0, 0, rng.byte(), 0x08]).collect();
    apply(start, &begins, "256 shutters, begin lifestyle, a call", rows);
}

/// A guest house as it is: modules at all units of house A and at six of house B, shutters at eight of
/// house A, and nothing in the other houses.
fn guest_house(seed: u64, rows: &mut Rows) {
    let rng = &mut Rng::new(seed ^ 0xA2);
    let mut start = Start { table: full_table(rng), shutters: full_shutters(seed) };
    start.table[22 * RECORD..].fill(0);
    inputs::count_lit(&mut start.table);
    start.shutters[8 * SHUTTER..].fill(0);
    let messages: Vec<[u8; 5]> = (0..256).map(|_| inputs::message(rng)).collect();
    apply(&start, &messages, "22 modules and 8 shutters, mixed messages, a call", rows);
}

/// How many modules of each house are lit, asked of a table with no module and of one with 256 lit ones. In
/// the first two rows the plain Rust counts them anew, as a program does for which no number is kept.
fn lit(rows: &mut Rows) {
    let empty = vec![0; TABLE];
    let mut full = empty.clone();
    full[..HEARD].chunks_mut(RECORD).for_each(|record| record[..2].copy_from_slice(&[1, 63]));
    inputs::count_lit(&mut full);
    lit_beside_counting(&empty, "no module, counted anew in Rust, a call", rows);
    lit_beside_counting(&full, "256 lit modules, counted anew in Rust, a call", rows);
    row!(rows, "lit", "256 lit modules, a call", 16, (), |_| {}, |_none, lib| {
        for house in 0..16 {
            _ = black_box(&lib::lit(black_box(&full), black_box(house)));
        }
    });
}

fn lit_beside_counting(table: &[u8], timed: &'static str, rows: &mut Rows) {
    let asked = |_: &mut ()| {
        for house in 0..16 {
            _ = black_box(&x10::lit(black_box(table), black_box(house)));
        }
    };
    let counted = |_: &mut ()| {
        for house in 0..16 {
            _ = black_box(&bytes::lit_counted(black_box(table), black_box(house)));
        }
    };
    let mut rattle = Over { lent: (), reset: |_: &mut ()| {}, run: asked };
    let mut rust = Over { lent: (), reset: |_: &mut ()| {}, run: counted };
    rows.add("lit", timed, 16, &mut rattle, &mut rust);
}

/// Executions, offs and steps of groups, about half of them relative.
fn groups(seed: u64, start: &Start, rows: &mut Rows) {
    let rng = &mut Rng::new(seed ^ 0xA5);
    let calls: Vec<[u8; 5]> = (0..256)
        .map(|_| [3, rng.below(16) as u8, rng.below(16) as u8, rng.byte(), rng.pick(&[0x36, 0x3C])])
        .collect();
    apply(start, &calls, "256 modules, groups called, a call", rows);
}

fn apply(start: &Start, messages: &[[u8; 5]], timed: &'static str, rows: &mut Rows) {
    row!(
        rows,
        "apply",
        timed,
        messages.len(),
        start.clone(),
        |lent: &mut Start| lent.put(start),
        |lent, lib| {
            for &message in black_box(messages) {
                _ = black_box(&lib::apply(
                    black_box(&mut lent.table),
                    black_box(&mut lent.shutters),
                    message.into(),
                ));
            }
        }
    );
}

fn benches(rng: &mut Rng, rows: &mut Rows) {
    const CALLS: usize = 134 * 16;
    let mut bench = inputs::Bench { messages: vec![], loads: vec![], draws: vec![] };
    inputs::bench(rng, 16, CALLS, false, &mut bench);
    row!(
        rows,
        "bench_run",
        "16 stations, a half-cycle",
        CALLS,
        (vec![0; CALLS], vec![0; 2 * CALLS]),
        |_| {},
        |lent, lib| {
            _ = black_box(&lib::bench_run(
                black_box(&bench.messages),
                &bench.loads,
                &bench.draws,
                black_box(&mut lent.0),
                black_box(&mut lent.1),
            ));
        }
    );
}

fn radio_route(rng: &mut Rng, start: &Start, rows: &mut Rows) {
    let codes = codes(rng);
    row!(
        rows,
        "radio_route",
        "256 modules, the 544 codes, a call",
        codes.len(),
        start.clone(),
        |lent: &mut Start| lent.put(start),
        |lent, lib| {
            for code in black_box(&codes) {
                _ = black_box(&lib::radio_route(
                    black_box(&mut lent.table),
                    black_box(&mut lent.shutters),
                    code,
                ));
            }
        }
    );
}

/// A line handed over in slices of that many half-cycles.
fn mains_route(start: &Start, line: &[u8], slice: usize, timed: &'static str, rows: &mut Rows) {
    row!(
        rows,
        "mains_route",
        timed,
        line.len(),
        (fresh(), start.clone(), vec![0; EVENT * slice], vec![0; ANSWER * slice]),
        |lent| {
            lent.0 = fresh();
            lent.1.put(start);
        },
        |lent, lib| {
            let (state, Start { table, shutters }, events, answers) = lent;
            for halves in black_box(line).chunks(slice) {
                _ = black_box(&lib::mains_route(
                    black_box(state),
                    halves,
                    black_box(table),
                    black_box(shutters),
                    black_box(events),
                    black_box(answers),
                ));
            }
        }
    );
}

/// Stations alone on the line: each state from load to DONE, and what is sent in it.
fn lives(rng: &mut Rng) -> Vec<Vec<([u8; STATION], u8)>> {
    let life = |rng: &mut Rng| {
        let mut station = [0; STATION];
        bytes::station_empty(&mut station).expect("eight bytes");
        bytes::station_load(&mut station, inputs::message(rng), inputs::draw(rng)).expect("an empty station");
        let mut states = Vec::new();
        loop {
            let sent = bytes::station_sends(&station).expect("a station") as u8;
            states.push((station, sent));
            if bytes::station_half_cycle(&mut station, sent, 8) == Ok(1) {
                return states;
            }
        }
    };
    (0..16).map(|_| life(rng)).collect()
}

fn stations(rng: &mut Rng, rows: &mut Rows) {
    let lives = lives(rng);
    let calls = lives.iter().map(Vec::len).sum();
    let timed = "whole lives of wait and burst, a call";
    row!(rows, "station_sends", timed, calls, (), |_| {}, |_none, lib| {
        for (station, _) in black_box(&lives).iter().flatten() {
            _ = black_box(&lib::station_sends(station));
        }
    });
    row!(rows, "station_half_cycle", timed, calls, [0; STATION], |_| {}, |station, lib| {
        for life in black_box(&lives) {
            *station = life[0].0;
            for &(_, heard) in life {
                _ = black_box(&lib::station_half_cycle(black_box(station), heard, 8));
            }
        }
    });
}
