//! Compares every exported routine with the model: answers, and lent memory byte for byte.
//!
//! Each routine has a list of situations that its cases must reach; `reached.rs` says which case is
//! in which.

mod bench;
mod burst;
mod lit;
mod mains;
mod radio;
mod receive;
mod station;
mod table;

use crate::inputs::{self, LIT, RECORD, SHUTTER, SHUTTER_TABLE, TABLE, TABLE_BEFORE};
use crate::lent::Lent;
use crate::reached;
use crate::rng::Rng;
use crate::tally::Tally;
use x10_model::bytes::{self, EVENT, RECEIVER};
use x10_model::message::Refusal;
use x10_model::shutters::Shutters;
use x10_model::table::Table;
use x10_model::tables::Counts;

/// All routines. `size` 1 is the usual run; the seed of each routine is made of the one given.
pub fn all(seed: u64, size: usize) -> Vec<Tally> {
    type Compared = fn(&mut Rng, usize) -> Tally;
    let routines: [Compared; 10] = [
        burst::burst,
        receive::receiver_fresh,
        receive::receive,
        radio::radio_write,
        radio::radio_read,
        table::apply,
        lit::lit,
        bench::bench_run,
        radio::radio_route,
        mains::mains_route,
    ];
    let compare = |(i, routine): (usize, &Compared)| routine(&mut Rng::new(seed ^ (i as u64) << 56), size);
    let mut tallies: Vec<Tally> = routines.iter().enumerate().map(compare).collect();
    // One after the other in a station's life, so they are compared together.
    tallies.extend(station::stations(&mut Rng::new(seed ^ (routines.len() as u64) << 56), size));
    tallies
}

/// Both lent tables.
struct Both {
    table: Lent,
    shutters: Lent,
}

impl Both {
    fn new(rng: &mut Rng) -> Both {
        let table = Lent::new("table", TABLE + 8, rng);
        Both { table, shutters: Lent::new("shutters", SHUTTER_TABLE + 8, rng) }
    }

    /// Lends these bytes or, where there are none, what the case before left.
    fn lend(&mut self, table: Option<&[u8]>, shutters: Option<&[u8]>) {
        self.table.lend_or_keep(table, TABLE);
        self.shutters.lend_or_keep(shutters, SHUTTER_TABLE);
    }

    /// Everything that is wrong with what was lent: 1, 16, 3, 17.
    fn wrong(&self) -> Vec<Refusal> {
        let (mut table, mut shutters) = (self.table.before().to_vec(), self.shutters.before().to_vec());
        let mut wrong = Vec::new();
        wrong.extend(Table::open(&mut table).err());
        wrong.extend(Shutters::open(&mut shutters).err());
        table.resize(TABLE, 0);
        shutters.resize(SHUTTER_TABLE, 0);
        wrong.extend(Table::open(&mut table).and_then(|table| table.judge()).err());
        wrong.extend(Shutters::open(&mut shutters).and_then(|shutters| shutters.judge()).err());
        wrong
    }

    /// Counts a refusal of the module table that is for its lit bytes alone, or for one reference.
    fn refused(&self, refusal: Refusal, tally: &mut Tally) {
        let table = self.table.before();
        let causes = match (refusal, table.len()) {
            (Refusal::Table, LIT) => vec!["no lit bytes"],
            (Refusal::Table, TABLE_BEFORE) => vec!["records of 8 bytes"],
            (Refusal::Record, _) => [reached::lit_broken(table), reached::reference_broken(table)].concat(),
            _ => vec![],
        };
        causes.into_iter().for_each(|cause| tally.reach(cause));
    }
}

/// Both tables, valid, then with bytes changed in either, neither or both, and lengths that are none.
fn damaged(rng: &mut Rng, table: &[u8], shutters: &[u8]) -> (Vec<u8>, Vec<u8>) {
    let (mut table, mut shutters) = (table.to_vec(), shutters.to_vec());
    let damage = rng.below(4);
    for _ in 0..=rng.below(2) {
        if damage & 1 == 1 {
            inputs::damage(rng, &mut table);
        }
        if damage & 2 == 2 {
            inputs::damage_shutters(rng, &mut shutters);
        }
    }
    if rng.one_in(8) {
        // Without lit bytes, as it was before there were references, or of any length.
        let len = match rng.below(4) {
            0 => LIT,
            1 => TABLE_BEFORE,
            _ => inputs::length(rng, TABLE, TABLE + 8),
        };
        table.resize(len, 0);
    }
    if rng.one_in(8) {
        shutters.resize(inputs::length(rng, SHUTTER_TABLE, SHUTTER_TABLE + 8), 0);
    }
    (table, shutters)
}

/// Levels and openings that differ between tables, each before and after.
fn changed(table: [&[u8]; 2], shutters: [&[u8]; 2]) -> Counts {
    // Both are the second byte of what they belong to.
    let differ = |[before, after]: [&[u8]; 2], size: usize| {
        before.chunks(size).zip(after.chunks(size)).take(256).filter(|(then, now)| then[1] != now[1]).count()
    };
    Counts { modules: differ(table, RECORD), shutters: differ(shutters, SHUTTER) }
}

/// Whether each house's byte is the number of its modules above level 0.
fn lit_right(table: &[u8]) -> bool {
    (0..16).all(|house| table[LIT + house] == inputs::lit_of(table, house))
}

/// A fresh receiver, by the model.
fn fresh() -> [u8; RECEIVER] {
    let mut state = [0; RECEIVER];
    bytes::receiver_fresh(&mut state).expect("thirteen bytes");
    state
}

/// What the model's receiver says to one half-cycle alone.
fn one(state: &mut [u8], half: u8) -> [u8; EVENT] {
    let mut event = [0; EVENT];
    bytes::receive(state, &[half], &mut event).expect("a receiver");
    event
}
