//! Radio bytes, and the radio's route to both tables.

use super::{damaged, lit_right, Both};
use crate::inputs::{self, SHUTTER_TABLE, TABLE};
use crate::lent::Lent;
use crate::reached;
use crate::rng::Rng;
use crate::tally::Tally;
use x10_model::bytes;
use x10_model::message::Refusal;

pub fn radio_write(rng: &mut Rng, size: usize) -> Tally {
    let mut tally = Tally::new("radio_write", &[0, 2, 9], &[], &[&reached::COMMANDS, &reached::LENGTHS]);
    let mut out = Lent::new("out", 16, rng);
    let mut case = |command: u8, house: u8, unit: u8, rng: &mut Rng| {
        let len = inputs::length(rng, 4, 16);
        out.lend_random(len, rng);
        let rattle = x10::radio_write(command, house, unit, out.rattle());
        let rust = bytes::radio_write(command, house, unit, out.rust());
        if rust != Err(Refusal::Message) {
            tally.reach(reached::command(command));
            tally.reach(reached::length(len, 4));
        }
        tally.case(rattle, rust, &mut [&mut out], || format!("{command} {house} {unit}, length {len}"));
    };
    // Every command, house and unit there is.
    for command in 0..=255 {
        for house in 0..=255 {
            for unit in 0..=255 {
                case(command, house, unit, rng);
            }
        }
    }
    for _ in 0..1_000_000 * size {
        case(rng.below(5) as u8, rng.below(17) as u8, rng.below(17) as u8, rng);
    }
    tally
}

struct Read {
    tally: Tally,
    code: Lent,
    out: Lent,
}

pub fn radio_read(rng: &mut Rng, size: usize) -> Tally {
    let situations: [&[&str]; 2] = [&reached::COMMANDS, &reached::LENGTHS];
    let mut read = Read {
        tally: Tally::new("radio_read", &[0, 9, 12, 13, 14], &[], &situations),
        code: Lent::new("code", 16, rng),
        out: Lent::new("out", 16, rng),
    };
    for _ in 0..4 * size {
        for b in 0..=255u8 {
            for c in 0..=255u8 {
                // Every code whose pairs are complementary, then the same with a byte changed.
                let mut bytes = [b, !b, c, !c];
                read.case(&bytes, 3, rng);
                bytes[rng.below(4)] ^= 1 << rng.below(8);
                read.case(&bytes, 3, rng);
            }
        }
    }
    for _ in 0..900_000 * size {
        let mut bytes = [0; 16];
        rng.fill(&mut bytes);
        bytes[..4].copy_from_slice(&inputs::radio_code(rng));
        let len = inputs::length(rng, 4, 16);
        let room = inputs::length(rng, 3, 16);
        read.case(&bytes[..len], room, rng);
    }
    read.tally
}

impl Read {
    fn case(&mut self, bytes: &[u8], room: usize, rng: &mut Rng) {
        self.code.lend_bytes(bytes);
        self.out.lend_random(room, rng);
        let rattle = x10::radio_read(self.code.rattle(), self.out.rattle());
        let rust = bytes::radio_read(self.code.rust(), self.out.rust());
        if rust.is_ok() {
            self.tally.reach(reached::command(self.out.after()[0]));
        }
        if rust != Err(Refusal::Short) {
            self.tally.reach(reached::length(bytes.len(), 4));
        }
        self.tally.case(rattle, rust, &mut [&mut self.code, &mut self.out], String::new);
    }
}

const MOVES: [&str; 4] = ["on moves a level", "off moves", "bright moves", "dim moves"];

struct Route {
    tally: Tally,
    both: Both,
    code: Lent,
}

pub fn radio_route(rng: &mut Rng, size: usize) -> Tally {
    // On goes with no off, so as many others are never lit.
    let situations: [&[&str]; 9] = [
        &MOVES,
        &reached::COUNTS,
        &reached::LIT_MOVES[..7],
        &reached::LIT_BROKEN,
        &reached::REFERENCE_BROKEN,
        &reached::SHUTTER_LENGTHS,
        &reached::TABLE_ORDERS,
        &reached::RADIO_ORDERS,
        &reached::BESIDE[1..2],
    ];
    let mut route = Route {
        tally: Tally::new("radio_route", &[0, 1, 3, 12, 13, 14, 16, 17], &[], &situations),
        both: Both::new(rng),
        code: Lent::new("code", 16, rng),
    };
    let (mut valid, mut shutters) = (vec![0; TABLE], vec![0; SHUTTER_TABLE]);
    for i in 0..8000 * size {
        inputs::table(rng, i % 4, true, &mut valid);
        inputs::shutters(rng, i / 4 % 4, true, &mut shutters);
        route.case(Some((&valid, &shutters)), rng);
        for _ in 0..250 {
            route.case(None, rng);
        }
        for _ in 0..30 {
            let (table, shutters) = damaged(rng, &valid, &shutters);
            route.case(Some((&table, &shutters)), rng);
        }
    }
    route.tally
}

impl Route {
    /// Some code for tables of these bytes, or for those that the case before left.
    fn case(&mut self, from: Option<(&[u8], &[u8])>, rng: &mut Rng) {
        let Route { tally, both, code } = self;
        both.lend(from.map(|from| from.0), from.map(|from| from.1));
        let mut bytes = [0; 8];
        bytes[..4].copy_from_slice(&inputs::radio_code(rng));
        let len = if rng.one_in(10) { inputs::length(rng, 4, 8) } else { 4 };
        code.lend_bytes(&bytes[..len]);
        let Both { table, shutters } = both;
        let rattle = x10::radio_route(table.rattle(), shutters.rattle(), code.rattle());
        let rust = bytes::radio_route(table.rust(), shutters.rust(), code.rust());
        tally.reach(reached::length_of(&reached::SHUTTER_LENGTHS, shutters.before().len(), SHUTTER_TABLE));
        tally.case(rattle, rust, &mut [table, shutters, code], || format!("code {:02x?}", &bytes[..len]));
        let mut command = [0; 3];
        let read = bytes::radio_read(&bytes[..len], &mut command);
        match rust {
            Ok(counts) => self.carried(command, counts.modules),
            Err(refusal) => {
                both.refused(refusal, tally);
                let wrong = both.wrong().into_iter().chain(read.err());
                reached::orders(refusal, wrong, |order| tally.reach(order));
            }
        }
    }

    /// Counts what a code did, and looks at the lit bytes, and at the shutters, which it must leave.
    fn carried(&mut self, [command, house, _]: [u8; 3], levels: usize) {
        let Route { tally, both: Both { table, shutters }, .. } = self;
        if levels > 0 {
            tally.reach(MOVES[usize::from(command)]);
        }
        tally.reach(reached::count(levels));
        let moved = reached::lit_move(usize::from(house), [table.before(), table.after()]);
        moved.into_iter().for_each(|moved| tally.reach(moved));
        let function = [2, 0, 0, 0, 0];
        reached::beside(function, table.before(), shutters.before())
            .into_iter()
            .for_each(|name| tally.reach(name));
        if shutters.before() != shutters.after() {
            tally.differ("a radio code changed the shutter table");
        }
        if !lit_right(table.after()) {
            tally.differ("a radio code left a lit byte that disagrees");
        }
    }
}
