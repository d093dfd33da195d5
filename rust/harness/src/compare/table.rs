//! Messages applied to both tables.

use super::{changed, damaged, lit_right, Both};
use crate::inputs::{self, HEARD, LIT, RECORD, SHUTTER, SHUTTER_TABLE, TABLE};
use crate::reached;
use crate::rng::Rng;
use crate::tally::Tally;
use x10_model::bytes::{self, MESSAGE};
use x10_model::message::Refusal;
use x10_model::tables::Counts;

struct Apply {
    tally: Tally,
    both: Both,
}

/// Commands that are tried with every data byte: type 3 and type 0, and those beside them.
const COMMANDS: [std::ops::Range<u8>; 2] = [0x2F..0x3F, 0x00..0x11];

pub fn apply(rng: &mut Rng, size: usize) -> Tally {
    let situations: [&[&str]; 21] = [
        &reached::FORMS,
        &reached::NOT_CARRIED,
        &reached::NAMED,
        &reached::COUNTS,
        &reached::JOINED,
        &reached::LEFT,
        &reached::CALLED,
        &reached::CALLED_BY,
        &reached::REFERENCE_BROKEN,
        &reached::LIT_FORMS,
        &reached::LIT_MOVES,
        &reached::LIT_BROKEN,
        &reached::LENGTHS,
        &reached::TYPE_0,
        &reached::SHUTTER_COUNTS,
        &reached::SHUTTER_LENGTHS,
        &reached::BESIDE,
        &reached::APPLY_ORDERS,
        &reached::BROKEN[0],
        &reached::BROKEN[1],
        &reached::BROKEN[2],
    ];
    let mut apply = Apply {
        tally: Tally::new("apply", &[0, 1, 2, 3, 4, 16, 17, 18], &[], &situations),
        both: Both::new(rng),
    };
    let commands: Vec<u8> = COMMANDS.into_iter().flatten().collect();
    let (mut valid, mut shutters) = (vec![0; TABLE], vec![0; SHUTTER_TABLE]);
    for i in 0..8000 * size {
        inputs::table(rng, i % 4, true, &mut valid);
        inputs::shutters(rng, i / 4 % 4, true, &mut shutters);
        apply.case(Some((&valid, &shutters)), inputs::numbers(rng));
        apply.messages(rng, commands[i % commands.len()]);
        apply.groups(rng);
        apply.damaged(rng, &valid, &shutters);
        if i % 1000 == 0 {
            apply.every_type_0(rng, &valid, &mut shutters);
        }
    }
    apply.every_byte();
    apply.every_byte_of_a_shutter(rng);
    apply.every_shutter(rng);
    apply.tally
}

impl Apply {
    /// Messages one after the other, mostly for one house, then every data byte of a command.
    fn messages(&mut self, rng: &mut Rng, command: u8) {
        let house = rng.below(16) as u8;
        for _ in 0..300 {
            let mut numbers = inputs::numbers(rng);
            if numbers[1] < 16 && !rng.one_in(4) {
                numbers[1] = house;
            }
            self.case(None, numbers);
        }
        let unit = rng.below(16) as u8;
        for data in 0..=255 {
            self.case(None, [3, house, unit, data, command]);
        }
    }

    /// Units of a house that join a group, and calls of it.
    fn groups(&mut self, rng: &mut Rng) {
        let house = rng.below(16) as u8;
        for numbers in inputs::joined_and_called(rng, house) {
            self.case(None, numbers);
        }
    }

    /// Tables that were damaged, and lengths that are none.
    fn damaged(&mut self, rng: &mut Rng, valid: &[u8], shutters: &[u8]) {
        for _ in 0..40 {
            let (table, shutters) = damaged(rng, valid, shutters);
            self.case(Some((&table, &shutters)), inputs::numbers(rng));
        }
    }

    /// Every command of type 0 with every data byte, for a shutter that is there and one that is not.
    fn every_type_0(&mut self, rng: &mut Rng, valid: &[u8], shutters: &mut [u8]) {
        let (house, there) = (rng.below(16), rng.below(16));
        let gone = (there + 1 + rng.below(15)) % 16;
        shutters[SHUTTER * (16 * house + there)..][..SHUTTER].copy_from_slice(&inputs::shutter(rng));
        shutters[SHUTTER * (16 * house + gone)..][..SHUTTER].fill(0);
        for unit in [there, gone] {
            for command in 0..16 {
                for data in 0..=255 {
                    let from = Some((valid, &shutters[..]));
                    self.case(from, [3, house as u8, unit as u8, data, command]);
                }
            }
        }
    }

    /// Every byte at every place of a record, over a record of each kind, and of the bytes of houses; with
    /// the lit modules of house A as they were, and counted again.
    fn every_byte(&mut self) {
        let mut base = vec![0; TABLE];
        base[..RECORD].copy_from_slice(&[1, 40, 1, 5, 9, 0, 63, 0, 16, 0, 3, 0]);
        base[RECORD..][..RECORD].copy_from_slice(&[2, 63, 0, 10, 0, 63, 0, 0, 0, 15, 0, 16]);
        inputs::count_lit(&mut base);
        let shutters = vec![0; SHUTTER_TABLE];
        for place in (0..3 * RECORD).chain(HEARD..TABLE) {
            for byte in 0..=255 {
                let mut damaged = base.clone();
                damaged[place] = byte;
                self.case(Some((&damaged, &shutters)), [2, 0, 4, 0, 0]);
                if place < HEARD {
                    damaged[LIT] = inputs::lit_of(&damaged, 0);
                    self.case(Some((&damaged, &shutters)), [2, 0, 4, 0, 0]);
                }
            }
        }
    }

    /// Every byte at every place of the first and of the last shutter: absent, unprotected above its limit,
    /// protected at it, in some lifestyles.
    fn every_byte_of_a_shutter(&mut self, rng: &mut Rng) {
        const BASES: [[u8; SHUTTER]; 4] = [
            [0; SHUTTER],
            [1, 20, 10, 0, 0, 0, 0, 0, 0, 0, 0, 0, 0, 0, 0, 0, 0, 0, 0, 0],
            [1, 10, 10, 1, 1, 0, 1, 0, 1, 0, 1, 0, 25, 0, 0, 0, 9, 0, 25, 0],
            [1, 0, 25, 1, 0, 1, 0, 1, 0, 1, 0, 1, 0, 25, 0, 7, 0, 0, 0, 25],
        ];
        let table = vec![0; TABLE];
        for (base, house, at) in BASES.iter().flat_map(|base| [(base, 0, 0), (base, 15, 255 * SHUTTER)]) {
            for place in 0..SHUTTER {
                for byte in 0..=255 {
                    let mut shutters = vec![0; SHUTTER_TABLE];
                    shutters[at..][..SHUTTER].copy_from_slice(base);
                    shutters[at + place] = byte;
                    self.case(Some((&table, &shutters)), inputs::type_0(rng, house));
                }
            }
        }
    }

    /// All 256 shutters moved by one message: opened, closed, and put to their lifestyle's opening.
    fn every_shutter(&mut self, rng: &mut Rng) {
        let table = vec![0; TABLE];
        for lifestyle in 0..8 {
            let mut shutters = vec![0; SHUTTER_TABLE];
            for shutter in shutters.chunks_mut(SHUTTER) {
                shutter.copy_from_slice(&inputs::shutter(rng));
                // Between closed and open, and in the lifestyle at another opening.
                shutter[1..4].copy_from_slice(&[1 + rng.below(23) as u8, 24, rng.below(2) as u8]);
                shutter[4 + lifestyle] = 1;
                shutter[12 + lifestyle] = shutter[1] + 1;
            }
            for (data, command) in [(0, 0x05), (31, 0x0C), ((lifestyle as u8) << 5 | 30, 0x08)] {
                self.case(Some((&table, &shutters)), [3, 5, 15, data, command]);
            }
        }
    }

    /// A message for tables of these bytes, or for those that the case before left.
    fn case(&mut self, from: Option<(&[u8], &[u8])>, numbers: [u8; MESSAGE]) {
        let Apply { tally, both } = self;
        both.lend(from.map(|from| from.0), from.map(|from| from.1));
        let Both { table, shutters } = both;
        let rattle = x10::apply(table.rattle(), shutters.rattle(), numbers.into());
        let rust = bytes::apply(table.rust(), shutters.rust(), numbers);
        tally.reach(reached::length(table.before().len(), TABLE));
        tally.reach(reached::length_of(&reached::SHUTTER_LENGTHS, shutters.before().len(), SHUTTER_TABLE));
        tally.case(rattle, rust, &mut [table, shutters], || format!("message {numbers:?}"));
        match rust {
            Ok(counts) => self.carried(numbers, counts),
            Err(refusal) => self.refused(refusal, numbers),
        }
    }

    /// Counts what a message did, and looks at what it must leave.
    fn carried(&mut self, numbers: [u8; MESSAGE], counts: Counts) {
        let Apply { tally, both: Both { table, shutters } } = self;
        let table = [table.before(), table.after()];
        let shutters = [shutters.before(), shutters.after()];
        did(tally, numbers, counts, table, shutters);
        let situations = [reached::named(numbers, table[0]), reached::beside(numbers, table[0], shutters[0])];
        situations.into_iter().flatten().for_each(|situation| tally.reach(situation));
    }

    /// Counts why a message was refused, and what else was wrong.
    fn refused(&mut self, refusal: Refusal, numbers: [u8; MESSAGE]) {
        let mut wrong = self.both.wrong();
        wrong.extend(bytes::message(numbers).err());
        if let [3, _, _, data, command] = numbers {
            let place = [3, 0, 0, data, command];
            wrong.extend(bytes::apply(&mut [0; TABLE], &mut [0; SHUTTER_TABLE], place).err());
        }
        reached::orders(refusal, wrong, |order| self.tally.reach(order));
        self.both.refused(refusal, &mut self.tally);
        match refusal {
            Refusal::NotCarried => not_carried(&mut self.tally, numbers),
            Refusal::ShutterRecord => {
                let broken = reached::broken(self.both.shutters.before());
                broken.into_iter().for_each(|cause| self.tally.reach(cause));
            }
            _ => {}
        }
    }
}

/// Counts a message that was refused by 4, and looks whether tables carry it.
pub fn not_carried(tally: &mut Tally, numbers: [u8; MESSAGE]) {
    match reached::not_carried(numbers) {
        Some(name) => tally.reach(name),
        None => tally.differ(&format!("message {numbers:?} is one that tables carry")),
    }
}

/// Counts what a message that was carried did to tables, each before and after. Looks whether they carry it,
/// at its counts, at the lit bytes, at references and whom a call of a group reached, and at what it must
/// leave: type 0 the modules, any other the shutters.
pub fn did(
    tally: &mut Tally,
    numbers: [u8; MESSAGE],
    counts: Counts,
    table: [&[u8]; 2],
    shutters: [&[u8]; 2],
) {
    let left = if let [3, .., ..0x10] = numbers {
        reached::type_0(numbers, shutters[0], shutters[1], &mut |came| tally.reach(came));
        tally.reach(reached::shutter_count(counts.shutters));
        table
    } else {
        did_to_modules(tally, numbers, counts.modules, table);
        shutters
    };
    if left[0] != left[1] || counts != changed(table, shutters) {
        tally
            .differ(&format!("message {numbers:?} changed another table, or its counts are not the changes"));
    }
    if !lit_right(table[1]) {
        tally.differ(&format!("message {numbers:?} left a lit byte that disagrees"));
    }
    if reached::not_carried(numbers).is_some() {
        tally.differ(&format!("message {numbers:?} is one that tables do not carry"));
    }
}

/// The part of a message that is not of type 0.
fn did_to_modules(tally: &mut Tally, numbers: [u8; MESSAGE], levels: usize, table: [&[u8]; 2]) {
    let form = reached::form(numbers, levels, table[0][..HEARD] != table[1][..HEARD]);
    form.into_iter().for_each(|form| tally.reach(form));
    tally.reach(reached::count(levels));
    reached::lit_form(numbers, table).into_iter().for_each(|form| tally.reach(&form));
    let moved = reached::lit_move(usize::from(numbers[1]), table);
    moved.into_iter().for_each(|moved| tally.reach(moved));
    if !reached::grouped(numbers, table, &mut |came| tally.reach(came)) {
        tally.differ(&format!("message {numbers:?} left other references, or reached others"));
    }
}
