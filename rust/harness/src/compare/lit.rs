//! The question how many modules of a house are lit.

use crate::inputs::{self, LIT, TABLE};
use crate::lent::Lent;
use crate::reached;
use crate::rng::Rng;
use crate::tally::Tally;
use x10_model::bytes;
use x10_model::message::Refusal;

/// Bytes of the longest table that is lent.
const MOST: usize = TABLE + 32;

struct Ask {
    tally: Tally,
    table: Lent,
}

pub fn lit(rng: &mut Rng, size: usize) -> Tally {
    let situations: [&[&str]; 5] = [
        &reached::LENGTHS,
        &reached::HOUSES,
        &reached::ASKED,
        &reached::LIT_ORDERS,
        &reached::LIT_BROKEN[11..],
    ];
    let mut ask = Ask {
        tally: Tally::new("lit", &[0, 1, 2, 3], &[], &situations),
        table: Lent::new("table", MOST, rng),
    };
    let mut valid = vec![0; TABLE];
    for i in 0..4000 * size {
        inputs::table(rng, i % 4, true, &mut valid);
        for house in 0..=255 {
            ask.case(&valid, house);
        }
        ask.damaged(rng, &valid);
    }
    for table in [&valid, &vec![0; TABLE], &vec![255; TABLE]] {
        ask.every_byte(table);
    }
    ask.every_length(rng);
    ask.tally
}

impl Ask {
    /// Tables that were damaged, and any bytes with a right number among them.
    fn damaged(&mut self, rng: &mut Rng, valid: &[u8]) {
        for _ in 0..40 {
            let mut table = valid.to_vec();
            inputs::damage(rng, &mut table);
            let house = rng.below(17) as u8;
            self.case(&table, house);
            rng.fill(&mut table);
            if house < 16 {
                table[LIT + usize::from(house)] = rng.below(18) as u8;
            }
            self.case(&table, house);
        }
    }

    /// Every byte at each house's place, whatever the records are.
    fn every_byte(&mut self, table: &[u8]) {
        for house in 0..16 {
            let mut table = table.to_vec();
            for byte in 0..=255 {
                table[LIT + usize::from(house)] = byte;
                self.case(&table, house);
            }
        }
    }

    /// Every length, for houses that there are and that there are not.
    fn every_length(&mut self, rng: &mut Rng) {
        for len in 0..=MOST {
            for byte in [0, 16, 17, 255] {
                let table = vec![byte; len];
                for house in [0, rng.below(16) as u8, 15, 16, rng.byte(), 255] {
                    self.case(&table, house);
                }
            }
        }
    }

    fn case(&mut self, from: &[u8], house: u8) {
        let Ask { tally, table } = self;
        table.lend_bytes(from);
        let rattle = x10::lit(table.rattle(), house);
        let rust = bytes::lit(table.rust(), house);
        tally.reach(reached::length(from.len(), TABLE));
        tally.reach(reached::house(house));
        tally.case(rattle, rust, &mut [table], || format!("house {house}"));
        match rust {
            Ok(count) => self.answered(from, house, count),
            Err(refusal) => self.refused(from, house, refusal),
        }
    }

    /// Counts what was answered: it must be the byte, and of a valid table also the count over the records.
    fn answered(&mut self, table: &[u8], house: u8, count: usize) {
        let of = reached::asked_of(table, house);
        self.tally.reach(reached::asked(count as u8));
        self.tally.reach(of);
        let disagrees = of == "asked of a valid table" && bytes::lit_counted(table, house) != Ok(count);
        if disagrees || usize::from(table[LIT + usize::from(house)]) != count {
            self.tally
                .differ(&format!("house {house}: {count} is not the byte, or not the count over records"));
        }
    }

    /// Counts why a question was refused, and what else was wrong.
    fn refused(&mut self, table: &[u8], house: u8, refusal: Refusal) {
        // The byte that would be read, also where the length is another.
        let byte = table.get(LIT + usize::from(house)).copied().unwrap_or(0);
        match refusal {
            Refusal::Record => self.tally.reach(reached::asked(byte)),
            Refusal::Table if table.len() == LIT => self.tally.reach("no lit bytes"),
            _ => {}
        }
        let wrong = [(house > 15, Refusal::Message), (house < 16 && byte > 16, Refusal::Record)];
        let wrong = wrong.into_iter().filter(|(holds, _)| *holds).map(|(_, wrong)| wrong);
        reached::orders(refusal, wrong, |order| self.tally.reach(order));
    }
}
