//! Bursts.

use crate::inputs;
use crate::lent::Lent;
use crate::reached;
use crate::rng::Rng;
use crate::tally::Tally;
use x10_model::bytes::{self, MESSAGE};
use x10_model::message::Refusal;

pub fn burst(rng: &mut Rng, size: usize) -> Tally {
    const MOST: usize = 160;
    let mut tally = Tally::new("burst", &[0, 2, 9], &[], &[&reached::KINDS, &reached::LENGTHS]);
    let mut buf = Lent::new("buf", MOST, rng);
    let mut case = |numbers: [u8; MESSAGE], rng: &mut Rng| {
        let asked = if numbers[0] == 3 { 124 } else { 44 };
        let len = inputs::length(rng, asked, MOST);
        buf.lend_random(len, rng);
        let rattle = x10::burst(numbers.into(), buf.rattle());
        let rust = bytes::burst(numbers, buf.rust());
        if rust != Err(Refusal::Message) {
            tally.reach(reached::kind(numbers[0]));
            tally.reach(reached::length(len, asked));
        }
        tally.case(rattle, rust, &mut [&mut buf], || format!("message {numbers:?}, length {len}"));
    };
    for kind in [0, 1, 2, 3, 4, 255] {
        for house in 0..=255 {
            for third in 0..=255 {
                case([kind, house, third, rng.byte(), rng.byte()], rng);
            }
        }
    }
    for _ in 0..2_000_000 * size {
        let numbers = inputs::numbers(rng);
        case(numbers, rng);
    }
    tally
}
