//! The bytes at a module table's end, right and wrong.

use super::{edge, RECORD, RECORDS, TABLE};
use crate::rng::Rng;

/// Where the "command heard" bytes begin, and after them those that say how many modules are lit.
pub const HEARD: usize = RECORDS * RECORD;
pub const LIT: usize = HEARD + 16;

const _: () = assert!(LIT + 16 == TABLE);

/// How many records of a house are above level 0.
pub fn lit_of(table: &[u8], house: usize) -> u8 {
    records(table, house).filter(|record| record[1] > 0).count() as u8
}

/// The same of its lamps.
pub fn lit_lamps(table: &[u8], house: usize) -> u8 {
    records(table, house).filter(|record| record[1] > 0 && record[0] == 1).count() as u8
}

fn records(table: &[u8], house: usize) -> impl Iterator<Item = &[u8]> {
    table[16 * RECORD * house..][..16 * RECORD].chunks_exact(RECORD)
}

/// Sets each house's byte to the number of its modules above level 0.
pub fn count_lit(table: &mut [u8]) {
    for house in 0..16 {
        table[LIT + house] = lit_of(table, house);
    }
}

/// Changes a house's byte, more often than not that of the first or the last; or puts them all elsewhere.
pub fn damage_lit(rng: &mut Rng, table: &mut [u8]) {
    let house = match rng.below(4) {
        0 => 0,
        1 => 15,
        _ => rng.below(16),
    };
    let count = table[LIT + house];
    table[LIT + house] = match rng.below(8) {
        0 => count.wrapping_add(1),
        1 => count.wrapping_sub(1),
        2 => 17,
        3 => 255,
        4 => lit_lamps(table, house),
        5 => edge(rng),
        // Each house has the next one's, or the heard bytes stand last.
        6 => return table[LIT..].rotate_left(1),
        _ => return table[HEARD..].rotate_left(16),
    };
}
