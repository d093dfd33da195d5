//! Shutter tables, valid and damaged, and messages of type 0.

use crate::rng::Rng;
use x10_model::bytes::MESSAGE;
use x10_model::shutters;

pub const SHUTTER_TABLE: usize = shutters::LEN;
pub const SHUTTER: usize = 20;

/// Bytes at and around the bounds that the rules name.
const EDGES: [u8; 14] = [0, 1, 2, 3, 12, 24, 25, 26, 27, 31, 32, 63, 128, 255];

/// Command and data of type 0, or of the commands beside it. The opening is at a bound in one of two.
pub fn type_0(rng: &mut Rng, house: u8) -> [u8; MESSAGE] {
    let mut data = rng.byte();
    if rng.one_in(2) {
        data = data & 0xE0 | rng.pick(&[0, 1, 24, 25, 26, 31]);
    }
    let command = match rng.below(17) as u8 {
        // Seldom 0A, after which no lifestyle has a shutter.
        0x0A if !rng.one_in(6) => 0x07,
        command => command,
    };
    [3, house, rng.below(16) as u8, data, command]
}

fn opening(rng: &mut Rng) -> u8 {
    match rng.below(4) {
        0 => rng.pick(&[0, 1, 24, 25]),
        _ => rng.below(26) as u8,
    }
}

/// A present shutter that keeps the rules: protected within its limit, or not and standing anywhere.
pub fn shutter(rng: &mut Rng) -> [u8; SHUTTER] {
    let mut shutter = [0; SHUTTER];
    shutter[..4].copy_from_slice(&[1, opening(rng), opening(rng), rng.below(2) as u8]);
    if shutter[3] == 1 {
        shutter[1] = shutter[1].min(shutter[2]);
    }
    let mut included = rng.next();
    for lifestyle in 0..8 {
        if included & 1 == 1 {
            shutter[4 + lifestyle] = 1;
            shutter[12 + lifestyle] = opening(rng);
        }
        included >>= 1;
    }
    shutter
}

/// A table that keeps the rules, with `absent` of 4 shutters absent. Where `alike`, one house in eight
/// has one shutter sixteen times, so that a message may move all of it.
pub fn shutters(rng: &mut Rng, absent: usize, alike: bool, bytes: &mut [u8]) {
    for house in bytes.chunks_exact_mut(16 * SHUTTER) {
        let one = (alike && rng.one_in(8)).then(|| shutter(rng));
        for bytes in house.chunks_exact_mut(SHUTTER) {
            let there = one.is_some() || rng.below(4) >= absent;
            let shutter = if there { one.unwrap_or_else(|| shutter(rng)) } else { [0; SHUTTER] };
            bytes.copy_from_slice(&shutter);
        }
    }
}

/// Changes one byte to one at a bound, more often than not in the first or last shutter; the table may
/// keep the rules all the same.
pub fn damage_shutters(rng: &mut Rng, bytes: &mut [u8]) {
    let shutter = match rng.below(4) {
        0 => 0,
        1 => 255,
        _ => rng.below(256),
    };
    bytes[shutter * SHUTTER + rng.below(SHUTTER)] = if rng.one_in(8) { rng.byte() } else { rng.pick(&EDGES) };
}
