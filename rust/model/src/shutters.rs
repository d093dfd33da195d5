//! The shutter table: 256 shutters of 20 bytes in order A1..P16.

use crate::message::Refusal;
use std::slice;

/// Bytes of a table.
pub const LEN: usize = SHUTTERS * SHUTTER;
pub(crate) const SHUTTERS: usize = 256;
const SHUTTER: usize = 20;
const UNITS: usize = 16;

/// One shutter: present, opening, limit, sun protection; for each of the eight lifestyles a mark where
/// it is included, and for each its opening there.
pub type Shutter = [u8; SHUTTER];

const PRESENT: usize = 0;
const OPENING: usize = 1;
const LIMIT: usize = 2;
const PROTECTION: usize = 3;
const MARKS: usize = 4;
const OPENINGS: usize = 12;

/// The widest opening.
const OPEN: u8 = 25;

/// A lent table of the right length.
pub struct Shutters<'a> {
    shutters: &'a mut [Shutter],
}

/// What an extended message of type 0 asks for.
#[derive(Clone, Copy, Debug, PartialEq, Eq)]
pub enum Command {
    /// The unit's opening and protection.
    Unit {
        opening: u8,
        protection: bool,
    },
    /// The unit's limit, which enables protection.
    Limit(u8),
    /// All shutters of the house.
    House {
        opening: u8,
        protection: bool,
    },
    /// All shutters of every house.
    All {
        opening: u8,
        protection: bool,
    },
    /// The unit is included in a lifestyle, or excluded from it.
    Include {
        lifestyle: usize,
        opening: u8,
    },
    Exclude {
        lifestyle: usize,
    },
    /// Every house.
    Begin {
        lifestyle: usize,
    },
    ExcludeAll,
    Heard,
}

impl Command {
    /// 4 where the command is not carried, 18 for an opening that there is not.
    pub fn read(data: u8, command: u8) -> Result<Command, Refusal> {
        let lifestyle = usize::from(data >> 5);
        Ok(match command {
            0x01 => Command::Unit { opening: opening(data)?, protection: true },
            0x02 => Command::Limit(opening(data)?),
            0x03 => Command::Unit { opening: opening(data)?, protection: false },
            0x04 => Command::House { opening: OPEN, protection: false },
            0x05 => Command::All { opening: OPEN, protection: false },
            0x07 => Command::Include { lifestyle, opening: opening(data)? },
            0x08 => Command::Begin { lifestyle },
            0x09 => Command::Exclude { lifestyle },
            0x0A => Command::ExcludeAll,
            0x0B => Command::House { opening: 0, protection: true },
            0x0C => Command::All { opening: 0, protection: true },
            0x0E | 0x0F => Command::Heard,
            _ => return Err(Refusal::NotCarried),
        })
    }
}

/// The low five bits of the data, or 18.
fn opening(data: u8) -> Result<u8, Refusal> {
    let opening = data & 31;
    if opening > OPEN {
        return Err(Refusal::Opening);
    }
    Ok(opening)
}

impl<'a> Shutters<'a> {
    /// 16 where the length is not that of a table.
    pub fn open(bytes: &'a mut [u8]) -> Result<Shutters<'a>, Refusal> {
        if bytes.len() != LEN {
            return Err(Refusal::ShutterTable);
        }
        let (shutters, _) = bytes.as_chunks_mut::<SHUTTER>();
        Ok(Shutters { shutters })
    }

    /// 17 where a shutter breaks a rule.
    pub fn judge(&self) -> Result<(), Refusal> {
        if self.shutters.iter().all(shutter_ok) {
            Ok(())
        } else {
            Err(Refusal::ShutterRecord)
        }
    }

    /// What a command for that house and unit, both at most 15, does to a table that `judge` lets pass;
    /// counts the shutters whose opening differs before and after.
    pub fn apply(&mut self, house: u8, unit: u8, command: Command) -> usize {
        let first = usize::from(house) * UNITS;
        let named = first + usize::from(unit);
        match command {
            Command::Unit { opening, protection } => {
                moved(slice::from_mut(&mut self.shutters[named]), |shutter| set(shutter, opening, protection))
            }
            Command::Limit(limit) => moved(slice::from_mut(&mut self.shutters[named]), |shutter| {
                shutter[LIMIT] = limit;
                set(shutter, shutter[OPENING], true);
            }),
            Command::House { opening, protection } => {
                let house = &mut self.shutters[first..][..UNITS];
                moved(house, |shutter| set(shutter, opening, protection))
            }
            Command::All { opening, protection } => {
                moved(self.shutters, |shutter| set(shutter, opening, protection))
            }
            Command::Begin { lifestyle } => moved(self.shutters, |shutter| {
                // One that is not included keeps its opening, which is within its limit already.
                let included = shutter[MARKS + lifestyle] == 1;
                let opening = if included { shutter[OPENINGS + lifestyle] } else { shutter[OPENING] };
                shutter[OPENING] = opening.min(most(shutter));
            }),
            Command::Include { lifestyle, opening } => {
                let shutter = &mut self.shutters[named];
                if shutter[PRESENT] == 1 {
                    shutter[MARKS + lifestyle] = 1;
                    shutter[OPENINGS + lifestyle] = opening;
                }
                0
            }
            Command::Exclude { lifestyle } => {
                let shutter = &mut self.shutters[named];
                shutter[MARKS + lifestyle] = 0;
                shutter[OPENINGS + lifestyle] = 0;
                0
            }
            Command::ExcludeAll => {
                self.shutters.iter_mut().for_each(|shutter| shutter[MARKS..].fill(0));
                0
            }
            Command::Heard => 0,
        }
    }

    /// The openings of all shutters.
    pub fn openings(&self) -> [u8; SHUTTERS] {
        let mut openings = [0; SHUTTERS];
        for (opening, shutter) in openings.iter_mut().zip(self.shutters.iter()) {
            *opening = shutter[OPENING];
        }
        openings
    }

    /// How many openings are other than those.
    pub fn openings_changed(&self, before: &[u8; SHUTTERS]) -> usize {
        self.shutters.iter().zip(before).filter(|(shutter, before)| shutter[OPENING] != **before).count()
    }
}

/// Acts on the present shutters; how many of them have another opening then.
fn moved(shutters: &mut [Shutter], act: impl Fn(&mut Shutter)) -> usize {
    let mut count = 0;
    for shutter in shutters.iter_mut().filter(|shutter| shutter[PRESENT] == 1) {
        let before = shutter[OPENING];
        act(shutter);
        count += usize::from(shutter[OPENING] != before);
    }
    count
}

fn set(shutter: &mut Shutter, opening: u8, protection: bool) {
    shutter[PROTECTION] = u8::from(protection);
    shutter[OPENING] = opening.min(most(shutter));
}

/// The widest opening that a shutter may have now: with protection on, and only then, its limit.
fn most(shutter: &Shutter) -> u8 {
    if shutter[PROTECTION] == 1 {
        shutter[LIMIT]
    } else {
        OPEN
    }
}

/// Eight bytes of 1.
const ONES: u64 = 0x0101_0101_0101_0101;

/// Whether a shutter keeps the rules.
fn shutter_ok(shutter: &Shutter) -> bool {
    let [present, opening, limit, protection, ..] = *shutter;
    if present == 0 {
        return *shutter == [0; SHUTTER];
    }
    present == 1 && protection <= 1 && limit <= OPEN && opening <= most(shutter) && lifestyles_ok(shutter)
}

/// Whether the marks are 0 or 1, and the openings stored 0 to 25, 0 where there is no mark: eight at once.
fn lifestyles_ok(shutter: &Shutter) -> bool {
    let marks = eight(&shutter[MARKS..OPENINGS]);
    let openings = eight(&shutter[OPENINGS..]);
    let no_mark = marks & !ONES;
    // Of an opening, five bits where there is a mark.
    let beyond = openings & !marks.wrapping_mul(31);
    // With 6 more, bit 5 comes up from 26 on. A carry to the next byte needs a byte that is beyond.
    let above = openings.wrapping_add(6 * ONES) & (32 * ONES);
    no_mark | beyond | above == 0
}

fn eight(bytes: &[u8]) -> u64 {
    u64::from_le_bytes(bytes.try_into().expect("eight bytes"))
}

#[cfg(test)]
mod tests;
