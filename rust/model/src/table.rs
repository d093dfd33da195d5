//! The module table: 256 records of 12 bytes in order A1..P16, then one "command heard" byte per
//! house, then one byte per house with the number of its modules above level 0.

use crate::message::{Function, Message, Refusal};

/// Bytes of a table.
pub const LEN: usize = LIT + HOUSES;
/// Where the bytes that say how many modules are lit begin.
pub(crate) const LIT: usize = RECORDS * RECORD + HOUSES;
pub(crate) const RECORDS: usize = 256;
const RECORD: usize = 12;
const HOUSES: usize = 16;
const UNITS: usize = 16;

/// One module: kind, level, addressed, group mask, four presets, four references.
pub type Record = [u8; RECORD];

const KIND: usize = 0;
const LEVEL: usize = 1;
const ADDRESSED: usize = 2;
const GROUPS: usize = 3;
const PRESETS: usize = 4;
const REFERENCES: usize = 8;

const NONE: u8 = 0;
const LAMP: u8 = 1;
const APPLIANCE: u8 = 2;

/// The highest level.
const FULL: u8 = 63;

/// The reference of a membership, or of a group command, that is relative to none.
const ABSOLUTE: u8 = 16;

/// A lent table of the right length.
pub struct Table<'a> {
    records: &'a mut [Record],
    heard: &'a mut [u8],
    lit: &'a mut [u8],
}

/// A group as a command names it: relative to a reference from 0 to 15, or absolute.
#[derive(Clone, Copy, Debug, PartialEq, Eq)]
struct Group {
    number: usize,
    reference: u8,
}

/// What an extended command asks for.
#[derive(Clone, Copy, Debug, PartialEq, Eq)]
enum Extended {
    /// The unit joins a group, at its level now or with a preset.
    JoinAtLevel(Group),
    JoinWith {
        group: Group,
        preset: u8,
    },
    /// The unit's level.
    Level(u8),
    /// All present units of the house.
    House(u8),
    /// Groups to leave, as a mask.
    UnitLeaves(u8),
    HouseLeaves(u8),
    /// The house's members of a group that are reached.
    Recall(Group),
    GroupOff(Group),
    Step {
        group: Group,
        up: bool,
    },
    Heard,
}

impl Extended {
    /// None where the command is not carried.
    fn read(data: u8, command: u8) -> Option<Extended> {
        let level = data % 64;
        let (bit_5, bit_4) = (data >> 5 & 1 == 1, data >> 4 & 1 == 1);
        let low = data & 15;
        // In 30, 36 and 3C bit 5 makes the group relative to the low four bits.
        let absolute = Group { number: usize::from(data >> 6), reference: ABSOLUTE };
        let group = if bit_5 { Group { reference: low, ..absolute } } else { absolute };
        match command {
            0x30 => Some(Extended::JoinAtLevel(group)),
            0x31 => Some(Extended::Level(level)),
            0x32 => Some(Extended::JoinWith { group: absolute, preset: level }),
            0x33 => Some(Extended::House(FULL)),
            0x34 => Some(Extended::House(0)),
            0x35 if data >> 4 == 0 => Some(Extended::UnitLeaves(low)),
            0x35 if data >> 4 == 15 => Some(Extended::HouseLeaves(low)),
            0x36 if bit_4 => Some(Extended::GroupOff(group)),
            0x36 => Some(Extended::Recall(group)),
            // Bit 5 alone asks about an absolute group, and the low four bits are 0 there.
            0x37 if !bit_5 || bit_4 || low == 0 => Some(Extended::Heard),
            0x38..=0x3B => Some(Extended::Heard),
            0x3C => Some(Extended::Step { group, up: bit_4 }),
            _ => None,
        }
    }
}

/// How many modules of a house are above level 0, by its byte alone: a table that breaks another rule,
/// or whose byte is not the number of those records, is answered all the same. 1, 2 for a house above 15,
/// 3 for a byte above 16.
pub fn lit(bytes: &[u8], house: u8) -> Result<usize, Refusal> {
    let lit = usize::from(bytes[LIT + asked(bytes, house)?]);
    if lit > UNITS {
        return Err(Refusal::Record);
    }
    Ok(lit)
}

/// The number that `lit` gives for a valid table, counted anew over the records. 1, 2.
pub fn counted(bytes: &[u8], house: u8) -> Result<usize, Refusal> {
    let house = asked(bytes, house)?;
    let (records, _) = bytes.as_chunks::<RECORD>();
    Ok(records[house * UNITS..][..UNITS].iter().filter(|record| record[LEVEL] > 0).count())
}

/// The house that a question is about: 1, 2.
fn asked(bytes: &[u8], house: u8) -> Result<usize, Refusal> {
    let house = usize::from(house);
    if bytes.len() != LEN {
        return Err(Refusal::Table);
    }
    if house >= HOUSES {
        return Err(Refusal::Message);
    }
    Ok(house)
}

/// Whether a table carries the message at all.
fn carried(message: Message) -> bool {
    match message {
        Message::Extended { data, command, .. } => Extended::read(data, command).is_some(),
        _ => true,
    }
}

impl<'a> Table<'a> {
    /// 1 where the length is not that of a table.
    pub fn open(bytes: &'a mut [u8]) -> Result<Table<'a>, Refusal> {
        if bytes.len() != LEN {
            return Err(Refusal::Table);
        }
        let (bytes, lit) = bytes.split_at_mut(LIT);
        let (records, heard) = bytes.split_at_mut(RECORDS * RECORD);
        let (records, _) = records.as_chunks_mut::<RECORD>();
        Ok(Table { records, heard, lit })
    }

    /// 3 where a record or a house's bytes break a rule.
    pub fn judge(&self) -> Result<(), Refusal> {
        let mut houses = self.records.chunks_exact(UNITS).zip(self.lit.iter());
        if houses.all(|(records, &lit)| house_ok(records, lit)) && self.heard.iter().all(|&byte| byte <= 1) {
            Ok(())
        } else {
            Err(Refusal::Record)
        }
    }

    /// Applies a message that `Message::judge` lets pass to a table that `judge` lets pass, and counts
    /// the records whose level differs before and after. 4 where the table does not carry it.
    pub fn apply(&mut self, message: Message) -> Result<usize, Refusal> {
        if !carried(message) {
            return Err(Refusal::NotCarried);
        }
        let before = self.levels(message.house());
        self.act(message);
        Ok(self.recount(message.house(), &before))
    }

    /// The levels of a house: a message changes no other.
    pub fn levels(&self, house: u8) -> [u8; UNITS] {
        let first = usize::from(house) * UNITS;
        std::array::from_fn(|unit| self.records[first + unit][LEVEL])
    }

    /// Stores how many modules of a house are above level 0 after `act`; how many of its levels are other
    /// than those.
    pub fn recount(&mut self, house: u8, before: &[u8; UNITS]) -> usize {
        let house = usize::from(house);
        let (mut lit, mut changed) = (0, 0);
        for (record, before) in self.records[house * UNITS..][..UNITS].iter().zip(before) {
            lit += u8::from(record[LEVEL] > 0);
            changed += usize::from(record[LEVEL] != *before);
        }
        self.lit[house] = lit;
        changed
    }

    /// The levels of all houses.
    pub fn all_levels(&self) -> [u8; RECORDS] {
        let mut levels = [0; RECORDS];
        for (level, record) in levels.iter_mut().zip(self.records.iter()) {
            *level = record[LEVEL];
        }
        levels
    }

    /// How many levels of all houses are other than those.
    pub fn all_levels_changed(&self, before: &[u8; RECORDS]) -> usize {
        self.records.iter().zip(before).filter(|(record, before)| record[LEVEL] != **before).count()
    }

    /// What a message does to records and the "command heard" byte; nothing where it is not carried.
    pub fn act(&mut self, message: Message) {
        let house = usize::from(message.house());
        let records = &mut self.records[house * UNITS..][..UNITS];
        let heard = &mut self.heard[house];
        match message {
            Message::Address { unit, .. } => {
                if *heard == 1 {
                    *heard = 0;
                    unaddress(records);
                }
                let record = &mut records[usize::from(unit)];
                if record[KIND] != NONE {
                    record[ADDRESSED] = 1;
                }
            }
            Message::Function { function, .. } => {
                function_acts(records, function);
                *heard = 1;
            }
            Message::Extended { unit, data, command, .. } => {
                if let Some(extended) = Extended::read(data, command) {
                    extended_acts(records, usize::from(unit), extended);
                }
            }
        }
    }
}

/// Whether the records of a house keep the rules, and so many of them are above level 0.
fn house_ok(records: &[Record], lit: u8) -> bool {
    let mut count = 0;
    let ok = records.iter().all(|record| {
        count += u8::from(record[LEVEL] > 0);
        record_ok(record)
    });
    ok && count == lit
}

fn record_ok(record: &Record) -> bool {
    let [kind, level, addressed, groups, ..] = *record;
    let level_ok = match kind {
        NONE => return *record == [0; RECORD],
        LAMP => level <= FULL,
        APPLIANCE => level == 0 || level == FULL,
        _ => return false,
    };
    level_ok && addressed <= 1 && groups <= 15 && groups_ok(record)
}

/// Four bytes of 1.
const ONES: u32 = 0x0101_0101;

/// Whether presets and references are those that a member may have, and 0 where there is no membership:
/// four groups at once.
fn groups_ok(record: &Record) -> bool {
    // The mask's bit for a group becomes that group's byte.
    let members = (u32::from(record[GROUPS]) * 0x0020_4081) & ONES;
    let presets = four(&record[PRESETS..REFERENCES]);
    let references = four(&record[REFERENCES..]);
    // Of a preset six bits, and of a reference five, where there is a membership.
    let beyond = presets & !(members * 63) | references & !(members * 31);
    // An appliance's preset has all of the six or none.
    let full = (presets & ONES) * 63;
    let between = if record[KIND] == APPLIANCE { presets ^ full } else { 0 };
    // With 15 more, bit 5 comes up from 17 on. A carry to the next byte needs a byte that is beyond.
    let above = references.wrapping_add(15 * ONES) & (32 * ONES);
    beyond | between | above == 0
}

fn four(bytes: &[u8]) -> u32 {
    u32::from_le_bytes(bytes.try_into().expect("four bytes"))
}

fn is_member(record: &Record, group: usize) -> bool {
    record[GROUPS] >> group & 1 == 1
}

fn unaddress(records: &mut [Record]) {
    for record in records {
        record[ADDRESSED] = 0;
    }
}

/// A lamp one step up or down. A lamp at 0 is first put to 63; a lit one never goes out.
fn step(level: u8, up: bool) -> u8 {
    let lit = if level == 0 { FULL } else { level };
    if up {
        (lit + 3).min(FULL)
    } else {
        lit.saturating_sub(3).max(1)
    }
}

/// The level or preset that a unit takes for a value B.
fn taken(record: &Record, value: u8) -> u8 {
    if record[KIND] == APPLIANCE && value != 0 {
        FULL
    } else {
        value
    }
}

fn function_acts(records: &mut [Record], function: Function) {
    let lamps = |record: &&mut Record| record[KIND] == LAMP;
    let addressed = |record: &&mut Record| record[ADDRESSED] == 1;
    match function {
        Function::AllUnitsOff => {
            for record in records {
                record[LEVEL] = 0;
                record[ADDRESSED] = 0;
            }
        }
        Function::AllLightsOn => records.iter_mut().filter(lamps).for_each(|lamp| lamp[LEVEL] = FULL),
        Function::AllLightsOff => records.iter_mut().filter(lamps).for_each(|lamp| lamp[LEVEL] = 0),
        Function::On => {
            for record in records.iter_mut().filter(addressed) {
                if record[LEVEL] == 0 {
                    record[LEVEL] = FULL;
                }
            }
        }
        Function::Off => records.iter_mut().filter(addressed).for_each(|record| record[LEVEL] = 0),
        Function::Dim | Function::Bright => {
            let up = function == Function::Bright;
            for lamp in records.iter_mut().filter(addressed).filter(lamps) {
                lamp[LEVEL] = step(lamp[LEVEL], up);
            }
        }
        Function::HailRequest
        | Function::HailAcknowledge
        | Function::StatusOn
        | Function::StatusOff
        | Function::StatusRequest => {}
    }
}

fn extended_acts(records: &mut [Record], unit: usize, extended: Extended) {
    match extended {
        Extended::JoinAtLevel(group) => {
            let record = &mut records[unit];
            join(record, group, record[LEVEL]);
        }
        Extended::JoinWith { group, preset } => {
            let record = &mut records[unit];
            join(record, group, taken(record, preset));
        }
        Extended::Level(level) => {
            let record = &mut records[unit];
            if record[KIND] != NONE {
                record[LEVEL] = taken(record, level);
            }
        }
        Extended::House(level) => {
            for record in records.iter_mut().filter(|record| record[KIND] != NONE) {
                record[LEVEL] = level;
            }
        }
        Extended::UnitLeaves(groups) => leave(&mut records[unit], groups),
        Extended::HouseLeaves(groups) => records.iter_mut().for_each(|record| leave(record, groups)),
        Extended::Recall(group) => {
            reached(records, group).for_each(|record| record[LEVEL] = record[PRESETS + group.number])
        }
        Extended::GroupOff(group) => reached(records, group).for_each(|record| record[LEVEL] = 0),
        Extended::Step { group, up } => {
            for lamp in reached(records, group).filter(|record| record[KIND] == LAMP) {
                lamp[LEVEL] = step(lamp[LEVEL], up);
            }
        }
        Extended::Heard => {}
    }
}

/// Those that a command for a group reaches: its absolute members, and those with the reference that the
/// command is relative to.
fn reached(records: &mut [Record], group: Group) -> impl Iterator<Item = &mut Record> {
    records.iter_mut().filter(move |record| {
        let reference = record[REFERENCES + group.number];
        is_member(record, group.number) && (reference == ABSOLUTE || reference == group.reference)
    })
}

/// A present unit joins a group, also anew.
fn join(record: &mut Record, group: Group, preset: u8) {
    if record[KIND] != NONE {
        record[GROUPS] |= 1 << group.number;
        record[PRESETS + group.number] = preset;
        record[REFERENCES + group.number] = group.reference;
    }
}

/// A unit leaves the groups of a mask, whatever its references. An absent one has none to leave.
fn leave(record: &mut Record, groups: u8) {
    record[GROUPS] &= !groups;
    for group in 0..4 {
        if groups >> group & 1 == 1 {
            record[PRESETS + group] = 0;
            record[REFERENCES + group] = 0;
        }
    }
}

#[cfg(test)]
mod tests;
