//! Both tables, modules and shutters: every message is applied to the two.

use crate::message::{Message, Refusal};
use crate::shutters::{self, Shutters};
use crate::table::{self, Table};

/// Both lent tables, of the right lengths.
pub struct Tables<'a> {
    modules: Table<'a>,
    shutters: Shutters<'a>,
}

/// Modules whose level, and shutters whose opening, differs before and after.
#[derive(Clone, Copy, Debug, Default, PartialEq, Eq)]
pub struct Counts {
    pub modules: usize,
    pub shutters: usize,
}

/// The levels and openings of all houses at some time.
pub struct Seen {
    levels: [u8; table::RECORDS],
    openings: [u8; shutters::SHUTTERS],
}

/// Applies a message: refusals 1, 16, 2, 3, 17, 4 and 18 in this order, which change nothing.
pub fn apply(modules: &mut [u8], shutters: &mut [u8], message: Message) -> Result<Counts, Refusal> {
    let mut tables = Tables::open(modules, shutters)?;
    message.judge()?;
    tables.judge()?;
    tables.apply(message)
}

impl<'a> Tables<'a> {
    /// 1, 16 where a length is not that of its table.
    pub fn open(modules: &'a mut [u8], shutters: &'a mut [u8]) -> Result<Tables<'a>, Refusal> {
        Ok(Tables { modules: Table::open(modules)?, shutters: Shutters::open(shutters)? })
    }

    /// Tables that may be applied to: 1, 16, 3, 17.
    pub fn valid(modules: &'a mut [u8], shutters: &'a mut [u8]) -> Result<Tables<'a>, Refusal> {
        let tables = Tables::open(modules, shutters)?;
        tables.judge()?;
        Ok(tables)
    }

    /// 3, 17 where a table breaks a rule.
    pub fn judge(&self) -> Result<(), Refusal> {
        self.modules.judge()?;
        self.shutters.judge()
    }

    /// Applies a message that `Message::judge` lets pass to tables that `judge` lets pass. 4 where the
    /// tables do not carry it, 18 for an opening that there is not.
    pub fn apply(&mut self, message: Message) -> Result<Counts, Refusal> {
        match message {
            // Type 0.
            Message::Extended { house, unit, data, command: command @ ..=0x0F } => {
                let command = shutters::Command::read(data, command)?;
                Ok(Counts { modules: 0, shutters: self.shutters.apply(house, unit, command) })
            }
            _ => Ok(Counts { modules: self.modules.apply(message)?, shutters: 0 }),
        }
    }

    /// The modules alone, for messages that no shutter hears.
    pub fn modules(&mut self) -> &mut Table<'a> {
        &mut self.modules
    }

    pub fn seen(&self) -> Seen {
        Seen { levels: self.modules.all_levels(), openings: self.shutters.openings() }
    }

    /// How many levels and openings of all houses are other than those.
    pub fn changed(&self, before: &Seen) -> Counts {
        Counts {
            modules: self.modules.all_levels_changed(&before.levels),
            shutters: self.shutters.openings_changed(&before.openings),
        }
    }
}

#[cfg(test)]
mod tests {
    use super::*;

    /// A message that is not carried, one with an opening that there is not, and one that is refused.
    const NOT_CARRIED: Message = Message::Extended { house: 0, unit: 0, data: 31, command: 0x06 };
    const TOO_OPEN: Message = Message::Extended { house: 0, unit: 0, data: 26, command: 0x01 };
    const NO_UNIT: Message = Message::Extended { house: 0, unit: 16, data: 26, command: 0x05 };

    #[test]
    fn refusals_in_order_and_nothing_changed() {
        let (mut modules, mut shutters) = ([0; table::LEN], [0; shutters::LEN]);
        modules[0] = 3;
        shutters[0] = 2;
        let copy = (modules, shutters);
        assert_eq!(apply(&mut modules[1..], &mut shutters[1..], NO_UNIT), Err(Refusal::Table));
        assert_eq!(apply(&mut modules, &mut shutters[1..], NO_UNIT), Err(Refusal::ShutterTable));
        assert_eq!(apply(&mut modules, &mut shutters, NO_UNIT), Err(Refusal::Message));
        for message in [NOT_CARRIED, TOO_OPEN, Message::Address { house: 0, unit: 0 }] {
            assert_eq!(apply(&mut modules, &mut shutters, message), Err(Refusal::Record));
        }
        assert_eq!((modules, shutters), copy);
        modules[0] = 1;
        let copy = (modules, shutters);
        // Judged also for a message that concerns no shutter.
        for message in [NOT_CARRIED, TOO_OPEN, Message::Address { house: 0, unit: 0 }] {
            assert_eq!(apply(&mut modules, &mut shutters, message), Err(Refusal::ShutterRecord));
        }
        assert_eq!((modules, shutters), copy);
        shutters[0] = 1;
        let copy = (modules, shutters);
        assert_eq!(apply(&mut modules, &mut shutters, NOT_CARRIED), Err(Refusal::NotCarried));
        assert_eq!(apply(&mut modules, &mut shutters, TOO_OPEN), Err(Refusal::Opening));
        assert_eq!((modules, shutters), copy);
    }

    #[test]
    fn lengths_that_are_none() {
        let address = Message::Address { house: 0, unit: 0 };
        for len in [0, shutters::LEN - 1, shutters::LEN + 1] {
            let refused = apply(&mut [0; table::LEN], &mut vec![0; len], address);
            assert_eq!(refused, Err(Refusal::ShutterTable));
        }
        assert_eq!(apply(&mut [0; table::LEN], &mut [0; shutters::LEN], address), Ok(Counts::default()));
    }
}
