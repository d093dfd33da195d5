//! The two ways to the tables: a radio code, and half-cycles of the mains.

use crate::message::Refusal;
use crate::radio::Command;
use crate::receiver::{Event, Receiver};
use crate::tables::{Counts, Seen, Tables};

/// Applies what a radio code means, both messages or none: refusals 1, 16, 3, 17, 12, 13 and 14 in this
/// order. Counts before and after the whole. A radio code moves no shutter.
pub fn radio(modules: &mut [u8], shutters: &mut [u8], code: &[u8]) -> Result<Counts, Refusal> {
    let mut tables = Tables::valid(modules, shutters)?;
    let (address, function) = Command::read(code)?.messages();
    let modules = tables.modules();
    let house = function.house();
    let before = modules.levels(house);
    if let Some(address) = address {
        modules.act(address);
    }
    modules.act(function);
    Ok(Counts { modules: modules.recount(house, &before), shutters: 0 })
}

/// What the receiver made of a half-cycle, 5 or its event, and what the tables made of the message
/// given: the counts, 4 or 18, and counts of 0 where none was given.
pub type Heard = (Result<Event, Refusal>, Result<Counts, Refusal>);

/// A slice of the mains, for a receiver and tables that are judged well.
pub struct Mains<'a> {
    pub receiver: Receiver,
    tables: Tables<'a>,
    /// As it was before the first message: most slices of a few half-cycles bring none.
    before: Option<Seen>,
}

impl<'a> Mains<'a> {
    pub fn new(receiver: Receiver, tables: Tables<'a>) -> Mains<'a> {
        Mains { receiver, tables, before: None }
    }

    /// One half-cycle.
    #[inline]
    pub fn hear(&mut self, half: u8) -> Heard {
        let event = self.receiver.hear(half);
        let applied = match event {
            Ok(Event::Message(message)) => {
                self.before.get_or_insert_with(|| self.tables.seen());
                self.tables.apply(message)
            }
            _ => Ok(Counts::default()),
        };
        (event, applied)
    }

    /// Counts before and after the whole slice.
    pub fn changed(&self) -> Counts {
        self.before.as_ref().map_or(Counts::default(), |before| self.tables.changed(before))
    }
}

#[cfg(test)]
mod tests {
    use super::*;
    use crate::burst::write_burst;
    use crate::message::Message;
    use crate::shutters;
    use crate::table::{self, LEN};

    /// House A with three dark lamps, of which the second was addressed before a function.
    fn room() -> Vec<u8> {
        let mut table = vec![0; LEN];
        for unit in 0..3 {
            table[12 * unit] = 1;
        }
        table[12 + 2] = 1;
        table[3072] = 1;
        table
    }

    /// Shutters at A1 and P16, half open.
    fn shutters() -> Vec<u8> {
        let mut table = vec![0; shutters::LEN];
        for place in [0, shutters::LEN - 20] {
            table[place..place + 2].copy_from_slice(&[1, 12]);
        }
        table
    }

    /// A slice of one half-cycle, with shutters that must stay.
    fn hear(receiver: &mut Receiver, half: u8, table: &mut [u8]) -> Heard {
        let mut beside = shutters();
        let mut mains = Mains::new(*receiver, Tables::valid(table, &mut beside).unwrap());
        let heard = mains.hear(half);
        assert_eq!(mains.changed(), heard.1.unwrap_or_default());
        *receiver = mains.receiver;
        assert_eq!(beside, shutters());
        heard
    }

    /// Sends the messages of a command over the mains; the sum of the counts.
    fn press(receiver: &mut Receiver, table: &mut [u8], command: Command) -> usize {
        let (address, function) = command.messages();
        let mut count = 0;
        for message in address.into_iter().chain([function]) {
            let mut burst = [0; 124];
            let len = write_burst(message, &mut burst).unwrap();
            for half in [0, 0, 0].iter().chain(&burst[..len]) {
                count += hear(receiver, *half, table).1.unwrap().modules;
            }
        }
        count
    }

    #[test]
    fn wall_and_radio_leave_the_same_room() {
        let commands = [
            Command::On { house: 0, unit: 0 },
            Command::Dim { house: 0 },
            Command::On { house: 0, unit: 2 },
            Command::Bright { house: 0 },
            Command::Off { house: 0, unit: 1 },
            Command::Off { house: 0, unit: 2 },
        ];
        let mut by_wall = room();
        let mut by_radio = room();
        let mut receiver = Receiver::FRESH;
        for command in commands {
            let wall = press(&mut receiver, &mut by_wall, command);
            let mut beside = shutters();
            let radio = radio(&mut by_radio, &mut beside, &command.write().unwrap());
            assert_eq!(radio, Ok(Counts { modules: wall, shutters: 0 }));
            assert_eq!((&by_wall, beside), (&by_radio, shutters()));
            assert_eq!(table::lit(&by_radio, 0), table::counted(&by_radio, 0));
        }
        let levels: Vec<u8> = by_wall.chunks(12).take(3).map(|record| record[1]).collect();
        assert_eq!((levels, table::lit(&by_wall, 0)), (vec![60, 0, 0], Ok(1)));
    }

    #[test]
    fn a_repeat_is_not_applied() {
        let mut table = room();
        let mut receiver = Receiver::FRESH;
        assert_eq!(press(&mut receiver, &mut table, Command::On { house: 0, unit: 0 }), 1);
        assert_eq!(press(&mut receiver, &mut table, Command::Dim { house: 0 }), 1);
        assert_eq!(table[1], 60);
    }

    #[test]
    fn a_message_that_is_not_carried_moves_the_receiver_on() {
        let mut table = room();
        let before = table.clone();
        let message = Message::Extended { house: 0, unit: 0, data: 0x20, command: 0x3D };
        let mut burst = [0; 124];
        write_burst(message, &mut burst).unwrap();
        let mut receiver = Receiver::FRESH;
        let line: Vec<u8> = [0, 0, 0].into_iter().chain(burst).collect();
        for (i, &half) in line.iter().enumerate() {
            let told = match i {
                64 => (Ok(Event::Message(message)), Err(Refusal::NotCarried)),
                126 => (Ok(Event::Repeat), Ok(Counts::default())),
                _ => (Ok(Event::Nothing), Ok(Counts::default())),
            };
            assert_eq!(hear(&mut receiver, half, &mut table), told, "{i}");
        }
        assert_eq!(table, before);
    }

    #[test]
    fn refusals_in_order_and_nothing_changed() {
        let mut bad = (room(), shutters());
        bad.0[0] = 3;
        bad.1[0] = 2;
        let copy = bad.clone();
        assert_eq!(radio(&mut bad.0[..9], &mut bad.1[..9], &[]), Err(Refusal::Table));
        assert_eq!(radio(&mut bad.0, &mut bad.1[..9], &[]), Err(Refusal::ShutterTable));
        assert_eq!(radio(&mut bad.0, &mut bad.1, &[]), Err(Refusal::Record));
        assert_eq!(radio(&mut room(), &mut bad.1, &[]), Err(Refusal::ShutterRecord));
        assert_eq!(bad, copy);
        let mut good = (room(), shutters());
        let mut refused = |code: &[u8]| radio(&mut good.0, &mut good.1, code);
        assert_eq!(refused(&[1, 2]), Err(Refusal::RfLength));
        assert_eq!(refused(&[1, 2, 3, 4]), Err(Refusal::RfComplement));
        assert_eq!(refused(&[0x60, 0x9F, 0x01, 0xFE]), Err(Refusal::RfCode));
        assert_eq!(good, (room(), shutters()));
    }
}
