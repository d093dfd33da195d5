//! What the routines take and give beside numbers and bytes.

use crate::names::{ANSWER_BYTES, EVENT_BYTES, MESSAGE_BYTES, event, kind};
use std::fmt;

/// What a routine gives back: one number of 64 bits.
#[derive(Clone, Copy, PartialEq, Eq)]
pub struct Answer(u64);

impl Answer {
    pub const fn from_bits(bits: u64) -> Answer {
        Answer(bits)
    }

    pub const fn bits(self) -> u64 {
        self.0
    }

    /// 0, or the number of the refusal ([`crate::number`]).
    pub const fn number(self) -> u8 {
        self.0 as u8
    }

    /// The count, of what each routine says; 0 for a refusal. Ask [`Answer::modules`] and
    /// [`Answer::shutters`] for those of a routine on the tables.
    pub const fn count(self) -> u64 {
        self.0 >> 8
    }

    /// A count of a routine on the tables: modules whose level differs.
    pub const fn modules(self) -> u16 {
        (self.0 >> 8) as u16
    }

    /// Its other count: shutters whose opening differs. A later version may say more in the bits above
    /// it.
    pub const fn shutters(self) -> u16 {
        (self.0 >> 24) as u16
    }

    /// Answer `i` of those that [`crate::mains_route`] left in `answers`, which has that many.
    pub fn at(answers: &[u8], i: usize) -> Answer {
        Answer(u64::from_le_bytes(nth(answers, i)))
    }
}

const _: () = assert!(ANSWER_BYTES == size_of::<u64>());

/// The count is shown as one number, also for a routine on the tables.
impl fmt::Debug for Answer {
    fn fmt(&self, f: &mut fmt::Formatter) -> fmt::Result {
        write!(f, "number {}, count {}", self.number(), self.count())
    }
}

/// A message: five numbers. Any may be handed over; a routine refuses those that make no message.
#[derive(Clone, Copy, Debug, PartialEq, Eq)]
pub struct Message {
    /// One of [`crate::kind`].
    pub kind: u8,
    /// 0 to 15 for A to P.
    pub house: u8,
    /// The unit, 0 to 15 for 1 to 16, or the code of a function ([`crate::function`]).
    pub third: u8,
    /// Looked at in an extended message only.
    pub data: u8,
    /// Looked at in an extended message only.
    pub command: u8,
}

impl Message {
    pub const fn address(house: u8, unit: u8) -> Message {
        Message { kind: kind::ADDRESS, house, third: unit, data: 0, command: 0 }
    }

    /// A function by its code ([`crate::function`]).
    pub const fn function(house: u8, code: u8) -> Message {
        Message { kind: kind::FUNCTION, house, third: code, data: 0, command: 0 }
    }

    pub const fn extended(house: u8, unit: u8, data: u8, command: u8) -> Message {
        Message { kind: kind::EXTENDED, house, third: unit, data, command }
    }
}

/// From its bytes in lent memory.
impl From<[u8; MESSAGE_BYTES]> for Message {
    fn from([kind, house, third, data, command]: [u8; MESSAGE_BYTES]) -> Message {
        Message { kind, house, third, data, command }
    }
}

/// To its bytes in lent memory.
impl From<Message> for [u8; MESSAGE_BYTES] {
    fn from(message: Message) -> [u8; MESSAGE_BYTES] {
        [message.kind, message.house, message.third, message.data, message.command]
    }
}

/// What one half-cycle made a receiver say.
#[derive(Clone, Copy, Debug, PartialEq, Eq)]
pub struct Event([u8; EVENT_BYTES]);

impl Event {
    /// Event `i` of those that [`crate::receive`] or [`crate::mains_route`] left in `events`, which
    /// has that many.
    pub fn at(events: &[u8], i: usize) -> Event {
        Event(nth(events, i))
    }

    /// One of [`crate::event`], or a number: 5, 10 or 11.
    pub const fn code(self) -> u8 {
        self.0[0]
    }

    /// The message that was given, if any.
    pub fn message(self) -> Option<Message> {
        let [code, numbers @ ..] = self.0;
        (code == event::GIVEN).then(|| Message::from(numbers))
    }
}

/// Entry `i` of a list of entries of N bytes each.
fn nth<const N: usize>(bytes: &[u8], i: usize) -> [u8; N] {
    bytes.as_chunks::<N>().0[i]
}

#[cfg(test)]
mod tests {
    use super::*;
    use crate::names::{function, number};

    #[test]
    fn an_answer_in_its_bits() {
        let answer = Answer::from_bits(0x0000_0031_0002_0104);
        assert_eq!(answer.number(), number::NOT_CARRIED);
        assert_eq!((answer.modules(), answer.shutters()), (0x0201, 0x3100));
        assert_eq!(answer.count(), 0x3100_0201);
        // The bits kept for a reply are in neither.
        let answer = Answer::from_bits(0x0038_9401_0001_0000);
        assert_eq!((answer.modules(), answer.shutters()), (256, 256));
    }

    #[test]
    fn answers_stand_lowest_byte_first() {
        let bytes = [9, 9, 9, 9, 9, 9, 9, 9, 4, 1, 2, 0, 0, 0, 0, 0, 7];
        assert_eq!(Answer::at(&bytes, 1), Answer::from_bits(0x0002_0104));
    }

    #[test]
    fn events_in_their_bytes() {
        let bytes = [0, 0, 0, 0, 0, 0, 1, 2, 0, 2, 0, 0, 2, 0, 0, 0, 0, 0];
        assert_eq!(Event::at(&bytes, 0).message(), None);
        assert_eq!(Event::at(&bytes, 1).message(), Some(Message::function(0, function::ON)));
        assert_eq!((Event::at(&bytes, 2).code(), Event::at(&bytes, 2).message()), (event::REPEAT, None));
    }

    #[test]
    fn messages_in_their_bytes() {
        let message = Message::extended(1, 2, 3, 4);
        assert_eq!(<[u8; MESSAGE_BYTES]>::from(message), [3, 1, 2, 3, 4]);
        assert_eq!(Message::from([1, 5, 6, 0, 0]), Message::address(5, 6));
    }
}
