//! The receiver: one call per half-cycle.

use crate::message::{Message, Nine, Refusal};

/// What a half-cycle made the receiver say.
#[derive(Clone, Copy, Debug, PartialEq, Eq)]
pub enum Event {
    Nothing,
    Message(Message),
    Repeat,
    /// BROKEN 10: both half-cycles of a pair were equal.
    BrokenPair,
    /// BROKEN 11: code 10, 11 or 12 with function bit 1.
    BrokenUnsupported,
}

/// A receiver between two half-cycles. The fields can hold values that no sequence of calls leads
/// to; `judge` refuses those that the paper lists, and the others have a step all the same.
#[derive(Clone, Copy, Debug, PartialEq, Eq)]
pub struct Receiver {
    /// The last six half-cycles, the latest lowest. Ones before any has come, so that a start is
    /// not found among half-cycles that never were.
    pub past: u8,
    /// 0 while hunting; else the place in its frame, counted from 1, of the half-cycle to come.
    pub at: u8,
    /// The bits of the complete pairs, the latest lowest.
    pub bits: u32,
    /// The message just given, whose repeat may follow.
    pub given: Option<Message>,
    /// While the start of a second copy is waited for, where the half-cycle to come stands, counted
    /// from the start of the frame that broke; else 0.
    pub since: u8,
    /// The place, counted in the same way, at which that start is waited for: 22 or 62; 0 where
    /// none is.
    pub target: u8,
}

/// `past` and the half-cycle that completes 0 0 0 1 1 1 0.
const BEFORE_START: u8 = 0b000111;
const PAST_MASK: u8 = 0b111111;

/// Places in a frame, counted from 1.
const AWAITED: std::ops::RangeInclusive<u8> = 1..=4;
const FIRST_PAIR: u8 = 5;
const STANDARD_END: u8 = 22;
const EXTENDED_END: u8 = 62;

/// Where a second copy begins, counted from the start of the first.
const AFTER_STANDARD: u8 = STANDARD_END;
const AFTER_EXTENDED: u8 = EXTENDED_END;

/// A start, and the last four of `past`.
const START_BITS: u8 = 0b1110;
const START_MASK: u8 = 0b1111;
const START_LEN: u8 = 4;

/// Bits of the longest frame.
const WORD_MASK: u32 = (1 << 29) - 1;

/// Code 7 and function bit 1, as the last five of nine bits.
const EXTENDED_MARK: u32 = 0b01111;

impl Default for Receiver {
    fn default() -> Self {
        Receiver::FRESH
    }
}

impl Receiver {
    /// Hunting, no half-cycle received.
    pub const FRESH: Receiver =
        Receiver { past: PAST_MASK, at: 0, bits: 0, given: None, since: 0, target: 0 };

    /// 6 where a kept half-cycle is not 0 or 1, there are more pairs than the frame has, the
    /// message given has a house or unit above 15, or no break, with calls after it, leads to the
    /// waiting.
    pub fn judge(&self) -> Result<(), Refusal> {
        let given_ok = self.given.is_none_or(|message| message.judge().is_ok());
        let pairs_ok = self.at <= EXTENDED_END && self.may_be_long();
        if self.past > PAST_MASK || !pairs_ok || !given_ok || !self.may_wait() {
            return Err(Refusal::State);
        }
        Ok(())
    }

    /// From the tenth pair on, the nine before it must be those of an extended frame.
    fn may_be_long(&self) -> bool {
        if self.at <= STANDARD_END {
            return true;
        }
        let pairs_after_ninth = (self.at - STANDARD_END - 1) / 2;
        self.bits >> pairs_after_ninth & 0b11111 == EXTENDED_MARK
    }

    /// The earliest break of the first nine pairs is that of the first, and that of the later ones
    /// that of the tenth. The waiting lasts until the four half-cycles from its place on have come.
    fn may_wait(&self) -> bool {
        let earliest = match self.target {
            0 => return self.since == 0,
            AFTER_STANDARD => FIRST_PAIR + 1,
            AFTER_EXTENDED => STANDARD_END + 2,
            _ => return false,
        };
        self.at == 0 && (earliest..self.target + START_LEN).contains(&self.since)
    }

    /// One half-cycle. A refusal (5, 6) leaves the receiver as it was.
    pub fn step(&mut self, half: u8) -> Result<Event, Refusal> {
        // 5 comes before 6.
        if half <= 1 {
            self.judge()?;
        }
        self.hear(half)
    }

    /// A step of a receiver that `judge` lets pass: 5, or the event. Such a receiver stays one that
    /// `judge` lets pass.
    #[inline]
    pub fn hear(&mut self, half: u8) -> Result<Event, Refusal> {
        if half > 1 {
            return Err(Refusal::Half);
        }
        Ok(self.advance(half))
    }

    /// Inlined, as the steps of a frame are, so that a slice keeps the fields in registers.
    #[inline(always)]
    fn advance(&mut self, half: u8) -> Event {
        let before = self.past;
        self.past = (before << 1 | half) & PAST_MASK;
        if self.at == 0 {
            if self.target == 0 {
                self.hunts(before, half);
            } else {
                self.waits(before, half);
            }
            Event::Nothing
        } else if AWAITED.contains(&self.at) {
            let wanted = u8::from(self.at < 4);
            if half == wanted {
                self.at += 1;
                self.bits = 0;
            } else {
                // This half-cycle goes to the hunt. No sequence of calls leads to a receiver that
                // finds a start with it.
                self.hunts(before, half);
            }
            Event::Nothing
        } else if self.at % 2 == 1 {
            self.at += 1;
            Event::Nothing
        } else {
            self.pair(before & 1, half)
        }
    }

    /// A half-cycle in the hunt: a frame begins where it completes the start.
    fn hunts(&mut self, before: u8, half: u8) {
        self.hunt();
        if before == BEFORE_START && half == 0 {
            self.at = FIRST_PAIR;
        }
    }

    /// The same while a start is waited for: a frame begins also where the half-cycle, which `past`
    /// has already, completes 1 1 1 0 at the place waited for. Where 22 held none, 62 is the place.
    /// A frame begun either way ends the waiting.
    fn waits(&mut self, before: u8, half: u8) {
        self.hunts(before, half);
        self.since += 1;
        let come = self.since == self.target + START_LEN;
        if come && self.past & START_MASK == START_BITS {
            self.at = FIRST_PAIR;
        }
        if self.at != 0 || come && self.target == AFTER_EXTENDED {
            self.since = 0;
            self.target = 0;
        } else if come {
            self.target = AFTER_EXTENDED;
        }
    }

    /// Hunting from the next half-cycle on.
    fn hunt(&mut self) {
        self.at = 0;
        self.bits = 0;
        self.given = None;
    }

    /// A pair is complete.
    #[inline(always)]
    fn pair(&mut self, first: u8, second: u8) -> Event {
        if first == second {
            // The frame has had `at` half-cycles, this one among them.
            self.since = self.at;
            self.target = if self.at <= STANDARD_END { AFTER_STANDARD } else { AFTER_EXTENDED };
            self.hunt();
            return Event::BrokenPair;
        }
        self.bits = (self.bits << 1 | u32::from(first)) & WORD_MASK;
        match self.at {
            STANDARD_END => match Message::of_nine(self.bits) {
                Nine::Whole(message) => self.frame(message),
                Nine::Unsupported => {
                    self.hunt();
                    Event::BrokenUnsupported
                }
                Nine::More => {
                    self.at += 1;
                    Event::Nothing
                }
            },
            EXTENDED_END => self.frame(Message::of_twenty_nine(self.bits)),
            _ => {
                self.at += 1;
                Event::Nothing
            }
        }
    }

    /// A frame is complete.
    #[inline(always)]
    fn frame(&mut self, message: Message) -> Event {
        if self.given == Some(message) {
            self.hunt();
            return Event::Repeat;
        }
        self.at = *AWAITED.start();
        self.bits = 0;
        self.given = Some(message);
        Event::Message(message)
    }
}

#[cfg(test)]
mod tests;
