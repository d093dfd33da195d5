//! A sending station.

use crate::burst::{burst_len, half_cycle};
use crate::message::{Message, Refusal};

/// Draws, and so waits, that are allowed.
const DRAWS: std::ops::RangeInclusive<u8> = 8..=10;

#[derive(Clone, Copy, Debug, PartialEq, Eq)]
pub struct Station {
    pub message: Option<Message>,
    /// Clear half-cycles in a row after which it sends.
    pub wait: u8,
    /// Clear half-cycles in a row so far; equal to the wait while it sends.
    pub count: u8,
    /// Half-cycles of its burst that it has sent.
    pub place: u8,
}

/// 5 where a half-cycle is not 0 or 1.
pub fn judge_half(half: u8) -> Result<(), Refusal> {
    if half <= 1 {
        Ok(())
    } else {
        Err(Refusal::Half)
    }
}

/// 7 where a draw is not 8 to 10.
pub fn judge_draw(draw: u8) -> Result<(), Refusal> {
    if DRAWS.contains(&draw) {
        Ok(())
    } else {
        Err(Refusal::Draw)
    }
}

impl Station {
    pub const EMPTY: Station = Station { message: None, wait: *DRAWS.start(), count: 0, place: 0 };

    /// 6 where the fields are not those of a station.
    pub fn judge(&self) -> Result<(), Refusal> {
        if self.message.is_some_and(|message| message.judge().is_err()) {
            return Err(Refusal::State);
        }
        self.judge_numbers()
    }

    /// The same where the message, if there is one, is known to be right.
    #[inline]
    pub fn judge_numbers(&self) -> Result<(), Refusal> {
        let ok = match self.message {
            None => *self == Station::EMPTY,
            Some(message) => self.fits(message),
        };
        if ok {
            Ok(())
        } else {
            Err(Refusal::State)
        }
    }

    /// Whether wait, count and place are those of a station that holds this message.
    #[inline]
    fn fits(&self, message: Message) -> bool {
        DRAWS.contains(&self.wait)
            && self.count <= self.wait
            && usize::from(self.place) < burst_len(message)
            && (self.place == 0 || self.count == self.wait)
    }

    /// Loads a message: refusals 2, 6, 7 and 8.
    pub fn load(&mut self, message: Message, draw: u8) -> Result<(), Refusal> {
        message.judge()?;
        self.judge()?;
        self.take(message, draw)
    }

    /// Loads a message where `judge` lets both pass: refusals 7 and 8.
    pub fn take(&mut self, message: Message, draw: u8) -> Result<(), Refusal> {
        judge_draw(draw)?;
        if self.message.is_some() {
            return Err(Refusal::Busy);
        }
        *self = Station { message: Some(message), wait: draw, count: 0, place: 0 };
        Ok(())
    }

    /// What a station that `judge` lets pass sends in this half-cycle.
    pub fn sends(&self) -> u8 {
        match self.message {
            Some(message) if self.count == self.wait => half_cycle(message.word(), usize::from(self.place)),
            _ => 0,
        }
    }

    /// One half-cycle with what is heard in it and a draw: refusals 5, 6, 7 and 15. True where the
    /// station is DONE.
    pub fn step(&mut self, heard: u8, draw: u8) -> Result<bool, Refusal> {
        judge_half(heard)?;
        self.judge()?;
        self.hear(heard, draw)
    }

    /// A step of a station that `judge` lets pass, with a half-cycle of 0 or 1: refusals 7 and 15.
    pub fn hear(&mut self, heard: u8, draw: u8) -> Result<bool, Refusal> {
        judge_draw(draw)?;
        let sent = self.sends();
        if sent > heard {
            return Err(Refusal::Fault);
        }
        Ok(self.advance(sent, heard, draw))
    }

    /// A step of a station that `judge` lets pass, which sent `sent` and heard no less.
    pub fn advance(&mut self, sent: u8, heard: u8, draw: u8) -> bool {
        let Some(message) = self.message else {
            return false;
        };
        if heard > sent {
            // Waiting, or sending 0: another station is heard.
            *self = Station { message: self.message, wait: draw, count: 0, place: 0 };
        } else if self.count < self.wait {
            self.count += 1;
        } else {
            self.place += 1;
            if usize::from(self.place) == burst_len(message) {
                *self = Station::EMPTY;
                return true;
            }
        }
        false
    }
}

#[cfg(test)]
mod tests {
    use super::*;
    use crate::message::Function;

    const A1: Message = Message::Address { house: 0, unit: 0 };

    fn loaded(message: Message, draw: u8) -> Station {
        let mut station = Station::EMPTY;
        station.load(message, draw).unwrap();
        station
    }

    #[test]
    fn a_station_alone_sends_after_its_wait() {
        for draw in 8..=10 {
            let mut station = loaded(A1, draw);
            let mut sent = Vec::new();
            for _ in 0..draw {
                assert_eq!(station.sends(), 0);
                assert_eq!(station.step(0, 8), Ok(false));
            }
            loop {
                let half = station.sends();
                sent.push(half);
                if station.step(half, 8).unwrap() {
                    break;
                }
                assert_eq!(station.count, station.wait);
            }
            let mut burst = [0; 44];
            crate::burst::write_burst(A1, &mut burst).unwrap();
            assert_eq!(sent, burst);
            assert_eq!(station, Station::EMPTY);
        }
    }

    #[test]
    fn a_listener_starts_its_count_anew_at_a_1() {
        let mut station = loaded(A1, 8);
        for _ in 0..7 {
            station.step(0, 10).unwrap();
        }
        assert_eq!(station.step(1, 10), Ok(false));
        assert_eq!(station, Station { message: Some(A1), wait: 10, count: 0, place: 0 });
    }

    #[test]
    fn sending_0_and_hearing_1_aborts() {
        let mut station = Station { message: Some(A1), wait: 8, count: 8, place: 3 };
        assert_eq!(station.sends(), 0);
        assert_eq!(station.step(1, 9), Ok(false));
        assert_eq!(station, Station { message: Some(A1), wait: 9, count: 0, place: 0 });
    }

    #[test]
    fn sending_1_and_hearing_0_is_a_fault() {
        let mut station = Station { message: Some(A1), wait: 8, count: 8, place: 0 };
        let before = station;
        assert_eq!(station.step(0, 8), Err(Refusal::Fault));
        assert_eq!(station.step(0, 7), Err(Refusal::Draw));
        assert_eq!(station, before);
    }

    #[test]
    fn loading_refuses_in_order() {
        let none = Message::Function { house: 16, function: Function::On };
        let odd = Station { wait: 9, ..Station::EMPTY };
        assert_eq!(odd.clone().load(none, 7), Err(Refusal::Message));
        assert_eq!(odd.clone().load(A1, 7), Err(Refusal::State));
        assert_eq!(loaded(A1, 8).load(A1, 11), Err(Refusal::Draw));
        assert_eq!(loaded(A1, 8).load(A1, 10), Err(Refusal::Busy));
    }

    #[test]
    fn states_that_are_refused() {
        let sending = Station { message: Some(A1), wait: 8, count: 8, place: 43 };
        assert_eq!(sending.judge(), Ok(()));
        let bad = [
            Station { wait: 7, count: 7, ..sending },
            Station { wait: 11, count: 11, ..sending },
            Station { count: 9, ..sending },
            Station { place: 44, ..sending },
            Station { count: 7, ..sending },
            Station { message: Some(Message::Address { house: 0, unit: 16 }), ..sending },
            Station { message: None, ..sending },
            Station { count: 1, ..Station::EMPTY },
            Station { wait: 10, ..Station::EMPTY },
        ];
        for station in bad {
            assert_eq!(station.judge(), Err(Refusal::State), "{station:?}");
            assert_eq!(station.clone().step(0, 0), Err(Refusal::State));
            assert_eq!(station.clone().step(2, 0), Err(Refusal::Half));
        }
    }

    #[test]
    fn an_empty_station_is_judged_and_never_changes() {
        let mut station = Station::EMPTY;
        assert_eq!(station.step(1, 8), Ok(false));
        assert_eq!(station.step(0, 10), Ok(false));
        assert_eq!(station.step(0, 11), Err(Refusal::Draw));
        assert_eq!(station.step(2, 8), Err(Refusal::Half));
        assert_eq!(station, Station::EMPTY);
    }
}
