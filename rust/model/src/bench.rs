//! A bench of stations on one line.

use crate::message::Refusal;
use crate::station::{judge_draw, Station};

/// Stations of the largest bench.
pub const LARGEST: usize = 16;

/// What one half-cycle gives.
#[derive(Clone, Copy, Debug, PartialEq, Eq)]
pub struct Line {
    /// 1 when any station sends 1.
    pub half: u8,
    /// Station i is DONE where bit i is 1.
    pub done: u16,
}

/// Advances the stations by one half-cycle, with a draw for each: refusals 6 and 7.
pub fn advance(stations: &mut [Station], draws: &[u8]) -> Result<Line, Refusal> {
    let n = stations.len();
    if n == 0 || n > LARGEST {
        return Err(Refusal::State);
    }
    stations.iter().try_for_each(Station::judge)?;
    let draws = &draws[..n];
    draws.iter().copied().try_for_each(judge_draw)?;

    let mut sent = [0; LARGEST];
    for (sent, station) in sent.iter_mut().zip(stations.iter()) {
        *sent = station.sends();
    }
    let half = sent.iter().fold(0, |line, sent| line | sent);
    let mut done = 0;
    for (i, station) in stations.iter_mut().enumerate() {
        if station.advance(sent[i], half, draws[i]) {
            done |= 1 << i;
        }
    }
    Ok(Line { half, done })
}

#[cfg(test)]
mod tests {
    use super::*;
    use crate::burst::write_burst;
    use crate::drawn::Drawn;
    use crate::message::{Function, Message};
    use crate::receiver::{Event, Receiver};

    const A1: Message = Message::Address { house: 0, unit: 0 };
    const B1: Message = Message::Address { house: 1, unit: 0 };

    fn loaded(loads: &[(Message, u8)]) -> Vec<Station> {
        loads
            .iter()
            .map(|&(message, draw)| {
                let mut station = Station::EMPTY;
                station.load(message, draw).unwrap();
                station
            })
            .collect()
    }

    fn burst(message: Message) -> Vec<u8> {
        let mut buf = [0; 124];
        let len = write_burst(message, &mut buf).unwrap();
        buf[..len].to_vec()
    }

    #[test]
    fn waits_8_and_9() {
        let mut stations = loaded(&[(A1, 8), (B1, 9)]);
        let mut line = Vec::new();
        for n in 1..=52 {
            let answer = advance(&mut stations, &[8, 8]).unwrap();
            line.push(answer.half);
            assert_eq!(answer.done, u16::from(n == 52), "{n}");
            if n == 8 {
                assert_eq!((stations[0].count, stations[1].count), (8, 8));
            }
            if n == 9 {
                assert_eq!(stations[1], Station { message: Some(B1), wait: 8, count: 0, place: 0 });
            }
        }
        assert_eq!(line[..8], [0; 8]);
        assert_eq!(line[8..], burst(A1));
        assert_eq!(stations[0], Station::EMPTY);
    }

    #[test]
    fn a1_against_b1() {
        let mut stations = loaded(&[(A1, 8), (B1, 8)]);
        for _ in 0..8 {
            assert_eq!(advance(&mut stations, &[8, 8]), Ok(Line { half: 0, done: 0 }));
        }
        let mut line = Vec::new();
        for n in 1..=44 {
            let answer = advance(&mut stations, &[9, 9]).unwrap();
            line.push(answer.half);
            // Equal up to the fourth half-cycle of the burst; A1 gives up at the fifth.
            assert_eq!(stations[0].place, if n < 5 { n } else { 0 });
        }
        assert_eq!(line, burst(B1));
        assert_eq!(stations[1], Station::EMPTY);
        assert_eq!(stations[0].message, Some(A1));
    }

    #[test]
    fn refusals() {
        let mut none: Vec<Station> = Vec::new();
        assert_eq!(advance(&mut none, &[]), Err(Refusal::State));
        let mut many = vec![Station::EMPTY; 17];
        assert_eq!(advance(&mut many, &[8; 17]), Err(Refusal::State));
        let mut two = loaded(&[(A1, 8), (B1, 8)]);
        let before = two.clone();
        assert_eq!(advance(&mut two, &[8, 7]), Err(Refusal::Draw));
        assert_eq!(two, before);
        two[1].wait = 7;
        assert_eq!(advance(&mut two, &[8, 7]), Err(Refusal::State));
        assert_eq!(advance(&mut before.clone(), &[8, 8, 99]), Ok(Line { half: 0, done: 0 }));
    }

    fn some_load(drawn: &mut Drawn) -> (Message, u8) {
        let house = drawn.below(4) as u8;
        let unit = drawn.below(4) as u8;
        let message = match drawn.below(3) {
            0 => Message::Address { house, unit },
            1 => Message::Function { house, function: Function::ALL[drawn.below(12) as usize] },
            _ => Message::Extended { house, unit, data: drawn.below(256) as u8, command: 0x31 },
        };
        (message, 8 + drawn.below(3) as u8)
    }

    /// Loaded benches go out whole: within 134 half-cycles for each station, every message is
    /// heard by a fresh receiver, the greatest of those that start together first, and DONE comes
    /// at the half-cycle of REPEAT.
    #[test]
    fn every_message_is_heard_within_134_for_each_station() {
        let mut drawn = Drawn(7);
        for _ in 0..400 {
            let n = 1 + drawn.below(16) as usize;
            let loads: Vec<(Message, u8)> = (0..n).map(|_| some_load(&mut drawn)).collect();
            let mut stations = loaded(&loads);
            let mut receiver = Receiver::FRESH;
            let mut given = None;
            let mut left = n;
            for _ in 0..134 * n {
                let draws: Vec<u8> = (0..n).map(|_| 8 + drawn.below(3) as u8).collect();
                let line = advance(&mut stations, &draws).unwrap();
                match receiver.step(line.half).unwrap() {
                    Event::Message(message) => given = Some(message),
                    Event::Repeat => assert_ne!(line.done, 0),
                    event => assert_eq!(event, Event::Nothing),
                }
                for (i, load) in loads.iter().enumerate() {
                    if line.done >> i & 1 == 1 {
                        assert_eq!(given, Some(load.0));
                        left -= 1;
                    }
                }
            }
            assert_eq!(left, 0);
        }
    }
}
