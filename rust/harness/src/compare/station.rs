//! A single station: made empty, loaded, asked what it sends, and told what the line had.

use crate::inputs::{self, EMPTY_STATION};
use crate::lent::Lent;
use crate::reached;
use crate::rng::Rng;
use crate::tally::Tally;
use x10_model::bytes::{self, MESSAGE, STATION};
use x10_model::message::Refusal;

/// Bytes of the longest slice that is lent for a station.
const MOST: usize = 2 * STATION;

/// Half-cycles of the longest life, for a line that others do not let go.
const LONGEST_LIFE: usize = 3000;

struct Stations {
    station: Lent,
    empty: Tally,
    load: Tally,
    sends: Tally,
    half_cycle: Tally,
}

pub fn stations(rng: &mut Rng, size: usize) -> Vec<Tally> {
    let load: [&[&str]; 5] =
        [&reached::LENGTHS, &reached::KINDS, &reached::LOADED, &reached::LOAD_REFUSALS, &reached::NO_STATION];
    let sends: [&[&str]; 3] = [&reached::LENGTHS, &reached::SENDING, &reached::NO_STATION];
    let half_cycle: [&[&str]; 6] = [
        &reached::LENGTHS,
        &reached::HALF_CYCLES,
        &reached::HALF_CYCLE_REFUSALS,
        &reached::BAD_DRAWS,
        &reached::NO_STATION,
        &reached::LIVES,
    ];
    let mut stations = Stations {
        station: Lent::new("station", MOST, rng),
        empty: Tally::new("station_empty", &[0, 6], &[], &[&reached::LENGTHS]),
        load: Tally::new("station_load", &[0, 2, 6, 7, 8], &[], &load),
        sends: Tally::new("station_sends", &[0, 6], &[], &sends),
        half_cycle: Tally::new("station_half_cycle", &[0, 5, 6, 7, 15], &[], &half_cycle),
    };
    for _ in 0..100_000 * size {
        stations.empty(rng);
    }
    for _ in 0..1_000_000 * size {
        stations.any(rng);
    }
    stations.every_byte();
    for i in 0..10_000 * size {
        stations.life(rng, i % 4);
    }
    let Stations { empty, load, sends, half_cycle, .. } = stations;
    vec![empty, load, sends, half_cycle]
}

impl Stations {
    fn empty(&mut self, rng: &mut Rng) {
        let len = inputs::length(rng, STATION, MOST);
        self.station.lend_random(len, rng);
        let rattle = x10::station_empty(self.station.rattle());
        let rust = bytes::station_empty(self.station.rust());
        self.empty.reach(reached::length(len, STATION));
        self.empty.case(rattle, rust, &mut [&mut self.station], String::new);
    }

    /// A station of any kind, or bytes that are none, for each of the three routines.
    fn any(&mut self, rng: &mut Rng) {
        let mut from = [0; MOST];
        rng.fill(&mut from);
        from[..STATION].copy_from_slice(&inputs::station(rng));
        let len = if rng.one_in(8) { inputs::length(rng, STATION, MOST) } else { STATION };
        let from = &from[..len];
        self.load(Some(from), inputs::numbers(rng), inputs::draw_or_not(rng));
        self.sends(Some(from));
        let heard = if rng.one_in(8) { inputs::edge(rng) } else { rng.below(2) as u8 };
        self.half_cycle(Some(from), heard, inputs::draw_or_not(rng));
    }

    /// Every byte at every place of stations of each kind.
    fn every_byte(&mut self) {
        let bases: [[u8; STATION]; 8] = [
            EMPTY_STATION,
            [1, 3, 4, 0, 0, 9, 5, 0],
            [1, 3, 4, 0, 0, 9, 9, 43],
            [2, 3, 4, 0, 0, 8, 8, 20],
            [2, 3, 4, 0, 0, 10, 10, 0],
            [3, 3, 4, 5, 6, 10, 0, 0],
            [3, 3, 4, 5, 6, 8, 8, 62],
            [3, 3, 4, 5, 6, 9, 9, 123],
        ];
        for base in bases {
            for place in 0..STATION {
                for byte in 0..=255 {
                    let mut from = base;
                    from[place] = byte;
                    self.load(Some(&from), [1, 0, 0, 0, 0], 9);
                    self.sends(Some(&from));
                    self.half_cycle(Some(&from), 0, 9);
                    self.half_cycle(Some(&from), 1, 9);
                }
            }
            for byte in 0..=255 {
                self.load(Some(&base), [1, 0, 0, 0, 0], byte);
                for heard in 0..=2 {
                    self.half_cycle(Some(&base), heard, byte);
                }
                self.half_cycle(Some(&base), byte, 9);
            }
        }
    }

    /// A station from load to DONE, call by call, on a line with so many others, by the model. Some lines
    /// also have noise, and calls that are refused.
    fn life(&mut self, rng: &mut Rng, others: usize) {
        let mut others: Vec<_> = (0..others).map(|_| loaded(rng)).collect();
        let noise = rng.one_in(3);
        let numbers = inputs::message(rng);
        let mut burst = [0; 124];
        let len = bytes::burst(numbers, &mut burst).expect("a message");
        self.load(Some(&EMPTY_STATION), numbers, inputs::draw(rng));
        let (mut sent, mut story) = (Vec::new(), reached::Life::default());
        for _ in 0..LONGEST_LIFE {
            let sends = u8::from(self.sends(None));
            let mut line = others.iter().fold(sends, |line, other| line | sent_by(other));
            if noise && rng.one_in(30) {
                line = 1;
            }
            if noise && rng.one_in(30) {
                // Refused by 5, 7 or, where it sends 1, 15; the half-cycle itself follows.
                let (heard, draw) =
                    rng.pick(&[(2, 8), (line, 7), (line, 11), (1 - sends, 255), (2 - 2 * sends, 8)]);
                self.half_cycle(None, heard, draw);
            }
            for other in &mut others {
                if bytes::station_half_cycle(other, line, inputs::draw(rng)) == Ok(1) && rng.one_in(2) {
                    *other = loaded(rng);
                }
            }
            sent.push(sends);
            let done = self.half_cycle(None, line, inputs::draw(rng));
            story.next(self.station.before(), sends == 1, line);
            if done {
                break;
            }
        }
        if self.station.after() != EMPTY_STATION {
            return;
        }
        if !sent.ends_with(&burst[..len]) {
            self.half_cycle.differ(&format!("message {numbers:?} is done, its burst was not sent"));
        }
        self.half_cycle.reach(story.end());
        for heard in [0, 1] {
            self.sends(None);
            self.half_cycle(None, heard, inputs::draw(rng));
        }
    }

    /// A load of a station of these bytes, or of the one that the case before left.
    fn load(&mut self, from: Option<&[u8]>, numbers: [u8; MESSAGE], draw: u8) {
        let Stations { station, load: tally, .. } = self;
        station.lend_or_keep(from, STATION);
        let rattle = x10::station_load(station.rattle(), numbers.into(), draw);
        let rust = bytes::station_load(station.rust(), numbers, draw);
        let before = station.before();
        tally.reach(reached::length(before.len(), STATION));
        match rust {
            Ok(_) => {
                tally.reach(reached::kind(numbers[0]));
                tally.reach(reached::loaded(numbers, station.after()));
            }
            Err(given) => {
                let wrong = [
                    bytes::message(numbers).err(),
                    bytes::station_sends(before).err(),
                    reached::bad_draw(draw).then_some(Refusal::Draw),
                    reached::holds(before).then_some(Refusal::Busy),
                ];
                reached::refusals(given, &wrong, |refusal| tally.reach(refusal));
                no_station(tally, given, before);
            }
        }
        tally.case(rattle, rust, &mut [station], || format!("message {numbers:?}, draw {draw}"));
    }

    /// Whether a station of these bytes sends 1, or the one that the case before left.
    fn sends(&mut self, from: Option<&[u8]>) -> bool {
        let Stations { station, sends: tally, .. } = self;
        station.lend_or_keep(from, STATION);
        let rattle = x10::station_sends(station.rattle());
        let rust = bytes::station_sends(station.rust());
        let before = station.before();
        tally.reach(reached::length(before.len(), STATION));
        match rust {
            Ok(half) => tally.reach(reached::sending(before, half)),
            Err(given) => no_station(tally, given, before),
        }
        tally.case(rattle, rust, &mut [station], String::new);
        rust == Ok(1)
    }

    /// A half-cycle of a station of these bytes, or of the one that the case before left: whether it is
    /// DONE.
    fn half_cycle(&mut self, from: Option<&[u8]>, heard: u8, draw: u8) -> bool {
        let Stations { station, half_cycle: tally, .. } = self;
        station.lend_or_keep(from, STATION);
        let rattle = x10::station_half_cycle(station.rattle(), heard, draw);
        let rust = bytes::station_half_cycle(station.rust(), heard, draw);
        let before = station.before();
        tally.reach(reached::length(before.len(), STATION));
        let sends = bytes::station_sends(before);
        match rust {
            Ok(done) => tally.reach(reached::half_cycle(before, sends == Ok(1), heard, done == 1)),
            Err(given) => {
                let wrong = [
                    (heard > 1).then_some(Refusal::Half),
                    sends.err(),
                    reached::bad_draw(draw).then_some(Refusal::Draw),
                    (sends == Ok(1) && heard == 0).then_some(Refusal::Fault),
                ];
                reached::refusals(given, &wrong, |refusal| tally.reach(refusal));
                no_station(tally, given, before);
                if given == Refusal::Draw {
                    tally.reach(reached::draw_used(before, sends == Ok(1), heard));
                }
            }
        }
        tally.case(rattle, rust, &mut [station], || format!("heard {heard}, draw {draw}"));
        rust == Ok(1)
    }
}

/// Another sender, just loaded.
fn loaded(rng: &mut Rng) -> [u8; STATION] {
    let mut station = EMPTY_STATION;
    bytes::station_load(&mut station, inputs::message(rng), inputs::draw(rng)).expect("an empty station");
    station
}

/// What another sender puts on the line.
fn sent_by(other: &[u8]) -> u8 {
    bytes::station_sends(other).expect("a station") as u8
}

/// Counts why bytes are refused as no station, where there is only one cause.
fn no_station(tally: &mut Tally, given: Refusal, bytes: &[u8]) {
    if given == Refusal::State {
        reached::no_station(bytes).into_iter().for_each(|cause| tally.reach(cause));
    }
}
