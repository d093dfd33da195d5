//! The mains route: half-cycles through a receiver to both tables.

use super::table::{did, not_carried};
use super::{changed, damaged, fresh, one, Both};
use crate::inputs::{self, HEARD, RECORD, SHUTTER, SHUTTER_TABLE, TABLE};
use crate::lent::Lent;
use crate::reached;
use crate::rng::Rng;
use crate::tally::Tally;
use x10_model::bytes::{self, ANSWER, EVENT, MESSAGE, RECEIVER};
use x10_model::message::Refusal;
use x10_model::tables::Counts;

/// Half-cycles of the longest slice.
const MOST: usize = 2400;

struct Mains {
    tally: Tally,
    state: Lent,
    halves: Lent,
    both: Both,
    events: Lent,
    answers: Lent,
}

/// Bytes of both tables.
type Tables<'a> = (&'a [u8], &'a [u8]);

/// What is lent; receiver and tables as the case before left them where there are none here.
struct Case<'a> {
    state: Option<&'a [u8]>,
    halves: &'a [u8],
    tables: Option<Tables<'a>>,
    /// Bytes of room.
    events: usize,
    answers: usize,
}

impl<'a> Case<'a> {
    /// With just the room that the half-cycles take.
    fn exact(state: Option<&'a [u8]>, halves: &'a [u8], tables: Option<Tables<'a>>) -> Case<'a> {
        Case { state, halves, tables, events: EVENT * halves.len(), answers: ANSWER * halves.len() }
    }
}

const SITUATIONS: [&[&str]; 24] = [
    &reached::SLICES,
    &reached::WAITS,
    &reached::WITHIN,
    &reached::WHOLE,
    &reached::SHUTTER_WHOLE,
    &reached::FORMS,
    &reached::NOT_CARRIED,
    &reached::COUNTS,
    &reached::JOINED,
    &reached::LEFT,
    &reached::CALLED,
    &reached::CALLED_BY,
    &reached::REFERENCE_BROKEN,
    &reached::LIT_FORMS,
    &reached::LIT_MOVES,
    &reached::LIT_BROKEN,
    &reached::TYPE_0,
    &reached::SHUTTER_COUNTS,
    &reached::SHUTTER_LENGTHS,
    &reached::IMPOSSIBLE,
    &reached::TABLE_ORDERS,
    &reached::MAINS_ORDERS,
    &reached::EVENTS_ROOM,
    &reached::ANSWERS_ROOM,
];

pub fn mains_route(rng: &mut Rng, size: usize) -> Tally {
    let mut mains = Mains {
        tally: Tally::new("mains_route", &[0, 1, 3, 6, 9, 16, 17], &[0, 1, 2, 5, 10, 11], &SITUATIONS),
        state: Lent::new("state", 2 * RECEIVER, rng),
        halves: Lent::new("halves", MOST, rng),
        both: Both::new(rng),
        events: Lent::new("events", EVENT * MOST + 16, rng),
        answers: Lent::new("answers", ANSWER * MOST + 16, rng),
    };
    let (mut valid, mut shutters) = (vec![0; TABLE], vec![0; SHUTTER_TABLE]);
    for i in 0..6000 * size {
        inputs::table(rng, i % 4, true, &mut valid);
        inputs::shutters(rng, i / 4 % 4, true, &mut shutters);
        let valid = (&valid[..], &shutters[..]);
        mains.lines(rng, valid, i % 2 == 0);
        mains.receivers(rng);
        mains.wrong(rng, valid);
        if i % 16 == 0 {
            mains.every_house(rng);
        }
    }
    mains.tally
}

impl Mains {
    /// Lines from a fresh receiver, handed over in slices of any length; some of bursts for one house, or
    /// for a group of it.
    fn lines(&mut self, rng: &mut Rng, valid: Tables, bad: bool) {
        let mut line = Vec::new();
        if rng.one_in(3) {
            inputs::damaged(rng, 600, bad, &mut line);
        } else {
            inputs::line(rng, 600, bad, &mut line);
        }
        self.slices(rng, valid, &line, &[0, 1, 2, 2, 8, 100, 300]);
        for _ in 0..10 {
            inputs::presses(rng, bad, &mut line);
            self.slices(rng, valid, &line, &[line.len(), 300]);
        }
        if rng.one_in(4) {
            inputs::group_presses(rng, &mut line);
            self.slices(rng, valid, &line, &[line.len()]);
        }
    }

    /// Hands a line over, in slices of these lengths in any order. One that is refused for its room
    /// is handed over again; one that has room is not, so that the line ends whatever is refused.
    fn slices(&mut self, rng: &mut Rng, valid: Tables, line: &[u8], most: &[usize]) {
        self.case(&Case::exact(Some(&fresh()), &[], Some(valid)), rng);
        let mut rest = line;
        while !rest.is_empty() {
            let (halves, after) = rest.split_at(rng.pick(most).min(rest.len()));
            let mut case = Case::exact(None, halves, None);
            let any_room = rng.one_in(8);
            if any_room {
                case.events = inputs::length(rng, case.events, case.events + 16);
                case.answers = inputs::length(rng, case.answers, case.answers + 16);
            }
            if self.case(&case, rng) || !any_room {
                rest = after;
            }
        }
    }

    /// Receivers about to give a message, and any others.
    fn receivers(&mut self, rng: &mut Rng) {
        for _ in 0..150 {
            let state = inputs::receiver(rng);
            let halves = [rng.below(2) as u8, rng.below(3) as u8];
            self.case(&Case::exact(Some(&state), &halves[..1 + rng.below(2)], None), rng);
        }
    }

    /// Several things wrong at once.
    fn wrong(&mut self, rng: &mut Rng, valid: Tables) {
        for _ in 0..40 {
            let (table, shutters) = damaged(rng, valid.0, valid.1);
            let mut state = [0; 2 * RECEIVER];
            state[..RECEIVER].copy_from_slice(&inputs::receiver(rng));
            let len = if rng.one_in(4) { inputs::length(rng, RECEIVER, 2 * RECEIVER) } else { RECEIVER };
            let halves = [rng.below(2) as u8, inputs::edge(rng), rng.below(2) as u8];
            let tables = Some((&table[..], &shutters[..]));
            let mut case = Case::exact(Some(&state[..len]), &halves[..rng.below(4)], tables);
            case.events = inputs::length(rng, case.events, case.events + 16);
            case.answers = inputs::length(rng, case.answers, case.answers + 16);
            self.case(&case, rng);
        }
    }

    /// 256 dark lamps and 256 closed shutters, all of which one slice switches on and opens; and shutters
    /// that come back to where they stood.
    fn every_house(&mut self, rng: &mut Rng) {
        let (mut dark, mut closed) = (vec![0; TABLE], vec![0; SHUTTER_TABLE]);
        dark[..HEARD].chunks_mut(RECORD).for_each(|record| record[0] = 1);
        for shutter in closed.chunks_mut(SHUTTER) {
            shutter.copy_from_slice(&inputs::shutter(rng));
            shutter[1] = 0;
        }
        let mut line = Vec::new();
        inputs::every_house(rng, &mut line);
        self.case(&Case::exact(Some(&fresh()), &line, Some((&dark, &closed))), rng);
        inputs::there_and_back(rng, &mut line);
        self.case(&Case::exact(Some(&fresh()), &line, Some((&dark, &closed))), rng);
    }

    /// Whether the call was not refused.
    fn case(&mut self, case: &Case, rng: &mut Rng) -> bool {
        self.state.lend_or_keep(case.state, RECEIVER);
        self.both.lend(case.tables.map(|tables| tables.0), case.tables.map(|tables| tables.1));
        self.halves.lend_bytes(case.halves);
        self.events.lend_random(case.events, rng);
        self.answers.lend_random(case.answers, rng);
        let Mains { tally, state, halves, both: Both { table, shutters }, events, answers } = self;
        let rattle = x10::mains_route(
            state.rattle(),
            halves.rattle(),
            table.rattle(),
            shutters.rattle(),
            events.rattle(),
            answers.rattle(),
        );
        let rust = bytes::mains_route(
            state.rust(),
            halves.rust(),
            table.rust(),
            shutters.rust(),
            events.rust(),
            answers.rust(),
        );
        tally.reach(reached::length_of(&reached::SHUTTER_LENGTHS, shutters.before().len(), SHUTTER_TABLE));
        let lent = &mut [state, halves, table, shutters, events, answers];
        tally.case(rattle, rust, lent, || format!("{} half-cycles", case.halves.len()));
        match rust {
            Ok(counts) => self.singly(counts),
            Err(refusal) => self.refused(refusal, case),
        }
        if let Ok(_) | Err(Refusal::Short) = rust {
            let n = case.halves.len();
            self.tally.reach(reached::room(&reached::EVENTS_ROOM, case.events, EVENT * n));
            self.tally.reach(reached::room(&reached::ANSWERS_ROOM, case.answers, ANSWER * n));
        }
        rust.is_ok()
    }

    /// The model's calls for one half-cycle and for one message, one after the other, must say and
    /// leave the same. Counts what is reached on the way.
    fn singly(&mut self, counts: Counts) {
        let mut state: [u8; RECEIVER] = self.state.before().try_into().expect("a receiver");
        let mut table = self.both.table.before().to_vec();
        let mut shutters = self.both.shutters.before().to_vec();
        let mut slice = reached::Slice::default();
        let mut waits = reached::Waits::default();
        let mut same = true;
        let halves = self.halves.before();
        let events = self.events.after().chunks(EVENT);
        let answers = self.answers.after().chunks(ANSWER);
        for ((&half, event), answer) in halves.iter().zip(events).zip(answers) {
            let before = state;
            let single = one(&mut state, half);
            let applied = match single {
                [1, numbers @ ..] => apply_one(&mut self.tally, &mut table, &mut shutters, numbers),
                _ => Ok(Counts::default()),
            };
            same &= event == single && answer == bytes::packed(applied).to_le_bytes();
            self.tally.wrote(single[0]);
            let came = slice.next(before[1], &single, applied);
            let waited = waits.next(&before, single[0], &state);
            came.into_iter().chain(waited).for_each(|came| self.tally.reach(came));
        }
        self.tally.reach(reached::slice(halves.len()));
        slice.whole(counts).for_each(|whole| self.tally.reach(whole));
        let both = &self.both;
        same &= counts == changed([both.table.before(), &table], [both.shutters.before(), &shutters]);
        same &= table == both.table.after() && shutters == both.shutters.after();
        if !same || state != self.state.after() {
            self.tally.differ(&format!("the model by single calls\n    halves {halves:?}"));
        }
    }

    /// Counts why a call was refused, and what else was wrong with it.
    fn refused(&mut self, refusal: Refusal, case: &Case) {
        if refusal == Refusal::State {
            reached::impossible(self.state.before()).into_iter().for_each(|cause| self.tally.reach(cause));
        }
        self.both.refused(refusal, &mut self.tally);
        let (n, mut state) = (case.halves.len(), self.state.before().to_vec());
        let mut wrong = self.both.wrong();
        wrong.extend(bytes::receive(&mut state, &[], &mut []).err());
        wrong.extend((case.events < EVENT * n || case.answers < ANSWER * n).then_some(Refusal::Short));
        reached::orders(refusal, wrong, |order| self.tally.reach(order));
    }
}

/// One message that the receiver gave, by the model.
fn apply_one(
    tally: &mut Tally,
    table: &mut [u8],
    shutters: &mut [u8],
    numbers: [u8; MESSAGE],
) -> Result<Counts, Refusal> {
    let before = (table.to_vec(), shutters.to_vec());
    let applied = bytes::apply(table, shutters, numbers);
    match applied {
        Ok(counts) => did(tally, numbers, counts, [&before.0, table], [&before.1, shutters]),
        Err(Refusal::NotCarried) => not_carried(tally, numbers),
        Err(_) => {}
    }
    applied
}
