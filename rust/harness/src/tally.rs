//! What a comparison met: cases, differences, and how often each answer, code and situation came.

use crate::lent::Lent;
use x10::Answer;
use x10_model::bytes::{self, Count};
use x10_model::message::Refusal;

/// Differences of one routine that are printed; the rest are counted.
const PRINTED: u64 = 5;

/// Columns of a printed line.
const WIDTH: usize = 110;

/// What was met of one routine.
pub struct Tally {
    pub routine: &'static str,
    pub cases: u64,
    pub differences: u64,
    /// The numbers that the routine can answer by, 0 among them.
    numbers: &'static [u8],
    answered: [u64; 256],
    /// Codes of the events, or of a line's bytes, that it can write; empty where it writes none.
    codes: &'static [u8],
    written: [u64; 256],
    /// Situations that the cases must reach, each with how often they did.
    reached: Vec<(&'static str, u64)>,
}

impl Tally {
    pub fn new(
        routine: &'static str,
        numbers: &'static [u8],
        codes: &'static [u8],
        situations: &[&[&'static str]],
    ) -> Tally {
        Tally {
            routine,
            cases: 0,
            differences: 0,
            numbers,
            answered: [0; 256],
            codes,
            written: [0; 256],
            reached: situations.concat().into_iter().map(|situation| (situation, 0)).collect(),
        }
    }

    /// Counts a case and says where the two sides differ, or a refusal changed something.
    pub fn case(
        &mut self,
        rattle: Answer,
        rust: Result<impl Count, Refusal>,
        lent: &mut [&mut Lent],
        told: impl FnOnce() -> String,
    ) {
        let rust = Answer::from_bits(bytes::packed(rust));
        self.cases += 1;
        self.answered[usize::from(rust.number())] += 1;
        let refused = rust.number() != 0;
        let kept = !refused || lent.iter().all(|lent| lent.unchanged());
        if rattle == rust && kept && lent.iter().all(|lent| lent.same()) {
            return;
        }
        let mut told = format!("{}\n    Rattle {rattle:?}\n    Rust   {rust:?}", told());
        for lent in lent {
            told += &lent.tell(refused);
        }
        self.differ(&told);
    }

    /// Counts a difference, and prints it where few have come.
    pub fn differ(&mut self, told: &str) {
        self.differences += 1;
        if self.differences <= PRINTED {
            println!("DIFFERENCE {} case {}: {told}", self.routine, self.cases);
        }
    }

    /// Counts a code that was written.
    pub fn wrote(&mut self, code: u8) {
        self.written[usize::from(code)] += 1;
    }

    /// Counts a situation, one of those that `new` was given.
    pub fn reach(&mut self, situation: &str) {
        let at = self.reached.iter().position(|(known, _)| *known == situation);
        self.reached[at.expect("a situation that is listed")].1 += 1;
    }

    /// Numbers, codes and situations that were not met though they can be.
    pub fn missed(&self) -> Vec<String> {
        let missed = |met: &[u64; 256], all: &[u8], what: &str| -> Vec<String> {
            let missed = all.iter().filter(|&&number| met[usize::from(number)] == 0);
            missed.map(|number| format!("{} {what} {number}", self.routine)).collect()
        };
        let mut all = missed(&self.answered, self.numbers, "answer");
        all.extend(missed(&self.written, self.codes, "code"));
        let unreached = self.reached.iter().filter(|(_, times)| *times == 0);
        all.extend(unreached.map(|(situation, _)| format!("{}: {situation}", self.routine)));
        all
    }

    /// How often each number, each code and each situation was met.
    pub fn told(&self) -> String {
        let counts = |met: &[u64; 256]| -> Vec<String> {
            let met = met.iter().enumerate().filter(|(_, &times)| times > 0);
            met.map(|(number, times)| format!("{number}: {times}")).collect()
        };
        let mut told = format!("{}: {} cases", self.routine, self.cases);
        told += &lines("answers", &counts(&self.answered));
        told += &lines("codes", &counts(&self.written));
        let reached = self.reached.iter().map(|(situation, times)| format!("{situation}: {times}"));
        told + &lines("reached", &reached.collect::<Vec<_>>())
    }
}

/// A heading and items, on as many lines as they take; none for no items.
fn lines(heading: &str, items: &[String]) -> String {
    let mut text = String::new();
    let mut line = String::new();
    for (i, item) in items.iter().enumerate() {
        if i == 0 || line.len() + item.len() + 2 > WIDTH {
            text += &line;
            line = format!("\n  {:8}{item}", if i == 0 { heading } else { "" });
        } else {
            line += &format!(", {item}");
        }
    }
    text + &line
}
