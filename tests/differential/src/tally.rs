//! What was compared, by what came of it: a run that never met a refusal has said nothing of it.

use std::fmt;

#[derive(Default)]
pub struct Tally {
    pub role_files: usize,
    pub rule_files: usize,
    pub minings: usize,
    /// Lists of cuts that a file was mined with.
    pub cuts: usize,
    /// Of these, lists whose rules were checked by brute force.
    pub brute: usize,
    pub questions: usize,
    pub shown: usize,
    pub circles: usize,
    pub loads: usize,
    pub edits: usize,
    pub denials: usize,
    pub renumbered: usize,
    /// By number: how often the library accepted (0) or refused (1 to 21).
    answers: [usize; 22],
    verdicts: [usize; 4],
}

impl Tally {
    /// Notes an answer of the library, and shows a refusal by its number.
    pub fn told<T>(&mut self, answer: Result<T, fichtengarn::Refusal>) -> Result<T, usize> {
        let answer = answer.map_err(fichtengarn::Refusal::number);
        self.answers[answer.as_ref().err().copied().unwrap_or(0)] += 1;
        answer
    }

    pub fn judged(&mut self, verdict: usize) {
        self.verdicts[verdict] += 1;
    }

    /// Adds what was compared beside.
    pub fn add(&mut self, other: &Tally) {
        self.role_files += other.role_files;
        self.rule_files += other.rule_files;
        self.minings += other.minings;
        self.cuts += other.cuts;
        self.brute += other.brute;
        self.questions += other.questions;
        self.shown += other.shown;
        self.circles += other.circles;
        self.loads += other.loads;
        self.edits += other.edits;
        self.denials += other.denials;
        self.renumbered += other.renumbered;
        self.answers.iter_mut().zip(other.answers).for_each(|(sum, often)| *sum += often);
        self.verdicts.iter_mut().zip(other.verdicts).for_each(|(sum, often)| *sum += often);
    }
}

/// `number: how often`, for each number that was met.
fn met(numbers: &[usize]) -> String {
    let met = numbers.iter().enumerate().filter(|(_, &often)| often != 0);
    met.map(|(number, often)| format!("{number}: {often}")).collect::<Vec<_>>().join(", ")
}

impl fmt::Display for Tally {
    fn fmt(&self, f: &mut fmt::Formatter) -> fmt::Result {
        writeln!(
            f,
            "no disagreement on {} role files, {} rule files, {} minings, {} lists of cuts ({} by brute force), {} questions, {} rules shown, {} circles, {} loads, {} edits, {} logs, {} renumbered files",
            self.role_files,
            self.rule_files,
            self.minings,
            self.cuts,
            self.brute,
            self.questions,
            self.shown,
            self.circles,
            self.loads,
            self.edits,
            self.denials,
            self.renumbered
        )?;
        writeln!(f, "answers by number {}", met(&self.answers))?;
        write!(f, "verdicts by number {}", met(&self.verdicts))
    }
}
