//! Compares the proved library with the second miner, which is an implementation of 01 by another
//! author, on files made from seeds.
//!
//!     tests/differential/run SEED COUNT [FILE]
//!
//! Case n has the seed SEED + n: a role file of one of the second miner's profiles, the same file
//! damaged, each mined also with cuts, and beside each that is accepted up to fourteen rule files, beside
//! the damaged one also the rules of the other; each that is accepted is mined with its users renumbered
//! too, without cuts and with some; and a role file that both make from a seed and sizes. Where the two
//! disagree, the case's seed, the files in hexadecimal and both answers are printed, and the status is 1.
//!
//! Files at the limit of length, circles of every length, a cost of more than 32 bits, and loads at the
//! limits are tried on every run.
//!
//! With FILE nothing is compared: files of the same makers are written to FILE, for the program
//! that compares two processors (`files`).

mod case;
mod circles;
mod costs;
mod cuts;
mod denials;
mod files;
mod levels;
mod loads;
mod memory;
mod parts;
mod questions;
mod renumbering;
mod rights;
mod roles;
mod rules;
mod shapes;
mod tally;

use std::process::ExitCode;
use std::thread::{available_parallelism, scope};
use tally::Tally;

/// How many of the change requests have landed: the second miner is asked as of then.
pub const REV: second_miner::revision::Rev = 13;

/// Both sides must say the same.
pub fn same<T: PartialEq + std::fmt::Debug>(what: &str, ours: T, theirs: T) -> Result<(), String> {
    if ours == theirs {
        return Ok(());
    }
    Err(format!("{what}\nproved: {ours:?}\nsecond miner: {theirs:?}"))
}

/// SEED, COUNT and FILE.
fn words() -> Option<(u64, u64, Option<String>)> {
    let words: Vec<String> = std::env::args().skip(1).collect();
    let (numbers, file) = match &words[..] {
        [seed, count] => ([seed, count], None),
        [seed, count, file] => ([seed, count], Some(file.clone())),
        _ => return None,
    };
    let [seed, count] = numbers.map(|word| word.parse().ok());
    Some((seed?, count?, file))
}

/// Every so many of the seeds, from the first on.
fn compare_some(first: u64, end: u64, step: usize) -> Result<Tally, String> {
    let mut tally = Tally::default();
    (first..end).step_by(step).try_for_each(|seed| case::seeded(seed, &mut tally))?;
    Ok(tally)
}

/// The seeds are dealt out to the processors.
fn compare(seed: u64, count: u64) -> Result<Tally, String> {
    let mut all = Tally::default();
    case::limits(&mut all)?;
    circles::every_length(&mut all)?;
    costs::wide(&mut all)?;
    loads::limits(&mut all)?;
    let many = available_parallelism().map_or(1, usize::from);
    scope(|scope| {
        let deal = |k| scope.spawn(move || compare_some(seed + k, seed + count, many));
        let parts: Vec<_> = (0..many as u64).map(deal).collect();
        for part in parts {
            all.add(&part.join().expect("a comparison ends")?);
        }
        Ok(all)
    })
}

fn main() -> ExitCode {
    let Some((seed, count, file)) = words() else {
        eprintln!("usage: tests/differential/run SEED COUNT [FILE]");
        return ExitCode::from(2);
    };
    if let Some(file) = file {
        std::fs::write(&file, files::written(seed, count)).expect("the file can be written");
        return ExitCode::SUCCESS;
    }
    match compare(seed, count) {
        Ok(tally) => {
            println!("{tally}");
            ExitCode::SUCCESS
        }
        Err(disagreement) => {
            println!("{disagreement}");
            ExitCode::FAILURE
        }
    }
}
