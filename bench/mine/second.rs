//! Mines a role file with the second miner, as often as the proved program does, and must print the same checksum.
//!
//! With the name of a profile and a seed it writes the second miner's random role file of these to standard output. Role files are
//! made as before all requests, so that what is measured now and then is the same file.

#[path = "../revision.rs"]
mod revision;

#[path = "../turns.rs"]
mod turns;

use revision::REV;
use second_miner::makers::role_file;
use second_miner::mining::{mine, Lent};
use std::hint::black_box;
use std::io::Write;

/// Mines once, and adds up the length, the counts, the cost, the turn and a byte of the output: of what is written, and 0 behind it or if
/// nothing is.
fn sample(given: &[u8], turn: usize) -> u64 {
    let (cuts, file) = given[1..].split_at(given[0].into());
    let cuts = cuts.iter().copied().map(u64::from).collect();
    let said = match mine(black_box(file), &Lent { output: 524288, cuts, ..Lent::usual() }, REV) {
        Ok(mined) => {
            let byte = mined.bytes.get(turn).copied().unwrap_or(0);
            (mined.bytes.len() + mined.parts + mined.rules + mined.merges) as u64 + mined.cost + u64::from(byte)
        }
        Err(number) => number as u64,
    };
    said + turn as u64
}

fn main() {
    let words: Vec<String> = std::env::args().skip(1).collect();
    if let [profile, seed] = &words[..] {
        let file = role_file(profile, seed.parse().expect("a seed is a number"), 0);
        std::io::stdout().write_all(&file).expect("standard output can be written");
        return;
    }
    turns::print_checksum(sample);
}
