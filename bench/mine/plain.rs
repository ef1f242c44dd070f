//! Mines a role file in plain Rust, as often as the proved program does, and must print the same checksum.

#[path = "../read/reader.rs"]
mod reader;

mod miner;

use miner::{mine, Weights};
use std::hint::black_box;
use std::io::Read;

/// What the proved program passes too.
const ONES: Weights = Weights { sides: [1; 2], operations: 1, atoms: 1 };

/// Mines once, and adds up the length, the counts, the cost, the turn and a byte of the output.
fn sample(file: &[u8], cuts: &[u8], out: &mut [u8], turn: usize) -> u64 {
    let said = match mine(black_box(file), black_box(cuts), black_box(ONES), black_box(out)) {
        Ok(mined) => (mined.length + mined.parts + mined.rules + mined.merges) as u64 + mined.cost,
        Err(number) => number.into(),
    };
    said + turn as u64 + u64::from(out[turn])
}

fn main() {
    let mut input = Vec::new();
    std::io::stdin()
        .read_to_end(&mut input)
        .expect("standard input can be read");
    let turns = u16::from_le_bytes([input[0], input[1]]) as usize;
    let (cuts, file) = input[3..].split_at(input[2].into());
    let mut out = vec![0; 524288];
    let sum = (0..turns).fold(0u64, |sum, turn| sum.wrapping_add(sample(file, cuts, &mut out, turn)));
    println!("{sum}");
}
