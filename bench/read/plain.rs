//! Reads a role file in plain Rust. It is measured against the proved reader and must print the same checksum.

mod reader;

use reader::read;
use std::hint::black_box;
use std::io::Read;

/// Reads once, and adds up some words of the record, other words each turn.
fn sample(bytes: &[u8], turn: usize) -> u64 {
    match read(black_box(bytes)) {
        Ok(file) => file.values.as_flattened().as_flattened()[turn % 768]
            .wrapping_add(file.permissions[turn % 32][turn % 512 / 32])
            .wrapping_add(file.seniors[turn % 32])
            .wrapping_add(file.holders[turn % 32]),
        Err(refusal) => refusal as u64,
    }
}

fn main() {
    let mut input = Vec::new();
    std::io::stdin()
        .read_to_end(&mut input)
        .expect("standard input can be read");
    let turns = u16::from_le_bytes([input[0], input[1]]) as usize;
    let sum = (0..turns).fold(0u64, |sum, turn| sum.wrapping_add(sample(&input[2..], turn)));
    println!("{sum}");
}
