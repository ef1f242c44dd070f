//! Judges a rule file beside a role file in plain Rust. It is measured against the proved judge and must print the same checksum.

#[path = "../read/reader.rs"]
mod reader;

mod judge;

use judge::{judge, Judgement};
use std::hint::black_box;
use std::io::Read;

/// Judges once, and adds up the verdict's number and values, and the turn.
fn sample(role_file: &[u8], rule_file: &[u8], turn: usize) -> u64 {
    let said = match judge(black_box(role_file), black_box(rule_file)) {
        Judgement::Sound => 0,
        Judgement::Differ(user, resource, operation) => 1 + user + resource + operation,
        Judgement::StrayRule(rule) => 2 + rule,
        Judgement::StrayPart(part) => 3 + part,
        Judgement::Refused(number) => 4 + number as usize,
    };
    (said + turn) as u64
}

fn main() {
    let mut input = Vec::new();
    std::io::stdin()
        .read_to_end(&mut input)
        .expect("standard input can be read");
    let turns = u16::from_le_bytes([input[0], input[1]]) as usize;
    let length = u16::from_le_bytes([input[2], input[3]]) as usize;
    let (role_file, rule_file) = input[4..].split_at(length);
    let sum = (0..turns).fold(0u64, |sum, turn| sum.wrapping_add(sample(role_file, rule_file, turn)));
    println!("{sum}");
}
