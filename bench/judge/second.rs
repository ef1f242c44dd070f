//! Judges a rule file beside a role file with the second miner, as often as the proved program does, and must print the same checksum.

#[path = "../revision.rs"]
mod revision;

#[path = "../turns.rs"]
mod turns;

use revision::REV;
use second_miner::questions::{judge, Verdict};
use std::hint::black_box;

/// Judges once, and adds up the verdict's number and values, and the turn.
fn sample(role_file: &[u8], rule_file: &[u8], turn: usize) -> u64 {
    let said = match judge(black_box(role_file), black_box(rule_file), REV) {
        Ok(Verdict::Sound) => 0,
        Ok(Verdict::Differ { user, resource, operation, .. }) => 1 + user + resource + operation,
        Ok(Verdict::Rule(rule)) => 2 + rule,
        Ok(Verdict::Part(part)) => 3 + part,
        Err(number) => 4 + number as usize,
    };
    (said + turn) as u64
}

fn main() {
    turns::print_checksum(|given, turn| {
        let length = u16::from_le_bytes([given[0], given[1]]) as usize;
        let (role_file, rule_file) = given[2..].split_at(length);
        sample(role_file, rule_file, turn)
    });
}
