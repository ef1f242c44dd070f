//! Counts denials with the second miner, as often as the proved program does, and must print the same checksum.

#[path = "../revision.rs"]
mod revision;

#[path = "../turns.rs"]
mod turns;

mod given;

use given::Given;
use revision::REV;
use second_miner::requests::denials;
use std::hint::black_box;

fn main() {
    turns::print_checksum(|bytes, turn| {
        let Given { roles, rules, log, window } = Given::from(black_box(bytes));
        let answer = denials(roles, rules, log, window as u64, REV);
        given::said(answer.map(|denied| (denied.most, denied.start))) + turn as u64
    });
}
