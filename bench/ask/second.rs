//! Asks the same questions of the second miner.

#[path = "../revision.rs"]
mod revision;

#[path = "../turns.rs"]
mod turns;

mod questions;

use questions::{said, Given};
use revision::REV;
use second_miner::questions::{ask_roles, ask_rules, Question};
use std::hint::black_box;

fn main() {
    turns::print_checksum(|bytes, turn| {
        let given = Given::from(black_box(bytes));
        let [user, resource, operation] = given.question(turn).map(|number| number as u64);
        let asked = Question { user, resource, operation, period: 0 };
        let answer = match given.rules {
            None => ask_roles(given.roles, asked, REV),
            Some(rules) => ask_rules(given.roles, rules, asked, REV),
        };
        said(answer) + turn as u64
    });
}
