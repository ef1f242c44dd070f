//! Asks questions of the proved library, through the wrapper for Rust.

#[path = "../turns.rs"]
mod turns;

mod questions;

use fichtengarn::{ask_roles, ask_rules, Triple};
use questions::{said, Given};
use std::hint::black_box;

fn main() {
    turns::print_checksum(|bytes, turn| {
        let given = Given::from(black_box(bytes));
        let [user, resource, operation] = given.question(turn);
        let asked = Triple { user, resource, operation };
        let answer = match given.rules {
            None => ask_roles(given.roles, asked),
            Some(rules) => ask_rules(given.roles, rules, asked),
        };
        said(answer.map_err(|refusal| refusal.number() as u64)) + turn as u64
    });
}
