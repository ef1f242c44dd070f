//! Asks the same questions in plain Rust: the files are read as the plain judge reads them, and one triple is looked up.

#[path = "../judge/judge.rs"]
#[allow(dead_code)]
mod judge;

#[path = "../read/reader.rs"]
mod reader;

#[path = "../turns.rs"]
mod turns;

mod questions;

use judge::Reading;
use questions::{said, Given};
use reader::{read, RoleFile};
use std::hint::black_box;

/// 5 for a number beyond the sizes.
fn within(file: &RoleFile, [user, resource, operation]: [usize; 3]) -> Result<(), u8> {
    let there = user < file.users as usize && resource < file.resources as usize && operation < file.operations as usize;
    if there { Ok(()) } else { Err(5) }
}

fn ask_roles(role_file: &[u8], asked: [usize; 3]) -> Result<bool, u8> {
    let file = read(role_file)?;
    within(&file, asked)?;
    let [user, resource, operation] = asked;
    let roles = file.holders.iter().zip(&file.permissions);
    Ok(roles.into_iter().any(|(holders, permissions)| holders >> user & permissions[operation] >> resource & 1 == 1))
}

fn ask_rules(role_file: &[u8], rule_file: &[u8], asked: [usize; 3]) -> Result<bool, u8> {
    let file = read(role_file)?;
    let mut reading = Reading::beside(&file);
    reading.read(rule_file)?;
    within(&file, asked)?;
    let [user, resource, operation] = asked;
    Ok(reading.granted[user][operation] >> resource & 1 == 1)
}

fn main() {
    turns::print_checksum(|bytes, turn| {
        let given = Given::from(black_box(bytes));
        let asked = given.question(turn);
        let answer = match given.rules {
            None => ask_roles(given.roles, asked),
            Some(rules) => ask_rules(given.roles, rules, asked),
        };
        said(answer) + turn as u64
    });
}
