//! Reads a role file with the second miner, as often as the proved program does, and must print the same checksum.
//!
//! The second miner keeps sets where the proved reader has words, so that the few words that a turn adds up are worked out from these.

#[path = "../revision.rs"]
mod revision;

#[path = "../turns.rs"]
mod turns;

use revision::REV;
use second_miner::role_file::{read_role_file, RolePolicy, Value};
use std::hint::black_box;

fn mask(numbers: impl Iterator<Item = usize>) -> u64 {
    numbers.fold(0, |set, number| set | 1 << number)
}

/// The value at this place of the record: 64 for each attribute, 6 attributes for each side; 0 where none was given.
fn value(policy: &RolePolicy, place: usize) -> u64 {
    let side = if place < 384 { &policy.users } else { &policy.resources };
    let of_attribute = side.values.get(place / 64 % 6);
    match of_attribute.and_then(|values| values.get(place % 64)) {
        Some(&Some(Value::Single(number))) => number as u64,
        Some(&Some(Value::Set(set))) => set,
        _ => 0,
    }
}

fn permissions(policy: &RolePolicy, role: usize, operation: usize) -> u64 {
    mask((0..64).filter(|&resource| policy.permitted.contains(&(role, resource, operation))))
}

/// The users who are assigned to one of the roles.
fn assigned(policy: &RolePolicy, roles: u64) -> u64 {
    let to_one = policy.assigned.iter().filter(|&&(role, _)| roles >> role & 1 == 1);
    mask(to_one.map(|&(_, user)| user))
}

/// Reads once, and adds up some words of the record, other words each turn.
fn sample(bytes: &[u8], turn: usize) -> u64 {
    match read_role_file(black_box(bytes), REV) {
        Ok(policy) => {
            let role = turn % 32;
            let seniors = mask(policy.seniors(role).into_iter());
            value(&policy, turn % 768)
                .wrapping_add(permissions(&policy, turn % 32, turn % 512 / 32))
                .wrapping_add(seniors)
                .wrapping_add(assigned(&policy, seniors | 1 << role))
        }
        Err(refusal) => refusal as u64,
    }
}

fn main() {
    turns::print_checksum(sample);
}
