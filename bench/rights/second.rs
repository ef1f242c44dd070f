//! Works with a standing summary of rights with the second miner, as often as the proved program does, and must print the same checksum.

#[path = "../revision.rs"]
mod revision;

use revision::REV;
use second_miner::requests::{edit_summary, fill_summary};
use second_miner::role_file::{read_role_file, RolePolicy};
use std::io::Read;

/// Fills the table once.
fn filled(policy: &RolePolicy) -> Vec<u64> {
    let mut table = vec![0; 1024];
    fill_summary(policy, &mut table).expect("a file that was read is within the limits");
    table
}

fn fill_often(policy: &RolePolicy, turns: usize) -> u64 {
    (0..turns).fold(0u64, |sum, turn| sum.wrapping_add(filled(policy)[turn % 1024]))
}

fn edit_often(mut policy: RolePolicy, changing: bool, turns: usize) -> u64 {
    let mut table = filled(&policy);
    let mut sum = 0u64;
    for turn in 0..turns {
        let (role, user) = (turn % 32, turn % 64);
        let there = policy.assigned.contains(&(role, user));
        // numbers beyond the sizes are refused
        let _ = edit_summary(&mut policy, &mut table, there != changing, role as u64, user as u64);
        sum = sum.wrapping_add(table[16 * user + turn % 16]);
    }
    sum
}

fn look_often(policy: &RolePolicy, turns: usize) -> u64 {
    let table = filled(policy);
    (0..turns).fold(0u64, |sum, turn| sum.wrapping_add(table[turn % 1024]))
}

fn main() {
    let mut input = Vec::new();
    std::io::stdin().read_to_end(&mut input).expect("standard input can be read");
    let turns = u16::from_le_bytes([input[0], input[1]]) as usize;
    let policy = read_role_file(&input[3..], REV).expect("the role file is legal");
    let sum = match input[2] {
        0 => fill_often(&policy, turns),
        1 => edit_often(policy, true, turns),
        2 => edit_often(policy, false, turns),
        _ => look_often(&policy, turns),
    };
    println!("{sum}");
}
