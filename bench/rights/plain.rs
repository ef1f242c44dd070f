//! Works with a standing summary of rights in plain Rust. It is measured against the proved program and must print the same checksum.

mod rights;

use rights::{edit, fill, read, RoleFile, WORDS};
use std::hint::black_box;
use std::io::Read;

/// Fills the table once.
fn filled(file: &RoleFile) -> [u64; WORDS] {
    let mut table = [0; WORDS];
    fill(*file, &mut table).expect("a file that was read is within the limits");
    table
}

fn fill_often(file: &RoleFile, turns: usize) -> u64 {
    let mut table = [0; WORDS];
    let mut sum = 0u64;
    for turn in 0..turns {
        fill(black_box(*file), &mut table).expect("a file that was read is within the limits");
        sum = sum.wrapping_add(table[turn % WORDS]);
    }
    sum
}

/// Every edit changes an assignment, or none does.
fn edit_often(mut file: RoleFile, changing: bool, turns: usize) -> u64 {
    let mut table = filled(&file);
    let mut sum = 0u64;
    for turn in 0..turns {
        let (role, user) = (turn % 32, turn % 64);
        let there = file.assigned[role] >> user & 1 == 1;
        // numbers beyond the sizes are refused
        file = edit(black_box(file), &mut table, there != changing, role, user).1;
        sum = sum.wrapping_add(table[16 * user + turn % 16]);
    }
    sum
}

fn look_often(file: &RoleFile, turns: usize) -> u64 {
    let table = filled(file);
    (0..turns).fold(0u64, |sum, turn| sum.wrapping_add(black_box(&table)[turn % WORDS]))
}

fn main() {
    let mut input = Vec::new();
    std::io::stdin().read_to_end(&mut input).expect("standard input can be read");
    let turns = u16::from_le_bytes([input[0], input[1]]) as usize;
    let Ok(file) = read(&input[3..]) else { panic!("the role file is legal") };
    let sum = match input[2] {
        0 => fill_often(&file, turns),
        1 => edit_often(file, true, turns),
        2 => edit_often(file, false, turns),
        _ => look_often(&file, turns),
    };
    println!("{sum}");
}
