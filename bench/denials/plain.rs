//! Counts denials in a usage log in plain Rust: both files are read as the plain judge reads them, and
//! the count is carried along from record to record. It is measured against the proved count and must
//! print the same checksum.

#[path = "../judge/judge.rs"]
#[allow(dead_code)]
mod judge;

#[path = "../read/reader.rs"]
mod reader;

#[path = "../turns.rs"]
mod turns;

mod given;

use given::Given;
use judge::{Grid, Reading};
use reader::{read, RoleFile};
use std::hint::black_box;

/// How many bytes a record has.
const BYTES: usize = 3;

fn denied(granted: &Grid, log: &[u8], record: usize) -> usize {
    let [user, resource, operation] = [0, 1, 2].map(|n| log[BYTES * record + n] as usize);
    1 - (granted[user][operation] >> resource & 1) as usize
}

/// The most denials in a window, and its start.
fn worst(file: &RoleFile, granted: &Grid, log: &[u8], window: usize) -> Result<(usize, usize), u8> {
    let (mut count, mut most, mut start) = (0, 0, 0);
    for (i, record) in log.chunks_exact(BYTES).enumerate() {
        if record[0] >= file.users || record[1] >= file.resources || record[2] >= file.operations {
            return Err(5);
        }
        count += denied(granted, log, i);
        if i >= window {
            count -= denied(granted, log, i - window);
        }
        if count > most {
            most = count;
            start = (i + 1).saturating_sub(window);
        }
    }
    Ok((most, start))
}

fn denials(
    role_file: &[u8],
    rule_file: &[u8],
    log: &[u8],
    window: usize,
) -> Result<(usize, usize), u8> {
    let file = read(role_file)?;
    let mut reading = Reading::beside(&file);
    reading.read(rule_file)?;
    if !(1..=64).contains(&window) {
        return Err(19);
    }
    if log.len() % BYTES != 0 {
        return Err(20);
    }
    worst(&file, &reading.granted, log, window)
}

fn main() {
    turns::print_checksum(|bytes, turn| {
        let Given { roles, rules, log, window } = Given::from(black_box(bytes));
        given::said(denials(roles, rules, log, window)) + turn as u64
    });
}
