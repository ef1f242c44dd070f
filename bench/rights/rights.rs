//! The standing summary of rights as one writes it in plain Rust: the same work as crates/right_edits.

#[path = "../read/reader.rs"]
mod reader;

pub use reader::{read, RoleFile};

pub const WORDS: usize = 1024;

/// The holders of each role, from the assignments and the seniors.
fn holders(file: &RoleFile) -> [u64; 32] {
    let mut holders = file.assigned;
    for role in 0..file.roles as usize {
        for senior in 0..file.roles as usize {
            if file.seniors[role] >> senior & 1 == 1 {
                holders[role] |= file.assigned[senior];
            }
        }
    }
    holders
}

/// The set of the numbers below n.
fn below(n: u8) -> u64 {
    if n < 64 {
        (1 << n) - 1
    } else {
        !0
    }
}

/// The words of a user.
fn refresh(file: &RoleFile, holders: &[u64; 32], user: usize, words: &mut [u64]) {
    let mut held = 0u32;
    if user < file.users as usize {
        for role in 0..file.roles as usize {
            held |= ((holders[role] >> user & 1) as u32) << role;
        }
    }
    for (operation, word) in words.iter_mut().enumerate() {
        let mut resources = 0;
        let mut rest = held;
        while rest != 0 && operation < file.operations as usize {
            resources |= file.permissions[rest.trailing_zeros() as usize][operation];
            rest &= rest - 1;
        }
        *word = resources & below(file.resources);
    }
}

fn refused(file: &RoleFile, table: &[u64]) -> Result<(), u8> {
    if table.len() != WORDS {
        return Err(17);
    }
    if file.users > 64 || file.resources > 64 || file.operations > 16 || file.roles > 32 {
        return Err(5);
    }
    Ok(())
}

/// The record goes by value, as in the proved call.
pub fn fill(file: RoleFile, table: &mut [u64]) -> Result<(), u8> {
    refused(&file, table)?;
    let holders = holders(&file);
    for (user, words) in table.chunks_exact_mut(16).enumerate() {
        refresh(&file, &holders, user, words);
    }
    Ok(())
}

/// The record goes and comes by value, as in the proved call; with the number of the refusal, or 0.
pub fn edit(mut file: RoleFile, table: &mut [u64], gives: bool, role: usize, user: usize) -> (u8, RoleFile) {
    if let Err(number) = refused(&file, table) {
        return (number, file);
    }
    if role >= file.roles as usize || user >= file.users as usize {
        return (5, file);
    }
    if (file.assigned[role] >> user & 1 == 1) != gives {
        file.assigned[role] ^= 1 << user;
        file.holders = holders(&file);
        refresh(&file, &file.holders, user, &mut table[16 * user..16 * user + 16]);
    }
    (0, file)
}
