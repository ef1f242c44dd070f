//! The start of the second miner's programs: standard input has two bytes, low byte first, that say how many turns, and then what is
//! given. The plain programs keep a start of their own: with this one the plain reader took about a tenth longer on one file, by the
//! same instructions in other places, and what the proved programs are compared with is not to become slower.

use std::io::Read;

/// Prints the sum of what each turn makes of what is given.
pub fn print_checksum(sample: impl Fn(&[u8], usize) -> u64) {
    let mut input = Vec::new();
    std::io::stdin().read_to_end(&mut input).expect("standard input can be read");
    let turns = u16::from_le_bytes([input[0], input[1]]) as usize;
    let sum = (0..turns).fold(0u64, |sum, turn| sum.wrapping_add(sample(&input[2..], turn)));
    println!("{sum}");
}
