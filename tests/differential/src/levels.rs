//! The command 29, by which a rule tells its level: rule files in which a rule tells another level, none, or
//! two, or tells it in another place.

use crate::shapes::commands;
use second_miner::random::Random;

/// The bytes of a 29.
const LEVEL: usize = 2;

/// A file for each, made of one that is right; none if it has no rule.
pub fn others(right: &[u8], random: &mut Random) -> Vec<Vec<u8>> {
    let places = commands(right);
    let told: Vec<usize> = places.iter().copied().filter(|&at| right.get(at) == Some(&0x29)).collect();
    if told.is_empty() {
        return vec![];
    }
    let at = *random.pick(&told);
    let elsewhere = *random.pick(&places);
    vec![
        another(right, at, random),
        [&right[..at], &right[at + LEVEL..]].concat(),
        [&right[..at + LEVEL], &[0x29, random.below(5) as u8], &right[at + LEVEL..]].concat(),
        [&right[..elsewhere], &[0x29, random.below(4) as u8], &right[elsewhere..]].concat(),
    ]
}

/// Another number, one of the four levels or not.
fn another(right: &[u8], at: usize, random: &mut Random) -> Vec<u8> {
    let mut file = right.to_vec();
    file[at + 1] = if random.chance(3, 4) { random.below(5) as u8 } else { random.below(256) as u8 };
    file
}
