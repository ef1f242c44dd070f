//! The command 20, which opens a rule file and says for which shape of role file it was made: rule files
//! with another 20, with none, and with two.

use crate::REV;
use second_miner::{random::Random, rule_file::operand_widths};

/// The bytes of a 20.
const OPENING: usize = 7;

/// A file for each, made of one that is right.
pub fn others(right: &[u8], random: &mut Random) -> Vec<Vec<u8>> {
    vec![unlike(right, random), cut(right, random), without(right, random), repeated(right, random)]
}

/// One operand is another, whatever stands behind them.
fn unlike(right: &[u8], random: &mut Random) -> Vec<u8> {
    let mut file = right[..random.between(OPENING, right.len())].to_vec();
    let place = random.between(1, OPENING - 1);
    file[place] = match random.below(3) {
        0 => file[place].wrapping_add(1),
        1 => file[place].wrapping_sub(1),
        _ => random.below(256) as u8,
    };
    file.extend((0..random.below(3)).map(|_| random.below(64) as u8));
    file
}

/// Cut off within the 20 or directly behind it.
fn cut(right: &[u8], random: &mut Random) -> Vec<u8> {
    right[..random.below(OPENING + 1)].to_vec()
}

/// The 20 is left out, or any byte stands in its place.
fn without(right: &[u8], random: &mut Random) -> Vec<u8> {
    if random.chance(1, 2) {
        return right[OPENING..].to_vec();
    }
    let mut file = right.to_vec();
    file[0] = random.between(0x1E, 0x31) as u8;
    file
}

/// A second one in front of some command behind the first, or behind the end: the same again, one with
/// another operand, or one that is cut off with the file.
fn repeated(right: &[u8], random: &mut Random) -> Vec<u8> {
    let at = *random.pick(&commands(right));
    let mut second = right[..OPENING].to_vec();
    let place = random.between(1, OPENING - 1);
    second[place] = second[place].wrapping_add(random.below(2) as u8);
    if random.chance(1, 4) {
        return [&right[..at], &second[..place]].concat();
    }
    [&right[..at], &second, &right[at..]].concat()
}

/// Where the commands behind the 20 begin, and the file's end.
pub fn commands(right: &[u8]) -> Vec<usize> {
    let mut places = vec![];
    let mut at = OPENING;
    while at < right.len() {
        places.push(at);
        let widths = operand_widths(right[at], REV).expect("a right file has known commands");
        at += 1 + widths.iter().sum::<usize>();
    }
    places.push(at);
    places
}
