//! New numbers for the users of a role file: with equal cuts it must mine to the same bytes and the same
//! counts as before, in whatever memory. One file has its numbers replaced here, byte by byte; the other
//! is the second miner's, which may have its lines in another order too.

use crate::{costs, cuts, tally::Tally, REV};
use fichtengarn::{Mined, Weights};
use second_miner::{makers, random::Random};

/// Counts and bytes, or the number of a refusal.
type Answer = Result<(Mined, Vec<u8>), usize>;

/// More than any maker's file is mined to.
const ENOUGH: usize = 1 << 22;

/// Mines an accepted file and both others: without cuts, with cuts, and with one more that is refused.
pub fn compare(file: &[u8], random: &mut Random, tally: &mut Tally) -> Result<(), String> {
    let (users, roles) = (file[1], file[4]);
    let new = shuffled(users, random);
    let theirs = makers::renumber_users(file, random.next(), REV);
    let others = [with_numbers(file, &new), theirs];
    tally.renumbered += others.len();
    let cuts = cuts::some(usize::from(roles).saturating_sub(1), random);
    mined_alike(file, &others, &[], random, tally)?;
    mined_alike(file, &others, &cuts, random, tally)?;
    refused_alike(&others, &[&cuts[..], &[roles]].concat(), random, tally)
}

/// With these cuts and by the same weights. An other has memory for one byte too few, for just enough or
/// for more.
fn mined_alike(
    file: &[u8],
    others: &[Vec<u8>],
    cuts: &[u8],
    random: &mut Random,
    tally: &mut Tally,
) -> Result<(), String> {
    let weights = costs::weights(random);
    let before = mining(file, cuts, weights, ENOUGH, random, tally);
    let length = before.as_ref().map_or(ENOUGH, |(mined, _)| mined.length);
    for other in others {
        let room = length - 1 + random.below(9);
        let expected = if room < length { Err(9) } else { before.clone() };
        let after = mining(other, cuts, weights, room, random, tally);
        if before.is_err() || after != expected {
            return Err(differing(other, cuts, weights, &before, &after));
        }
    }
    Ok(())
}

/// Cuts that are refused, in whatever numbering.
fn refused_alike(
    others: &[Vec<u8>],
    cuts: &[u8],
    random: &mut Random,
    tally: &mut Tally,
) -> Result<(), String> {
    for other in others {
        let weights = costs::weights(random);
        let after = mining(other, cuts, weights, random.below(9), random, tally);
        if after != Err(21) {
            return Err(differing(other, cuts, weights, &Err(21), &after));
        }
    }
    Ok(())
}

fn differing(
    other: &[u8],
    cuts: &[u8],
    weights: Weights,
    before: &Answer,
    after: &Answer,
) -> String {
    let what =
        format!("mining by {weights:?} with cuts {cuts:?}, other users' numbers: {other:02X?}");
    format!("{what}\nbefore: {before:?}\nafter: {after:?}")
}

/// The numbers of so many users, in some order.
fn shuffled(users: u8, random: &mut Random) -> Vec<u8> {
    let mut new: Vec<u8> = (0..users).collect();
    random.shuffle(&mut new);
    new
}

/// An accepted role file, whose users have other numbers: `new` has the new one of each.
fn with_numbers(file: &[u8], new: &[u8]) -> Vec<u8> {
    let mut file = file.to_vec();
    let mut at = 0;
    while at < file.len() {
        let (operands, user) = match (file[at], file.get(at + 1)) {
            (0x01, _) => (4, None),
            (0x02 | 0x07, _) => (2, None),
            (0x03, Some(0)) => (5, Some(3)),
            (0x03, _) => (5, None),
            (0x04, Some(0)) => (11, Some(3)),
            (0x04, _) => (11, None),
            (0x05, _) => (2, Some(2)),
            (0x06 | 0x08, _) => (3, None),
            (0x0F, _) => (0, None),
            (command, _) => unreachable!("command {command:02X} in a role file that is accepted"),
        };
        if let Some(place) = user {
            file[at + place] = new[usize::from(file[at + place])];
        }
        at += 1 + operands;
    }
    file
}

/// With scratch and output that hold anything, and scratch that is long enough.
fn mining(
    file: &[u8],
    cuts: &[u8],
    weights: Weights,
    room: usize,
    random: &mut Random,
    tally: &mut Tally,
) -> Answer {
    tally.minings += 1;
    let words = fichtengarn::SCRATCH_WORDS + random.below(3);
    let mut scratch: Vec<u64> = (0..words).map(|_| random.next()).collect();
    let mut output = vec![random.below(256) as u8; room];
    let mined = tally.told(fichtengarn::mine(file, cuts, weights, &mut scratch, &mut output))?;
    output.truncate(mined.length);
    Ok((mined, output))
}
