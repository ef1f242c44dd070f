//! The call that makes a role file from a seed: its bytes, its length and the memory around it; and
//! that both readers accept what it makes.

use crate::{memory, roles, same, tally::Tally, REV};
use fichtengarn::Sizes;
use second_miner::{random::Random, requests::load, role_file::read_role_file};

/// The most users, resources, operations and roles.
const MOST: [usize; 4] = [64, 64, 16, 32];

/// Files of up to so many bytes are mined too.
const SMALL: usize = 400;

/// The seeds at both ends, and any.
fn seed(random: &mut Random) -> u32 {
    match random.below(12) {
        0 => 0,
        1 => 1,
        2 => u32::MAX,
        _ => random.next() as u32,
    }
}

/// Sizes of a small file, of any, at the limits, and with one size beyond its limit: by one, so that
/// it has more than a byte or more than 32 bits, or by as much as can be.
fn sizes(random: &mut Random) -> [usize; 4] {
    match random.below(4) {
        0 => MOST.map(|_| random.below(6)),
        1 => MOST.map(|most| random.below(most + 1)),
        2 => MOST.map(|most| *random.pick(&[0, 1, most - 1, most])),
        _ => {
            let mut sizes = MOST.map(|most| random.below(most + 1));
            let place = random.below(4);
            let beyond = [MOST[place] + 1, 255, 256, 257, 1 << 32, (1 << 32) + 1, usize::MAX];
            sizes[place] = *random.pick(&beyond);
            sizes
        }
    }
}

pub fn seeded(random: &mut Random, tally: &mut Tally) -> Result<(), String> {
    let (seed, sizes) = (seed(random), sizes(random));
    compare(seed, sizes, random, tally)
}

/// A load with memory of 0 bytes, of one too few, of as many as it has, and of more.
fn compare(
    seed: u32,
    sizes: [usize; 4],
    random: &mut Random,
    tally: &mut Tally,
) -> Result<(), String> {
    let made = with_memory(seed, sizes, fichtengarn::MOST_ROLE_BYTES, tally)?;
    let length = made.as_ref().map_or(0, Vec::len);
    for room in [0, length.saturating_sub(1), length, length + 9] {
        with_memory(seed, sizes, room, tally)?;
    }
    made.map_or(Ok(()), |file| accepted(&file, random, tally))
}

/// What the second miner makes, if it is the same.
fn with_memory(
    seed: u32,
    sizes: [usize; 4],
    room: usize,
    tally: &mut Tally,
) -> Result<Option<Vec<u8>>, String> {
    tally.loads += 1;
    let theirs = load(seed, sizes.map(|size| size as u64), room, REV).map_err(usize::from);
    let [users, resources, operations, roles] = sizes;
    let sizes = Sizes { users, resources, operations, roles };
    memory::compare(&format!("a load of {seed}, {sizes:?}"), room, theirs.clone(), |output| {
        tally.told(fichtengarn::load(seed, sizes, output))
    })?;
    Ok(theirs.ok())
}

/// "Whatever it writes, the reader accepts"; and everything about a small file.
fn accepted(file: &[u8], random: &mut Random, tally: &mut Tally) -> Result<(), String> {
    same("reading a load", tally.told(fichtengarn::read_roles(file)), Ok(()))?;
    same("the second miner reading a load", read_role_file(file, REV).map(|_| ()), Ok(()))?;
    if file.len() <= SMALL {
        roles::compare(file, random, tally)?;
    }
    Ok(())
}

/// Loads at the limits: of sizes, of seeds and of length, since those of the last two seeds have 65,535
/// bytes and one more.
pub fn limits(tally: &mut Tally) -> Result<(), String> {
    let random = &mut Random::new(0);
    for seed in [0, 1, u32::MAX] {
        for sizes in [[0; 4], [64, 60, 16, 32], MOST, [65, 0, 0, 0], [0, 0, 0, 33]] {
            compare(seed, sizes, random, tally)?;
        }
    }
    let lengths = [(37, Ok(65_535)), (191, Err(1))];
    for (seed, told) in lengths {
        let theirs = load(seed, [64, 62, 16, 32], usize::MAX, REV).map(|file| file.len());
        same("the length of the second miner's load", told, theirs)?;
        compare(seed, [64, 62, 16, 32], random, tally)?;
    }
    Ok(())
}
