//! Files of the makers, one behind the other, for the program that makes every call on two processors
//! (`tests/processors`): role files whole and damaged, beside each that is accepted rule files and usage
//! logs. The library mines them, since the second miner takes seconds for a file of the largest sizes.
//!
//! A role file is told by its bytes, by how many rule files and the bytes of each, and by how many logs and
//! the bytes of each. Bytes follow their number, and a number has four bytes, the lowest first.

use crate::{case, circles, costs, denials, REV};
use fichtengarn::Weights;
use second_miner::{makers, random::Random, role_file::read_role_file, world::World};

/// A rule file has no more bytes than this.
const MOST_RULE_BYTES: usize = 4_450_312;

/// So many role files of each small profile, and each of them damaged; one of each profile with the largest
/// sizes; and the files that no maker makes.
pub fn written(seed: u64, count: u64) -> Vec<u8> {
    let mut random = Random::new(seed);
    let mut all = vec![];
    for profile in makers::PROFILES {
        let full = profile.starts_with("full");
        for _ in 0..if full { 1 } else { count } {
            let file = makers::role_file(profile, random.next(), REV);
            let damaged = makers::damage_roles(&file, random.next(), REV);
            put_case(&file, full, &mut random, &mut all);
            put_case(&damaged, full, &mut random, &mut all);
        }
    }
    let others = [case::of_limits(), circles::of_every_length(), vec![costs::costly()], loads()];
    for file in others.concat() {
        put_case(&file, true, &mut random, &mut all);
    }
    all
}

/// The longest role file there is, and a load of the largest sizes that fits.
fn loads() -> Vec<Vec<u8>> {
    let load = |seed, resources| {
        let mut file = vec![0; fichtengarn::MOST_ROLE_BYTES];
        let sizes = fichtengarn::Sizes { users: 64, resources, operations: 16, roles: 32 };
        let length = fichtengarn::load(seed, sizes, &mut file).expect("a load that fits");
        file.truncate(length);
        file
    };
    vec![load(37, 62), load(1, 60)]
}

fn put_case(file: &[u8], full: bool, random: &mut Random, all: &mut Vec<u8>) {
    put(file, all);
    let (rules, logs) = beside(file, full, random);
    for some in [rules, logs] {
        put_number(some.len(), all);
        some.iter().for_each(|bytes| put(bytes, all));
    }
}

/// Rule files and logs beside a role file: of one that is refused, a rule file of nothing and a log.
fn beside(file: &[u8], full: bool, random: &mut Random) -> (Vec<Vec<u8>>, Vec<Vec<u8>>) {
    let Ok(policy) = read_role_file(file, REV) else {
        return (vec![vec![0x20, 0, 0, 0, 0, 0, 0, 0x2F]], vec![vec![0; 3]]);
    };
    let logs = denials::logs(&policy, random);
    let mined = mined(file);
    if !full {
        return (case::rule_files(&World::of(policy), &mined, random), logs);
    }
    let mut rules = case::mined_files(&mined, random);
    rules.push(makers::damage_rules(&mined, random.next(), REV));
    (rules, logs)
}

fn mined(file: &[u8]) -> Vec<u8> {
    let ones = Weights { users: 1, resources: 1, operations: 1, atoms: 1 };
    let mut scratch = [0; fichtengarn::SCRATCH_WORDS];
    let mut output = vec![0; MOST_RULE_BYTES];
    let mined = fichtengarn::mine(file, &[], ones, &mut scratch, &mut output);
    output.truncate(mined.expect("an accepted role file is mined").length);
    output
}

fn put(bytes: &[u8], all: &mut Vec<u8>) {
    put_number(bytes.len(), all);
    all.extend(bytes);
}

fn put_number(number: usize, all: &mut Vec<u8>) {
    all.extend(u32::try_from(number).expect("a length of 32 bits").to_le_bytes());
}
