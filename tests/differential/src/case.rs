//! The files of a case, all made from its seed.

use crate::{levels, loads, renumbering, roles, rules, shapes, tally::Tally, REV};
use second_miner::{makers, random::Random, world::World};

/// One case in so many is of a profile with files of the largest sizes, which take the second miner
/// seconds.
const FULL_SIZE: u64 = 2000;

fn profile(seed: u64, random: &mut Random) -> &'static str {
    let full = seed % FULL_SIZE == FULL_SIZE - 1;
    let profiles = makers::PROFILES.into_iter().filter(|name| name.starts_with("full") == full);
    *random.pick(&profiles.collect::<Vec<_>>())
}

pub fn seeded(seed: u64, tally: &mut Tally) -> Result<(), String> {
    let mut random = Random::new(seed);
    let profile = profile(seed, &mut random);
    let file = makers::role_file(profile, random.next(), REV);
    let damaged = makers::damage_roles(&file, random.next(), REV);
    let mut mined = None;
    for file in [file, damaged] {
        mined = beside(&file, mined, &mut random, tally)
            .map_err(|what| format!("seed {seed}, profile {profile}\n{what}"))?;
    }
    loads::seeded(&mut random, tally).map_err(|what| format!("seed {seed}\n{what}"))
}

/// Everything about a role file and, if it is accepted, about rule files beside it, among them another
/// role file's. Returns its own.
fn beside(
    file: &[u8],
    others: Option<Vec<u8>>,
    random: &mut Random,
    tally: &mut Tally,
) -> Result<Option<Vec<u8>>, String> {
    let in_file = |what| format!("role file {}\n{what}", hex(file));
    let Some((world, mined)) = roles::compare(file, random, tally).map_err(in_file)? else {
        return rules::refused_beside(file, tally).map(|()| None).map_err(in_file);
    };
    renumbering::compare(file, random, tally).map_err(in_file)?;
    for rules in rule_files(&world, &mined, random).into_iter().chain(others) {
        rules::compare(file, &world, &rules, rules == mined, random, tally)
            .map_err(|what| in_file(format!("rule file {}\n{what}", hex(&rules))))?;
    }
    Ok(Some(mined))
}

/// The mined one, four with another 20 and four with another 29.
pub fn mined_files(mined: &[u8], random: &mut Random) -> Vec<Vec<u8>> {
    let mut files = shapes::others(mined, random);
    files.extend(levels::others(mined, random));
    files.push(mined.to_vec());
    files
}

/// These, two that the second miner's maker makes, and those damaged.
pub fn rule_files(world: &World, mined: &[u8], random: &mut Random) -> Vec<Vec<u8>> {
    let mut files = mined_files(mined, random);
    for _ in 0..2 {
        let made = makers::rule_file(world, random.next(), REV);
        files.push(makers::damage_rules(&made, random.next(), REV));
        files.push(made);
    }
    files
}

/// Files at the limit of length, which no maker makes.
pub fn of_limits() -> Vec<Vec<u8>> {
    [0, 65_535, 65_536].map(|length| vec![5; length]).to_vec()
}

pub fn limits(tally: &mut Tally) -> Result<(), String> {
    for file in of_limits() {
        roles::compare(&file, &mut Random::new(0), tally)
            .map_err(|what| format!("a role file of {} bytes 05\n{what}", file.len()))?;
    }
    Ok(())
}

fn hex(bytes: &[u8]) -> String {
    bytes.iter().map(|byte| format!("{byte:02X}")).collect()
}
