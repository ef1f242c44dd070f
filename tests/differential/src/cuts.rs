//! Mining with cuts: lists that are legal, whose rules are judged, and lists that are not.

use crate::{costs, roles, roles::Lent, rules, same, tally::Tally, REV};
use fichtengarn::Verdict;
use second_miner::mining::{mine, mine_world};
use second_miner::{properties, random::Random, world::World};

/// A list as the second miner takes it.
fn theirs(cuts: &[u8]) -> Vec<u64> {
    cuts.iter().copied().map(u64::from).collect()
}

/// Of an accepted role file: every cut that there is, some of them, and one or two, as a provider with
/// two or three regions has them, and then everything about the rules; and lists with something wrong in
/// them.
pub fn compare(
    file: &[u8],
    world: &World,
    random: &mut Random,
    tally: &mut Tally,
) -> Result<(), String> {
    let places = world.policy.roles.saturating_sub(1);
    let every: Vec<u8> = (1..=places as u8).collect();
    let regions: Vec<u8> = match places {
        0 => vec![],
        _ => [random.between(1, places), random.between(1, places)].map(|cut| cut as u8).to_vec(),
    };
    for cuts in [every, some(places, random)] {
        legal(file, world, &cuts, random, tally)?;
    }
    let regions = ascending(regions);
    let mined = legal(file, world, &regions, random, tally)?;
    rules::compare(file, world, &mined, true, random, tally)
        .map_err(|what| format!("rules mined with cuts {regions:?}\n{what}"))?;
    (0..3).try_for_each(|_| any(file, &wrong(places, random), random, tally))
}

/// Of a file that is refused, whatever the cuts.
pub fn refused(file: &[u8], random: &mut Random, tally: &mut Tally) -> Result<(), String> {
    let places = random.below(34);
    let lists = [some(places, random), wrong(places, random)];
    lists.iter().try_for_each(|cuts| any(file, cuts, random, tally))
}

/// Each of the places with one chance in three.
pub fn some(places: usize, random: &mut Random) -> Vec<u8> {
    (1..=places as u8).filter(|_| random.chance(1, 3)).collect()
}

fn ascending(mut cuts: Vec<u8>) -> Vec<u8> {
    cuts.sort_unstable();
    cuts.dedup();
    cuts
}

/// A legal list with 0, the first number behind the last role, one beyond, any, or one of its own put in
/// anywhere; turned round; very long; or up to four numbers at random. Few of these are legal.
fn wrong(places: usize, random: &mut Random) -> Vec<u8> {
    let mut cuts = some(places, random);
    let at = random.below(cuts.len() + 1);
    match random.below(8) {
        0 => cuts.insert(at, 0),
        1 => cuts.insert(at, places as u8 + 1),
        2 => cuts.insert(at, random.between(places + 1, 255) as u8),
        3 => cuts.insert(at, random.below(256) as u8),
        4 if !cuts.is_empty() => cuts.insert(at, *random.pick(&cuts.clone())),
        5 => cuts.reverse(),
        6 => cuts = (0..random.between(32, 600)).map(|_| random.below(256) as u8).collect(),
        _ => cuts = (0..random.between(1, 4)).map(|_| random.below(places + 2) as u8).collect(),
    }
    cuts
}

/// A legal list: the bytes, counts and cost, with just enough memory, with too little and with more. The
/// judge has no objection to the rules, which are handed back.
fn legal(
    file: &[u8],
    world: &World,
    cuts: &[u8],
    random: &mut Random,
    tally: &mut Tally,
) -> Result<Vec<u8>, String> {
    tally.cuts += 1;
    let weights = costs::weights(random);
    let mined = mine_world(world, costs::theirs(weights), &theirs(cuts), REV);
    let length = mined.bytes.len();
    let more = 2048 + random.below(2100);
    for (scratch, room) in
        [(2048, length), (2048, length - 1), (2047, length), (4096, length + 9), (more, length)]
    {
        roles::mining(file, Lent { cuts, weights, scratch, room }, Ok(&mined), tally)?;
    }
    let judged = tally.told(fichtengarn::judge(file, &mined.bytes));
    same(&format!("the judge on rules mined with cuts {cuts:?}"), judged, Ok(Verdict::Sound))?;
    by_brute_force(file, world, cuts, tally)?;
    Ok(mined.bytes)
}

/// So many triples at most has a file that is small enough for checks by brute force.
const SMALL: usize = 48;

/// What is promised of mined files, of rules mined with these cuts: by the second miner's checks on plain
/// sets of triples, if the file is small.
fn by_brute_force(
    file: &[u8],
    world: &World,
    cuts: &[u8],
    tally: &mut Tally,
) -> Result<(), String> {
    let policy = &world.policy;
    if SMALL < policy.users.count * policy.resources.count * policy.operations {
        return Ok(());
    }
    tally.brute += 1;
    let usual = second_miner::mining::Lent::usual();
    let lent = second_miner::mining::Lent { cuts: theirs(cuts), ..usual };
    let checked = properties::check(file, &lent, REV, 2);
    checked.map(|_| ()).map_err(|what| format!("rules mined with cuts {cuts:?}: {what}"))
}

/// Any file with any list, as the second miner's own call has it: with room for no byte, and with too
/// little scratch.
fn any(file: &[u8], cuts: &[u8], random: &mut Random, tally: &mut Tally) -> Result<(), String> {
    tally.cuts += 1;
    let weights = costs::weights(random);
    let lent = second_miner::mining::Lent {
        scratch: 2048,
        output: 1 << 22,
        weights: costs::theirs(weights),
        cuts: theirs(cuts),
    };
    let mined = mine(file, &lent, REV).map_err(usize::from);
    for (scratch, room) in [(2048, 0), (2048, 64), (2047, 64)] {
        let mined = mined.as_ref().map_err(|&refusal| refusal);
        roles::mining(file, Lent { cuts, weights, scratch, room }, mined, tally)?;
    }
    Ok(())
}
