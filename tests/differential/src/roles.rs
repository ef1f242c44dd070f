//! The calls that take a role file alone: reading it, its circle, the role question, mining.

use crate::{circles, costs, cuts, questions, rights, same, tally::Tally, REV};
use fichtengarn::Weights;
use second_miner::mining::{mine_world, Mined};
use second_miner::{questions::ask_roles, random::Random, role_file::read_role_file, world::World};

/// Compares all of them. Returns what the second miner makes of an accepted file, and its rules.
pub fn compare(
    file: &[u8],
    random: &mut Random,
    tally: &mut Tally,
) -> Result<Option<(World, Vec<u8>)>, String> {
    tally.role_files += 1;
    let theirs = read_role_file(file, REV).map_err(usize::from);
    let ours = tally.told(fichtengarn::read_roles(file));
    same("reading the role file", ours, theirs.as_ref().map(|_| ()).map_err(|&refusal| refusal))?;
    circles::compare(file, tally)?;
    let policy = match theirs {
        Ok(policy) => policy,
        Err(refusal) => return refused(file, refusal, random, tally).map(|()| None),
    };
    rights::compare(file, &policy, tally)?;
    let world = World::of(policy);
    role_questions(file, &world, random, tally)?;
    let weights = costs::weights(random);
    let mined = mine_world(&world, costs::theirs(weights), &[], REV);
    let length = mined.bytes.len();
    let uncut = |weights, scratch, room| Lent { cuts: &[], weights, scratch, room };
    mining(file, uncut(weights, 2048, length), Ok(&mined), tally)?;
    // by other weights: the same bytes, the same counts, and another cost
    let more = 2048 + random.below(2100);
    for (scratch, room) in
        [(2048, length), (2048, length - 1), (2047, length), (4096, length + 9), (more, length)]
    {
        let weights = costs::weights(random);
        let cost = costs::of_rules(&world, &mined.bytes, weights);
        let lent = uncut(weights, scratch, room);
        mining(file, lent, Ok(&Mined { cost, ..mined.clone() }), tally)?;
    }
    cuts::compare(file, &world, random, tally)?;
    Ok(Some((world, mined.bytes)))
}

/// A file that is refused is refused by every call, whatever the weights and the cuts.
fn refused(
    file: &[u8],
    refusal: usize,
    random: &mut Random,
    tally: &mut Tally,
) -> Result<(), String> {
    role_question(file, questions::FIRST, tally)?;
    for scratch in [2048, 2047] {
        let lent = Lent { cuts: &[], weights: costs::weights(random), scratch, room: 64 };
        mining(file, lent, Err(refusal), tally)?;
    }
    cuts::refused(file, random, tally)
}

/// One question, as the second miner's own call answers it.
fn role_question(
    file: &[u8],
    triple: fichtengarn::Triple,
    tally: &mut Tally,
) -> Result<(), String> {
    tally.questions += 1;
    let ours = tally.told(fichtengarn::ask_roles(file, triple));
    let theirs = ask_roles(file, questions::asked(triple), REV).map_err(usize::from);
    same(&format!("role question {triple:?}"), ours, theirs)
}

/// The second miner works out what the roles grant once, not once a question.
fn role_questions(
    file: &[u8],
    world: &World,
    random: &mut Random,
    tally: &mut Tally,
) -> Result<(), String> {
    for triple in questions::within(&world.policy, random) {
        tally.questions += 1;
        let ours = tally.told(fichtengarn::ask_roles(file, triple));
        let theirs = world.role_grants.has(triple.user, triple.resource, triple.operation);
        same(&format!("role question {triple:?}"), ours, Ok(theirs))?;
    }
    questions::beyond(&world.policy)
        .into_iter()
        .try_for_each(|triple| role_question(file, triple, tally))
}

/// What mining is handed beside the role file: the cuts, the weights, and how many words of scratch and
/// bytes of output.
#[derive(Clone, Copy)]
pub struct Lent<'a> {
    pub cuts: &'a [u8],
    pub weights: Weights,
    pub scratch: usize,
    pub room: usize,
}

/// What the second miner's call says with this much memory of what it mined: "8 scratch below 4,096
/// words ...; then 1 to 7", by request 13 below 2,048, and 21 behind them, "then 9 output shorter than the
/// rule file". It takes long to mine anew.
fn with_memory<'a>(
    mined: Result<&'a Mined, usize>,
    scratch: usize,
    room: usize,
) -> Result<&'a Mined, usize> {
    if scratch < 2048 {
        return Err(8);
    }
    mined.and_then(|mined| if room < mined.bytes.len() { Err(9) } else { Ok(mined) })
}

/// Mines with this much memory, whatever it holds: the counts, and every byte of the output memory.
pub fn mining(
    file: &[u8],
    lent: Lent,
    mined: Result<&Mined, usize>,
    tally: &mut Tally,
) -> Result<(), String> {
    tally.minings += 1;
    let Lent { cuts, weights, scratch, room } = lent;
    let former: Vec<u8> = (0..room).map(|place| (place * 7 % 251) as u8).collect();
    let mut output = former.clone();
    let mut words: Vec<u64> =
        (0..scratch as u64).map(|place| place.wrapping_mul(0x9E37_79B9_7F4A_7C15)).collect();
    let ours = tally.told(fichtengarn::mine(file, cuts, weights, &mut words, &mut output));
    let theirs = with_memory(mined, scratch, room);
    let what =
        format!("mining by {weights:?} with cuts {cuts:?}, {scratch} words and {room} bytes");
    let ours =
        ours.map(|mined| ([mined.length, mined.parts, mined.rules, mined.merges], mined.cost));
    let counts = |mined: &Mined| {
        ([mined.bytes.len(), mined.parts, mined.rules, mined.merges], mined.cost)
    };
    same(&what, ours, theirs.map(counts))?;
    let mut expected = former;
    if let Ok(mined) = theirs {
        expected[..mined.bytes.len()].copy_from_slice(&mined.bytes);
    }
    same(&format!("{what}: the output memory"), output, expected)
}
