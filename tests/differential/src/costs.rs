//! The weights of the cost, and what rules cost by them.

use crate::{roles, tally::Tally, REV};
use fichtengarn::Weights;
use second_miner::rule::cost;
use second_miner::rule_file::read_rule_file;
use second_miner::{random::Random, world::World};

/// Each weight 0, the most there is, 1, or any.
pub fn weights(random: &mut Random) -> Weights {
    let mut weight = || match random.below(4) {
        0 => 0,
        1 => u16::MAX,
        2 => 1,
        _ => random.below(65_536) as u16,
    };
    Weights { users: weight(), resources: weight(), operations: weight(), atoms: weight() }
}

/// The weights as the second miner takes them.
pub fn theirs(weights: Weights) -> second_miner::rule::Weights {
    [weights.users, weights.resources, weights.operations, weights.atoms].map(u64::from)
}

/// What the rules of a mined file cost by some weights: it takes long to mine anew for each.
pub fn of_rules(world: &World, mined: &[u8], weights: Weights) -> u64 {
    let rules = read_rule_file(world, mined, REV).expect("the second miner reads what it mined");
    rules.iter().map(|filed| cost(&filed.rule, theirs(weights))).sum()
}

/// A file whose cost has more than 32 bits by the highest weights.
pub fn wide(tally: &mut Tally) -> Result<(), String> {
    let file = costly();
    roles::compare(&file, &mut Random::new(0), tally)?;
    let most = Weights { users: u16::MAX, resources: 0, operations: 0, atoms: 0 };
    let mut output = [0; 65_536];
    let mut scratch = [0; fichtengarn::SCRATCH_WORDS];
    let ours = fichtengarn::mine(&file, &[], most, &mut scratch, &mut output);
    match ours {
        Ok(mined) if mined.cost == 16 * 2 * 62 * 63 * 65_535 => Ok(()),
        other => Err(format!("16 rules that list 62 sets of 63 elements twice: {other:?}")),
    }
}

/// 62 users have two attributes, each of these users its own set of 63 elements; of the other two
/// users one has the full set of the first attribute alone, one that of the second. The 62 have 16
/// roles, each with a resource and an operation of its own: 16 rules, which list all sets of both
/// attributes.
pub fn costly() -> Vec<u8> {
    let mut file = vec![1, 64, 16, 16, 16, 2, 0, 1, 2, 0, 1];
    for attribute in 0..2 {
        for user in 0..62 {
            file.extend([4, 0, attribute, user]);
            file.extend((u64::MAX ^ (1 << user)).to_le_bytes());
        }
        file.extend([4, 0, attribute, 62 + attribute]);
        file.extend(u64::MAX.to_le_bytes());
    }
    for role in 0..16 {
        (0..62).for_each(|user| file.extend([5, role, user]));
        file.extend([6, role, role, role]);
    }
    file.push(15);
    file
}
