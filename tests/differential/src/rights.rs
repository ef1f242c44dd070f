//! The standing summary of rights: the record of a role file, filling, and lists of edits, with every
//! word of the table and every number of the record after each.

use crate::{same, tally::Tally};
use fichtengarn::{Record, TABLE_WORDS, USER_WORDS};
use second_miner::requests::{edit_summary, fill_summary};
use second_miner::{random::Random, role_file::RolePolicy};

/// What stands in a table before a call, and on both sides of it.
const FORMER: u64 = 0xA5A5_5A5A_0123_4567;

/// Words on each side of the table that is lent.
const EDGE: usize = 4;

/// A file of more triples is a large one.
const MOST_TRIPLES: usize = 8192;

/// Lent memory, the table in the middle of it.
struct Lent(Vec<u64>);

impl Lent {
    fn new(words: usize) -> Lent {
        Lent(vec![FORMER; EDGE + words + EDGE])
    }

    fn table(&mut self) -> &mut [u64] {
        let end = self.0.len() - EDGE;
        &mut self.0[EDGE..end]
    }
}

/// Both sides: what each keeps, and the table beside it.
struct Sides {
    record: Record,
    ours: Lent,
    policy: RolePolicy,
    theirs: Lent,
}

/// An accepted role file: tables of 1,024 words and of other lengths, whatever they hold, and a list
/// of edits, which follows from the file's bytes. The second miner works out everything anew for each
/// edit that changes something, so that a large file has a short list.
pub fn compare(file: &[u8], policy: &RolePolicy, tally: &mut Tally) -> Result<(), String> {
    let seed = |sum: u64, &byte: &u8| sum.wrapping_mul(31).wrapping_add(byte.into());
    let random = &mut Random::new(file.iter().fold(8, seed));
    let triples = policy.users.count * policy.resources.count * policy.operations;
    let most = if triples <= MOST_TRIPLES { 40 } else { 5 };
    let record =
        tally.told(fichtengarn::read_record(file)).map_err(|n| format!("a record: refused {n}"))?;
    same("the assignments of the record", masks(&record), assignments(policy))?;
    for words in [0, TABLE_WORDS - 1, TABLE_WORDS + 1] {
        other_length(record, policy, words, random, tally)?;
    }
    limits(record, tally)?;
    let mut sides = Sides {
        record,
        ours: Lent::new(TABLE_WORDS),
        policy: policy.clone(),
        theirs: Lent::new(TABLE_WORDS),
    };
    filling(&mut sides, tally)?;
    for _ in 0..random.below(most + 1) {
        edit(&mut sides, random, tally)?;
    }
    stale(&mut sides, random, tally)
}

/// The users assigned to each role, by the record.
fn masks(record: &Record) -> Vec<u64> {
    record.assigned[..record.roles].to_vec()
}

/// The same by the second miner, which keeps pairs.
fn assignments(policy: &RolePolicy) -> Vec<u64> {
    let mut masks = vec![0; policy.roles];
    policy.assigned.iter().for_each(|&(role, user)| masks[role] |= 1 << user);
    masks
}

/// The holders of each role, by the second miner.
fn holders(policy: &RolePolicy) -> Vec<u64> {
    let assigned = assignments(policy);
    let held =
        |role| policy.seniors(role).into_iter().fold(assigned[role], |set, s| set | assigned[s]);
    (0..policy.roles).map(held).collect()
}

fn filling(sides: &mut Sides, tally: &mut Tally) -> Result<(), String> {
    tally.edits += 1;
    let theirs = fill_summary(&sides.policy, sides.theirs.table()).map_err(usize::from);
    let ours = tally.told(sides.record.fill(sides.ours.table()));
    same("filling", ours, theirs)?;
    same("filling: the table", &sides.ours.0, &sides.theirs.0)
}

/// An edit of numbers up to two beyond the sizes, and now and then of very large ones.
fn edit(sides: &mut Sides, random: &mut Random, tally: &mut Tally) -> Result<(), String> {
    let give = random.chance(1, 2);
    let role = number(sides.policy.roles, random);
    let user = number(sides.policy.users.count, random);
    edited(sides, give, role, user, tally)
}

fn number(size: usize, random: &mut Random) -> usize {
    if random.chance(1, 40) {
        return usize::MAX - random.below(2);
    }
    random.below(size + 3)
}

fn edited(
    sides: &mut Sides,
    give: bool,
    role: usize,
    user: usize,
    tally: &mut Tally,
) -> Result<(), String> {
    tally.edits += 1;
    let former = sides.record;
    let Sides { record, ours, policy, theirs } = sides;
    let wanted =
        edit_summary(policy, theirs.table(), give, role as u64, user as u64).map_err(usize::from);
    let answer = if give {
        record.assign(ours.table(), role, user)
    } else {
        record.withdraw(ours.table(), role, user)
    };
    let what = format!("{} {role},{user}", if give { "assigning" } else { "withdrawing" });
    same(&what, tally.told(answer), wanted)?;
    same(&format!("{what}: the table"), &ours.0, &theirs.0)?;
    same(&format!("{what}: the assignments"), masks(record), assignments(policy))?;
    same(
        &format!("{what}: the holders"),
        record.holders[..record.roles].to_vec(),
        holders(policy),
    )?;
    let others = Record { assigned: former.assigned, holders: former.holders, ..*record };
    same(&format!("{what}: the rest of the record"), others, former)
}

/// A table with other words than the right ones: an edit that changes an assignment writes those of
/// its user, one that changes nothing writes none.
fn stale(sides: &mut Sides, random: &mut Random, tally: &mut Tally) -> Result<(), String> {
    if sides.policy.roles == 0 || sides.policy.users.count == 0 {
        return Ok(());
    }
    let (role, user) = (random.below(sides.policy.roles), random.below(sides.policy.users.count));
    for place in (0..TABLE_WORDS).filter(|place| random.chance(1, 4) || place / USER_WORDS == user)
    {
        sides.ours.table()[place] = FORMER;
        sides.theirs.table()[place] = FORMER;
    }
    let there = sides.record.assigned[role] >> user & 1 == 1;
    edited(sides, there, role, user, tally)?;
    edited(sides, !there, role, user, tally)?;
    edited(sides, there, role, user, tally)
}

/// A table of another length: 17, whatever the numbers, and nothing changes.
fn other_length(
    record: Record,
    policy: &RolePolicy,
    words: usize,
    random: &mut Random,
    tally: &mut Tally,
) -> Result<(), String> {
    let mut sides =
        Sides { record, ours: Lent::new(words), policy: policy.clone(), theirs: Lent::new(words) };
    filling(&mut sides, tally)?;
    edit(&mut sides, random, tally)?;
    same("an edit beside another table: the record", sides.record, record)
}

/// Records whose sizes pass the limits, each by one: 5, and nothing changes. At another length 17.
fn limits(record: Record, tally: &mut Tally) -> Result<(), String> {
    let beyond = [
        Record { users: 65, ..record },
        Record { resources: 65, ..record },
        Record { operations: 17, ..record },
        Record { roles: 33, ..record },
    ];
    for wide in beyond {
        for (words, refusal) in [(TABLE_WORDS, 5), (TABLE_WORDS + 1, 17)] {
            let mut table = vec![FORMER; words];
            let mut edited = wide;
            same("a record beyond the limits", tally.told(wide.fill(&mut table)), Err(refusal))?;
            same("an edit of it", tally.told(edited.assign(&mut table, 0, 0)), Err(refusal))?;
            same("an edit of it: the record", edited, wide)?;
            same("an edit of it: the table", table, vec![FORMER; words])?;
        }
    }
    Ok(())
}
