//! The calls that take a rule file beside a role file: reading it, the rule question, the judge, and,
//! in `parts`, the one that shows a rule, in `denials`, the one that counts denials in a log.

use crate::{denials, parts, questions, same, tally::Tally, REV};
use fichtengarn::{Triple, Verdict};
use second_miner::questions::{ask_rules, judge, verdict};
use second_miner::rule::rule_grants;
use second_miner::rule_file::{read_rule_file, FiledRule};
use second_miner::{random::Random, world::World};

/// Compares all of them beside an accepted role file.
pub fn compare(
    file: &[u8],
    world: &World,
    rules: &[u8],
    mined: bool,
    random: &mut Random,
    tally: &mut Tally,
) -> Result<(), String> {
    tally.rule_files += 1;
    let theirs = read_rule_file(world, rules, REV).map_err(usize::from);
    let ours = tally.told(fichtengarn::read_rules(file, rules));
    same("reading the rule file", ours, theirs.as_ref().map(Vec::len).map_err(|&refusal| refusal))?;
    let theirs = theirs.map(|filed| (verdict(world, &filed), filed));
    judged(
        file,
        rules,
        theirs.as_ref().map(|(verdict, _)| *verdict).map_err(|&refusal| refusal),
        tally,
    )?;
    match &theirs {
        Ok((_, filed)) => {
            parts::every(file, rules, filed, tally)?;
            rule_questions(file, world, rules, filed, random, tally)?;
        }
        Err(_) => {
            parts::asked(file, rules, 0, tally)?;
            rule_question(file, rules, questions::FIRST, tally)?;
        }
    }
    denials::compare(file, world, rules, mined, random, tally)?;
    questions::beyond(&world.policy)
        .into_iter()
        .try_for_each(|triple| rule_question(file, rules, triple, tally))
}

/// Beside a role file that is refused, so is every rule file, whatever stands in it.
pub fn refused_beside(file: &[u8], tally: &mut Tally) -> Result<(), String> {
    for rules in [&[0x2F][..], &[], &[0x00], &[0x20, 0, 0, 0, 0, 0, 0, 0x2F]] {
        tally.rule_files += 1;
        judged(file, rules, judge(file, rules, REV).map_err(usize::from), tally)?;
        rule_question(file, rules, questions::FIRST, tally)?;
        parts::asked(file, rules, 0, tally)?;
        denials::asked(file, rules, &[0], 0, tally)?;
    }
    Ok(())
}

/// 01's number of a verdict and what goes with it.
fn numbers(verdict: Verdict) -> Vec<usize> {
    match verdict {
        Verdict::Sound => vec![0],
        Verdict::Differ(Triple { user, resource, operation }) => vec![1, user, resource, operation],
        Verdict::StrayRule(rule) => vec![2, rule],
        Verdict::StrayPart(part) => vec![3, part],
    }
}

/// The same of the second miner's.
fn their_numbers(verdict: second_miner::questions::Verdict) -> Vec<usize> {
    use second_miner::questions::Verdict;
    match verdict {
        Verdict::Sound => vec![0],
        Verdict::Differ { user, resource, operation, .. } => vec![1, user, resource, operation],
        Verdict::Rule(rule) => vec![2, rule],
        Verdict::Part(part) => vec![3, part],
    }
}

fn judged(
    file: &[u8],
    rules: &[u8],
    theirs: Result<second_miner::questions::Verdict, usize>,
    tally: &mut Tally,
) -> Result<(), String> {
    let ours = tally.told(fichtengarn::judge(file, rules)).map(numbers);
    if let Ok(numbers) = &ours {
        tally.judged(numbers[0]);
    }
    same("the judge", ours, theirs.map(their_numbers))
}

/// One question, as the second miner's own call answers it.
fn rule_question(
    file: &[u8],
    rules: &[u8],
    triple: Triple,
    tally: &mut Tally,
) -> Result<(), String> {
    tally.questions += 1;
    let ours = tally.told(fichtengarn::ask_rules(file, rules, triple));
    let theirs = ask_rules(file, rules, questions::asked(triple), REV).map_err(usize::from);
    same(&format!("rule question {triple:?}"), ours, theirs)
}

/// The second miner reads both files once, not once a question.
fn rule_questions(
    file: &[u8],
    world: &World,
    rules: &[u8],
    filed: &[FiledRule],
    random: &mut Random,
    tally: &mut Tally,
) -> Result<(), String> {
    for Triple { user, resource, operation } in questions::within(&world.policy, random) {
        tally.questions += 1;
        let triple = Triple { user, resource, operation };
        let ours = tally.told(fichtengarn::ask_rules(file, rules, triple));
        let theirs =
            filed.iter().any(|filed| rule_grants(world, &filed.rule, user, resource, operation));
        same(&format!("rule question {triple:?}"), ours, Ok(theirs))?;
    }
    Ok(())
}
