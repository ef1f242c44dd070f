//! The call that counts denials in a usage log: the most in a window and the start, by the rules and,
//! beside mined rules, by the roles as well.

use crate::{same, tally::Tally, REV};
use fichtengarn::interface::fichtengarn_denials;
use fichtengarn::MOST_WINDOW;
use second_miner::role_file::RolePolicy;
use second_miner::{corpus::random_log, random::Random, requests, world::World};

/// Windows at the limits, beyond them, and the smallest.
const WINDOWS: [usize; 9] =
    [0, 1, 2, 3, MOST_WINDOW - 1, MOST_WINDOW, MOST_WINDOW + 1, 256, usize::MAX];

/// Beside an accepted role file: some logs, in one of these windows and in any other. The second miner
/// reads both files anew for each.
pub fn compare(
    file: &[u8],
    world: &World,
    rules: &[u8],
    mined: bool,
    random: &mut Random,
    tally: &mut Tally,
) -> Result<(), String> {
    for log in logs(&world.policy, random) {
        for window in [*random.pick(&WINDOWS), random.between(1, MOST_WINDOW)] {
            asked(file, rules, &log, window, tally)?;
            if mined {
                by_roles(file, world, rules, &log, window)?;
            }
        }
    }
    Ok(())
}

/// The second miner's own, one that is longer than any window, and one that is empty, ragged or has a
/// record beyond the sizes.
pub fn logs(policy: &RolePolicy, random: &mut Random) -> Vec<Vec<u8>> {
    let sizes = [policy.users.count, policy.resources.count, policy.operations];
    let made = random_log(policy, random);
    if sizes.contains(&0) {
        return vec![made, vec![0; 3]];
    }
    let records = random.between(MOST_WINDOW, 3 * MOST_WINDOW);
    let long: Vec<u8> = (0..3 * records).map(|byte| random.below(sizes[byte % 3]) as u8).collect();
    let mut beyond = long.clone();
    let byte = random.below(beyond.len());
    beyond[byte] = random.between(sizes[byte % 3], 255) as u8;
    let other = random.pick(&[vec![], vec![0], long[1..].to_vec(), beyond]).clone();
    vec![made, long, other]
}

/// One log in one window, as the second miner's own call has it; and the two numbers lent for it, after
/// a refusal as they were.
pub fn asked(
    file: &[u8],
    rules: &[u8],
    log: &[u8],
    window: usize,
    tally: &mut Tally,
) -> Result<(), String> {
    tally.denials += 1;
    let theirs = requests::denials(file, rules, log, window as u64, REV)
        .map(|denied| [denied.most, denied.start])
        .map_err(usize::from);
    let ours = tally.told(fichtengarn::denials(file, rules, log, window));
    let what = format!("denials in windows of {window}, log {log:?}");
    same(&what, ours.map(|denied| [denied.most, denied.start]), theirs)?;
    let wanted = theirs.unwrap_or([FORMER; 2]);
    same(&format!("{what}: the memory"), with_memory(file, rules, log, window), wanted)
}

/// What stands in lent memory before a call.
const FORMER: usize = 0xA5;

/// The call as C has it: the two numbers that it leaves.
fn with_memory(file: &[u8], rules: &[u8], log: &[u8], window: usize) -> [usize; 2] {
    let mut denials = [FORMER; 2];
    unsafe {
        fichtengarn_denials(
            file.as_ptr(),
            file.len(),
            rules.as_ptr(),
            rules.len(),
            log.as_ptr(),
            log.len(),
            window,
            &mut denials,
        )
    };
    denials
}

/// A log that is counted, beside the rules mined from the role file: window by window, by what the roles grant.
fn by_roles(
    file: &[u8],
    world: &World,
    rules: &[u8],
    log: &[u8],
    window: usize,
) -> Result<(), String> {
    let Ok(ours) = fichtengarn::denials(file, rules, log, window) else {
        return Ok(());
    };
    let denied: Vec<bool> = log
        .chunks_exact(3)
        .map(|record| {
            let [user, resource, operation] = [0, 1, 2].map(|n| usize::from(record[n]));
            !world.role_grants.has(user, resource, operation)
        })
        .collect();
    let counts: Vec<usize> = match denied.len() < window {
        true => vec![denied.iter().filter(|&&denied| denied).count()],
        false => {
            denied.windows(window).map(|run| run.iter().filter(|&&denied| denied).count()).collect()
        }
    };
    let most = *counts.iter().max().expect("there is a window");
    let start = counts.iter().position(|&count| count == most).expect("a window has the most");
    let what = format!("denials by the roles in windows of {window}, log {log:?}");
    same(&what, [ours.most, ours.start], [most, start])
}
