//! The call that shows one rule: the part's place in the caller's own slice, by its address, and the
//! byte lent for the answer's number.

use crate::{same, tally::Tally, REV};
use fichtengarn::interface::{fichtengarn_show, Part};
use second_miner::{requests::show_rule, rule_file::FiledRule};

/// Every rule of a file that was read, and numbers that no rule has.
pub fn every(
    file: &[u8],
    rules: &[u8],
    filed: &[FiledRule],
    tally: &mut Tally,
) -> Result<(), String> {
    for (rule, FiledRule { begin, end, .. }) in filed.iter().enumerate() {
        compare(file, rules, rule, Ok((*begin, end - begin)), tally)?;
    }
    [filed.len(), filed.len() + 1, usize::MAX]
        .into_iter()
        .try_for_each(|rule| asked(file, rules, rule, tally))
}

/// One rule, as the second miner's own call shows it.
pub fn asked(file: &[u8], rules: &[u8], rule: usize, tally: &mut Tally) -> Result<(), String> {
    let theirs = show_rule(file, rules, rule as u64, REV).map_err(usize::from);
    compare(file, rules, rule, theirs.map(|part| place(rules, part)), tally)
}

/// Where a part of a slice stands in it, and how long it is.
fn place(whole: &[u8], part: &[u8]) -> (usize, usize) {
    ((part.as_ptr() as usize).wrapping_sub(whole.as_ptr() as usize), part.len())
}

fn compare(
    file: &[u8],
    rules: &[u8],
    rule: usize,
    theirs: Result<(usize, usize), usize>,
    tally: &mut Tally,
) -> Result<(), String> {
    tally.shown += 1;
    let ours = tally.told(fichtengarn::show(file, rules, rule));
    same(&format!("showing rule {rule}"), ours.map(|part| place(rules, part)), theirs)?;
    let (start, length) = theirs.unwrap_or((0, 0));
    let wanted = (Part { start, length }, [0xA5, theirs.err().unwrap_or(0) as u8, 0x5A]);
    same(&format!("showing rule {rule}, with its byte"), with_byte(file, rules, rule), wanted)
}

/// The call as C has it: what it returns, and the lent byte between two others.
fn with_byte(file: &[u8], rules: &[u8], rule: usize) -> (Part, [u8; 3]) {
    let mut bytes = [0xA5, 0xC3, 0x5A];
    let part = unsafe {
        fichtengarn_show(
            file.as_ptr(),
            file.len(),
            rules.as_ptr(),
            rules.len(),
            rule,
            &mut bytes[1],
        )
    };
    (part, bytes)
}
