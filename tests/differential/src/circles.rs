//! The call that shows a circle: its list, how many roles it has, and the memory around it.

use crate::{memory, tally::Tally, REV};
use second_miner::requests::circle;

/// A role file with memory of 0 bytes, of one too few for its circle, of as many, and of more.
pub fn compare(file: &[u8], tally: &mut Tally) -> Result<(), String> {
    let length = circle(file, fichtengarn::MOST_ROLES, REV).map_or(0, |roles| roles.len());
    let rooms = [0, length.saturating_sub(1), length, length + 1, fichtengarn::MOST_ROLES];
    rooms.into_iter().try_for_each(|room| with_memory(file, room, tally))
}

fn with_memory(file: &[u8], room: usize, tally: &mut Tally) -> Result<(), String> {
    tally.circles += 1;
    let theirs = circle(file, room, REV).map_err(usize::from);
    memory::compare("the circle", room, theirs, |roles| {
        tally.told(fichtengarn::circle(file, roles))
    })
}

/// The lines of a circle of every length, in its order and the other way round, and beside as many lines
/// as make no other.
fn every_ring() -> Vec<Vec<(u8, u8)>> {
    let rings = |length: u8| {
        let ring: Vec<_> = (0..length).map(|role| (role, (role + 1) % length)).collect();
        let turned = ring.iter().map(|&(junior, senior)| (senior, junior)).collect();
        [ring, turned, filled(length)]
    };
    (1..=fichtengarn::MOST_ROLES as u8).flat_map(rings).collect()
}

pub fn every_length(tally: &mut Tally) -> Result<(), String> {
    every_ring().into_iter().try_for_each(|lines| {
        compare(&with_lines(&lines), tally)
            .map_err(|what| format!("a circle, lines {lines:?}\n{what}"))
    })
}

pub fn of_every_length() -> Vec<Vec<u8>> {
    every_ring().iter().map(|lines| with_lines(lines)).collect()
}

/// The ring of so many roles, and from the others, which are above it, lines to all below them.
fn filled(length: u8) -> Vec<(u8, u8)> {
    let ring = (0..length).map(|role| (role, (role + 1) % length));
    let others = (length..fichtengarn::MOST_ROLES as u8)
        .flat_map(|role| (0..role).map(move |below| (role, below)));
    ring.chain(others).collect()
}

/// A role file of 32 roles and these lines.
fn with_lines(lines: &[(u8, u8)]) -> Vec<u8> {
    let mut file = vec![1, 0, 0, 0, fichtengarn::MOST_ROLES as u8];
    lines.iter().for_each(|&(junior, senior)| file.extend([7, junior, senior]));
    file.push(15);
    file
}
