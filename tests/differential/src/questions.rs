//! Which triples are asked about.

use fichtengarn::Triple;
use second_miner::{random::Random, role_file::RolePolicy};

/// Of a file with at most so many triples every one is asked about.
const FEW: usize = 8192;

/// The first triple of a file that has one.
pub const FIRST: Triple = Triple { user: 0, resource: 0, operation: 0 };

/// Triples within the sizes: all of them, or some where there are many.
pub fn within(policy: &RolePolicy, random: &mut Random) -> Vec<Triple> {
    let [users, resources, operations] = sizes(policy);
    let all = users * resources * operations;
    let numbered = |number: usize| Triple {
        user: number / operations / resources,
        resource: number / operations % resources,
        operation: number % operations,
    };
    if all <= FEW {
        return (0..all).map(numbered).collect();
    }
    (0..FEW / 8).map(|_| numbered(random.below(all))).collect()
}

/// Triples with one number just beyond the sizes, or far beyond.
pub fn beyond(policy: &RolePolicy) -> Vec<Triple> {
    let [users, resources, operations] = sizes(policy);
    vec![
        Triple { user: users, ..FIRST },
        Triple { resource: resources, ..FIRST },
        Triple { operation: operations, ..FIRST },
        Triple { user: usize::MAX, ..FIRST },
    ]
}

fn sizes(policy: &RolePolicy) -> [usize; 3] {
    [policy.users.count, policy.resources.count, policy.operations]
}

/// A question as the second miner takes it.
pub fn asked(triple: Triple) -> second_miner::questions::Question {
    second_miner::questions::Question {
        user: triple.user as u64,
        resource: triple.resource as u64,
        operation: triple.operation as u64,
        period: 0,
    }
}
