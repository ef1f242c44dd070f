//! How many of the requests have landed: the second miner is asked as of then.

pub const REV: second_miner::revision::Rev = 13;
