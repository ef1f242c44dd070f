//! The functions of `include/fichtengarn.h`, as they stand there.

/// A part of the rule file that was lent: its first byte, and how many it has.
#[repr(C)]
#[derive(Clone, Copy, PartialEq, Eq, Debug)]
pub struct Part {
    pub start: usize,
    pub length: usize,
}

/// What counts how much in the cost of rules: the four weights of 000, each 0 to 65,535.
#[repr(C)]
#[derive(Clone, Copy, PartialEq, Eq, Debug)]
pub struct Weights {
    /// A value or an element in conditions on users.
    pub users: u16,
    /// The same in conditions on resources.
    pub resources: u16,
    pub operations: u16,
    pub atoms: u16,
}

/// What a role file says, as plain numbers. Sets are masks: bit n says that n is in the set. Sides
/// are 0 for users and 1 for resources; of two or more things the last goes fastest.
#[repr(C)]
#[derive(Clone, Copy, PartialEq, Eq, Debug)]
pub struct Record {
    pub users: usize,
    pub resources: usize,
    pub operations: usize,
    pub roles: usize,
    /// By side: how many attributes there are, and which of them are sets.
    pub attributes: [usize; 2],
    pub kinds: [u64; 2],
    /// By side and attribute, six a side: the domain, and who has a value.
    pub domains: [u64; 12],
    pub known: [u64; 12],
    /// By side, attribute and user or resource, 64 of these.
    pub values: [u64; 768],
    /// By role: the users assigned, and the seniors by a line 07.
    pub assigned: [u64; 32],
    pub lines: [u64; 32],
    /// By operation and role, 32 of these: the resources.
    pub permissions: [u64; 512],
    /// By role, worked out: all seniors, and the holders.
    pub seniors: [u64; 32],
    pub holders: [u64; 32],
}

/// 0 and a record, or the number of a refusal and a record.
#[repr(C)]
#[derive(Clone, Copy)]
pub struct Recorded {
    pub code: usize,
    pub record: Record,
}

unsafe extern "C" {
    pub fn fichtengarn_read_roles(file: *const u8, file_length: usize) -> usize;

    pub fn fichtengarn_read_rules(
        file: *const u8,
        file_length: usize,
        rules: *const u8,
        rules_length: usize,
        count: *mut usize,
    ) -> usize;

    pub fn fichtengarn_ask_roles(
        file: *const u8,
        file_length: usize,
        user: usize,
        resource: usize,
        operation: usize,
        answer: *mut usize,
    ) -> usize;

    pub fn fichtengarn_ask_rules(
        file: *const u8,
        file_length: usize,
        rules: *const u8,
        rules_length: usize,
        user: usize,
        resource: usize,
        operation: usize,
        answer: *mut usize,
    ) -> usize;

    pub fn fichtengarn_judge(
        file: *const u8,
        file_length: usize,
        rules: *const u8,
        rules_length: usize,
        verdict: *mut [usize; 4],
    ) -> usize;

    pub fn fichtengarn_show(
        file: *const u8,
        file_length: usize,
        rules: *const u8,
        rules_length: usize,
        rule: usize,
        answer: *mut u8,
    ) -> Part;

    pub fn fichtengarn_circle(
        file: *const u8,
        file_length: usize,
        roles: *mut u8,
        roles_length: usize,
        count: *mut [usize; 1],
    ) -> usize;

    pub fn fichtengarn_load(
        seed: u32,
        users: usize,
        resources: usize,
        operations: usize,
        roles: usize,
        output: *mut u8,
        output_length: usize,
        length: *mut [usize; 1],
    ) -> usize;

    pub fn fichtengarn_denials(
        file: *const u8,
        file_length: usize,
        rules: *const u8,
        rules_length: usize,
        log: *const u8,
        log_length: usize,
        window: usize,
        denials: *mut [usize; 2],
    ) -> usize;

    pub fn fichtengarn_mine(
        file: *const u8,
        file_length: usize,
        cuts: *const u8,
        cut_count: usize,
        weights: Weights,
        scratch: *mut u64,
        scratch_words: usize,
        output: *mut u8,
        output_length: usize,
        counts: *mut [u64; 5],
    ) -> usize;

    pub fn fichtengarn_read_record(file: *const u8, file_length: usize) -> Recorded;

    pub fn fichtengarn_fill(record: Record, table: *mut u64, table_words: usize) -> usize;

    pub fn fichtengarn_assign(
        record: Record,
        table: *mut u64,
        table_words: usize,
        role: usize,
        user: usize,
    ) -> Recorded;

    pub fn fichtengarn_withdraw(
        record: Record,
        table: *mut u64,
        table_words: usize,
        role: usize,
        user: usize,
    ) -> Recorded;
}
