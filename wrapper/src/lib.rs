//! Fichtengarn for Rust: safe functions over the C interface, which `include/fichtengarn.h`
//! describes with every promise. No heap is used, so the package does without `std`.
//!
//! A slice is what the C interface asks for: its pointer is never null, its length is true, and
//! what is lent to be written to overlaps nothing else. So a caller owes no more than the stack
//! that the header names for each call.
//!
//! The build links `libfichtengarn.a` from the repository's `target/staticlib`, or from the folder
//! that the variable `FICHTENGARN_LIB_DIR` names.
#![no_std]

pub mod interface;

use interface::Recorded;
pub use interface::{Record, Weights};

/// The words of scratch that mining asks for.
pub const SCRATCH_WORDS: usize = 2048;

/// The most bytes that a role file may have, read or made.
pub const MOST_ROLE_BYTES: usize = 65535;

/// The words of the table that the standing summary of rights asks for: one for each user and
/// operation.
pub const TABLE_WORDS: usize = 1024;

/// Of these, the words of one user.
pub const USER_WORDS: usize = 16;

/// The most roles that a role file may have.
pub const MOST_ROLES: usize = 32;

/// The most records of a usage log that a window may have.
pub const MOST_WINDOW: usize = 64;

impl Weights {
    /// 01's weights: every value, element, operation and atom counts once.
    pub const ONES: Weights = Weights { users: 1, resources: 1, operations: 1, atoms: 1 };
}

/// The causes for which a call may refuse, with 01's numbers.
#[derive(Clone, Copy, PartialEq, Eq, Debug)]
pub enum Refusal {
    /// A role file of more than 65,535 bytes.
    TooLong = 1,
    /// The role file ends inside operands or before 0F.
    CutOff = 2,
    /// A byte of the role file that is no command.
    UnknownCommand = 3,
    /// A command where it may not stand, or a byte after the end.
    OutOfPlace = 4,
    /// An operand beyond its limit or declared size, a seventh attribute, a number of a question, of an
    /// edit or of a log's record beyond the sizes, or sizes of a record, or of a role file to be made,
    /// beyond the limits.
    Beyond = 5,
    /// A value of the wrong kind, or one given twice.
    WrongKind = 6,
    /// A role is its own senior.
    OwnSenior = 7,
    /// Scratch of less than `SCRATCH_WORDS`.
    SmallScratch = 8,
    /// The rule file, the circle, or the role file made, is longer than the output.
    ShortOutput = 9,
    /// The rule file ends inside operands or before 2F.
    RulesCutOff = 10,
    /// A byte of the rule file that is no command.
    RulesUnknown = 11,
    /// Out of order, missing or repeated, or a byte after the end.
    RulesOrder = 12,
    /// An operand beyond its size or of the wrong kind, an atom across domains, no operation, or no
    /// part of the role file.
    RulesOperand = 13,
    /// There is no rule of this number.
    NoSuchRule = 14,
    /// The seed is 0.
    ZeroSeed = 15,
    /// The rule file was made for a role file of another shape: one of the six operands of its 20 is
    /// not the role file's.
    WrongShape = 16,
    /// A table of other than `TABLE_WORDS`.
    WrongTable = 17,
    /// A rule tells another level than the lowest that allows its conjuncts.
    WrongLevel = 18,
    /// A window of no records, or of more than `MOST_WINDOW`.
    WrongWindow = 19,
    /// A usage log whose length is not divisible by three.
    RaggedLog = 20,
    /// Cuts that do not ascend strictly, or one that is not from 1 to roles - 1.
    BadCuts = 21,
}

impl Refusal {
    const ALL: [Refusal; 21] = [
        Refusal::TooLong,
        Refusal::CutOff,
        Refusal::UnknownCommand,
        Refusal::OutOfPlace,
        Refusal::Beyond,
        Refusal::WrongKind,
        Refusal::OwnSenior,
        Refusal::SmallScratch,
        Refusal::ShortOutput,
        Refusal::RulesCutOff,
        Refusal::RulesUnknown,
        Refusal::RulesOrder,
        Refusal::RulesOperand,
        Refusal::NoSuchRule,
        Refusal::ZeroSeed,
        Refusal::WrongShape,
        Refusal::WrongTable,
        Refusal::WrongLevel,
        Refusal::WrongWindow,
        Refusal::RaggedLog,
        Refusal::BadCuts,
    ];

    /// 01's number.
    pub fn number(self) -> usize {
        self as usize
    }
}

/// A user, a resource and an operation, each by its number.
#[derive(Clone, Copy, PartialEq, Eq, Debug)]
pub struct Triple {
    pub user: usize,
    pub resource: usize,
    pub operation: usize,
}

/// How many there are of each in a role file.
#[derive(Clone, Copy, PartialEq, Eq, Debug)]
pub struct Sizes {
    pub users: usize,
    pub resources: usize,
    pub operations: usize,
    pub roles: usize,
}

/// The judge's verdicts, 0 to 3.
#[derive(Clone, Copy, PartialEq, Eq, Debug)]
pub enum Verdict {
    /// 0: the rules grant what the roles do, each rule grants what its parts do, and each part
    /// stands under one rule.
    Sound,
    /// 1: the first triple, by user, then resource, then operation, at which roles and rules differ.
    Differ(Triple),
    /// 2: the first rule that grants other than its parts.
    StrayRule(usize),
    /// 3: the first part that stands under no rule or several.
    StrayPart(usize),
}

/// What is denied in a usage log.
#[derive(Clone, Copy, PartialEq, Eq, Debug)]
pub struct Denials {
    /// The most records of a window that are denied.
    pub most: usize,
    /// The number, from 0, of the first record of the earliest window that has so many.
    pub start: usize,
}

/// What mining says of the rule file that it wrote.
#[derive(Clone, Copy, PartialEq, Eq, Debug)]
pub struct Mined {
    /// Bytes of the rule file, its 20 among them: it stands at the front of the output.
    pub length: usize,
    /// Parts of the role file: as many as rules and merges together.
    pub parts: usize,
    pub rules: usize,
    /// Merges within runs of roles and over all.
    pub merges: usize,
    /// What the rules cost by the weights of the call. It never wraps.
    pub cost: u64,
}

/// A call's answer: 0, or the number of a refusal.
fn told(answer: usize) -> Result<(), Refusal> {
    match answer {
        0 => Ok(()),
        number => Err(Refusal::ALL[number - 1]),
    }
}

/// Whether a role file may be read.
pub fn read_roles(file: &[u8]) -> Result<(), Refusal> {
    told(unsafe { interface::fichtengarn_read_roles(file.as_ptr(), file.len()) })
}

/// Whether a rule file may be read beside a role file, and how many rules it has. It opens with a 20
/// that says for which shape it was made: users, resources, operations, roles, user attributes and
/// resource attributes. This call and the others that take both files refuse it beside a role file of
/// another shape.
pub fn read_rules(file: &[u8], rules: &[u8]) -> Result<usize, Refusal> {
    let mut count = 0;
    told(unsafe {
        interface::fichtengarn_read_rules(
            file.as_ptr(),
            file.len(),
            rules.as_ptr(),
            rules.len(),
            &mut count,
        )
    })?;
    Ok(count)
}

/// Whether the roles grant a triple.
pub fn ask_roles(file: &[u8], asked: Triple) -> Result<bool, Refusal> {
    let mut answer = 0;
    told(unsafe {
        interface::fichtengarn_ask_roles(
            file.as_ptr(),
            file.len(),
            asked.user,
            asked.resource,
            asked.operation,
            &mut answer,
        )
    })?;
    Ok(answer == 1)
}

/// Whether some rule grants a triple.
pub fn ask_rules(file: &[u8], rules: &[u8], asked: Triple) -> Result<bool, Refusal> {
    let mut answer = 0;
    told(unsafe {
        interface::fichtengarn_ask_rules(
            file.as_ptr(),
            file.len(),
            rules.as_ptr(),
            rules.len(),
            asked.user,
            asked.resource,
            asked.operation,
            &mut answer,
        )
    })?;
    Ok(answer == 1)
}

/// Whether a rule file is right for a role file.
pub fn judge(file: &[u8], rules: &[u8]) -> Result<Verdict, Refusal> {
    let mut verdict = [0; 4];
    told(unsafe {
        interface::fichtengarn_judge(
            file.as_ptr(),
            file.len(),
            rules.as_ptr(),
            rules.len(),
            &mut verdict,
        )
    })?;
    let [number, first, second, third] = verdict;
    Ok(match number {
        0 => Verdict::Sound,
        1 => Verdict::Differ(Triple { user: first, resource: second, operation: third }),
        2 => Verdict::StrayRule(first),
        _ => Verdict::StrayPart(first),
    })
}

/// One rule of a rule file, by its number from 0: that part of `rules` itself, from the rule's 21 up
/// to the next command 21 or 2F. Nothing is copied.
pub fn show<'a>(file: &[u8], rules: &'a [u8], rule: usize) -> Result<&'a [u8], Refusal> {
    let mut answer = 0;
    let part = unsafe {
        interface::fichtengarn_show(
            file.as_ptr(),
            file.len(),
            rules.as_ptr(),
            rules.len(),
            rule,
            &mut answer,
        )
    };
    told(answer.into())?;
    Ok(&rules[part.start..part.start + part.length])
}

/// The fewest roles of a role file that make a circle of seniority, at the front of `roles`: each is
/// the junior of the next, and the last of the first. How many they are; none if the role file is
/// accepted. A refusal leaves the memory as it was; memory for `MOST_ROLES` is always enough.
pub fn circle(file: &[u8], roles: &mut [u8]) -> Result<usize, Refusal> {
    let mut count = [0];
    told(unsafe {
        interface::fichtengarn_circle(
            file.as_ptr(),
            file.len(),
            roles.as_mut_ptr(),
            roles.len(),
            &mut count,
        )
    })?;
    Ok(count[0])
}

/// Writes a role file of these sizes, made from the seed and the same on every machine, to the front
/// of the output: its length. Reading accepts it. A refusal leaves the output as it was; output of
/// `MOST_ROLE_BYTES` is always enough.
pub fn load(seed: u32, sizes: Sizes, output: &mut [u8]) -> Result<usize, Refusal> {
    let mut length = [0];
    told(unsafe {
        interface::fichtengarn_load(
            seed,
            sizes.users,
            sizes.resources,
            sizes.operations,
            sizes.roles,
            output.as_mut_ptr(),
            output.len(),
            &mut length,
        )
    })?;
    Ok(length[0])
}

/// How many records of a usage log the rules deny, at most, in any `window` neighbouring ones. A record
/// has three bytes: user, resource and operation. A log shorter than the window is one window.
pub fn denials(file: &[u8], rules: &[u8], log: &[u8], window: usize) -> Result<Denials, Refusal> {
    let mut denials = [0; 2];
    told(unsafe {
        interface::fichtengarn_denials(
            file.as_ptr(),
            file.len(),
            rules.as_ptr(),
            rules.len(),
            log.as_ptr(),
            log.len(),
            window,
            &mut denials,
        )
    })?;
    let [most, start] = denials;
    Ok(Denials { most, start })
}

/// Writes the rules of a role file to the front of the output, and says what they cost by these
/// weights; nothing else depends on them. A refusal leaves the output as it was. Scratch may hold
/// anything before and after, and more of it than `SCRATCH_WORDS` changes nothing.
///
/// A cut stands between the role before it and the role of its number. Groups merge within each run of
/// roles that the cuts make first, and then over all; without a cut there is but one run. Cuts ascend
/// strictly, each from 1 to roles - 1, else they are `Refusal::BadCuts`.
pub fn mine(
    file: &[u8],
    cuts: &[u8],
    weights: Weights,
    scratch: &mut [u64],
    output: &mut [u8],
) -> Result<Mined, Refusal> {
    let mut counts = [0; 5];
    told(unsafe {
        interface::fichtengarn_mine(
            file.as_ptr(),
            file.len(),
            cuts.as_ptr(),
            cuts.len(),
            weights,
            scratch.as_mut_ptr(),
            scratch.len(),
            output.as_mut_ptr(),
            output.len(),
            &mut counts,
        )
    })?;
    let [length, parts, rules, merges, cost] = counts;
    let [length, parts, rules, merges] = [length, parts, rules, merges].map(|count| count as usize);
    Ok(Mined { length, parts, rules, merges, cost })
}

/// The record of a role file.
pub fn read_record(file: &[u8]) -> Result<Record, Refusal> {
    let read = unsafe { interface::fichtengarn_read_record(file.as_ptr(), file.len()) };
    told(read.code)?;
    Ok(read.record)
}

impl Record {
    /// Fills a table of `TABLE_WORDS` with the standing summary of rights, whatever it held: word
    /// `USER_WORDS * user + operation` is the set of the resources granted. The edits keep it from
    /// there on.
    pub fn fill(&self, table: &mut [u64]) -> Result<(), Refusal> {
        told(unsafe { interface::fichtengarn_fill(*self, table.as_mut_ptr(), table.len()) })
    }

    /// Assigns a user to a role. Where that changes something, the words of the user are worked out
    /// afresh; nothing else of the table is written. A refusal changes nothing.
    pub fn assign(&mut self, table: &mut [u64], role: usize, user: usize) -> Result<(), Refusal> {
        self.kept(unsafe {
            interface::fichtengarn_assign(*self, table.as_mut_ptr(), table.len(), role, user)
        })
    }

    /// Takes the assignment of a user to a role away, in the same way.
    pub fn withdraw(&mut self, table: &mut [u64], role: usize, user: usize) -> Result<(), Refusal> {
        self.kept(unsafe {
            interface::fichtengarn_withdraw(*self, table.as_mut_ptr(), table.len(), role, user)
        })
    }

    /// The record after an edit; after a refusal it is the one there was.
    fn kept(&mut self, edited: Recorded) -> Result<(), Refusal> {
        *self = edited.record;
        told(edited.code)
    }
}
