//! A worked example of the wrapper, and the same as `examples/c/worked_example.c`: reads a role
//! file, mines it, reads the rules back, judges them, shows one, asks a question of both, counts
//! denials in a usage log, reads the rules beside a file that they were not made for, shows the circle
//! of a file that has one, keeps a summary of rights through edits, makes a role file from a seed and
//! mines it, mines a file with cuts, and prints the answers.
//!
//!     cargo run --example worked_example FILE

use fichtengarn::{Refusal, Sizes, Triple, Verdict, Weights};

/// An atom costs as much as a hundred values, an operation as much as seven.
const WEIGHTS: Weights = Weights { users: 1, resources: 1, operations: 7, atoms: 100 };

/// A role file of another shape: it has no users, no resources, and so on.
const NOBODY: [u8; 6] = [0x01, 0, 0, 0, 0, 0x0F];

/// Four roles, 1 the junior of 3 and 3 of 1.
const CIRCULAR: [u8; 12] = [0x01, 0, 0, 0, 4, 0x07, 1, 3, 0x07, 3, 1, 0x0F];

/// Three roles: 1 has the user of 0 and the resource of 2, so that it merges with either.
const BETWEEN: [u8; 27] = [
    0x01, 2, 2, 1, 3, 0x05, 0, 0, 0x05, 1, 0, 0x05, 2, 1, 0x06, 0, 0, 0, 0x06, 1, 1, 0, 0x06, 2, 1,
    0, 0x0F,
];

/// A cut between roles 0 and 1, and one behind the last role.
const CUTS: [u8; 2] = [1, 3];

/// Three records of a usage log: user, resource, operation.
const USAGE: [u8; 9] = [0, 0, 0, 0, 1, 0, 1, 0, 0];

/// Prints what a call came to; passes on what it answered.
fn told<T>(call: &str, answer: Result<T, Refusal>) -> Option<T> {
    match answer {
        Ok(answer) => {
            println!("{call}: accepted");
            Some(answer)
        }
        Err(refusal) => {
            println!("{call}: refused {}", refusal.number());
            None
        }
    }
}

fn print_verdict(verdict: Verdict) {
    match verdict {
        Verdict::Sound => println!("verdict 0"),
        Verdict::Differ(Triple { user, resource, operation }) => {
            println!("verdict 1 user {user} resource {resource} operation {operation}")
        }
        Verdict::StrayRule(rule) => println!("verdict 2 rule {rule}"),
        Verdict::StrayPart(part) => println!("verdict 3 part {part}"),
    }
}

fn print_answer(granted: bool) {
    println!("answer {}", if granted { "yes" } else { "no" });
}

/// Prints the bytes of one rule, which are a part of the rules.
fn show(file: &[u8], rules: &[u8], rule: usize) {
    if let Some(part) = told("show", fichtengarn::show(file, rules, rule)) {
        let bytes: String = part.iter().map(|byte| format!(" {byte:02X}")).collect();
        println!("rule {rule}:{bytes}");
    }
}

/// Asks roles and rules about one triple.
fn ask(file: &[u8], rules: &[u8], asked: Triple) {
    println!("user {}, resource {}, operation {}", asked.user, asked.resource, asked.operation);
    if let Some(granted) = told("roles", fichtengarn::ask_roles(file, asked)) {
        print_answer(granted);
    }
    if let Some(granted) = told("rules", fichtengarn::ask_rules(file, rules, asked)) {
        print_answer(granted);
    }
}

/// Prints the roles of the circle of a role file with refusal 7.
fn circle(file: &[u8]) {
    if told("read roles", fichtengarn::read_roles(file)).is_some() {
        return;
    }
    let mut roles = [0; fichtengarn::MOST_ROLES];
    if let Some(count) = told("circle", fichtengarn::circle(file, &mut roles)) {
        let list: String = roles[..count].iter().map(|role| format!(" {role}")).collect();
        println!("circle:{list}");
    }
}

/// Makes a role file from a seed, and mines it.
fn load(seed: u32) -> Option<()> {
    let sizes = Sizes { users: 2, resources: 2, operations: 2, roles: 2 };
    let mut file = [0; fichtengarn::MOST_ROLE_BYTES];
    let length = told("load", fichtengarn::load(seed, sizes, &mut file))?;
    println!("length {length}");
    let mut scratch = [0; fichtengarn::SCRATCH_WORDS];
    let mut output = [0; 65536];
    let mined = fichtengarn::mine(&file[..length], &[], Weights::ONES, &mut scratch, &mut output);
    println!("rules {}", told("mine", mined)?.rules);
    Some(())
}

/// Mines with cuts, and prints the first rule.
fn mine_regions(cuts: &[u8]) -> Option<()> {
    let mut scratch = [0; fichtengarn::SCRATCH_WORDS];
    let mut output = [0; 65536];
    let mined = fichtengarn::mine(&BETWEEN, cuts, Weights::ONES, &mut scratch, &mut output);
    let mined = told("mine with cuts", mined)?;
    println!("rules {} merges {}", mined.rules, mined.merges);
    show(&BETWEEN, &output[..mined.length], 0);
    Some(())
}

/// Prints the word of a user and an operation.
fn print_rights(table: &[u64], user: usize, operation: usize) {
    let word = table[fichtengarn::USER_WORDS * user + operation];
    println!("user {user}, operation {operation}: {word:x}");
}

/// Keeps a summary of rights: fills it, and edits.
fn keep(file: &[u8]) -> Option<()> {
    let mut table = [0; fichtengarn::TABLE_WORDS];
    let mut record = told("read record", fichtengarn::read_record(file))?;
    told("fill", record.fill(&mut table))?;
    print_rights(&table, 0, 0);
    print_rights(&table, 1, 0);
    told("assign", record.assign(&mut table, 1, 0));
    print_rights(&table, 0, 0);
    told("assign", record.assign(&mut table, 2, 0));
    told("withdraw", record.withdraw(&mut table, 0, 0));
    print_rights(&table, 0, 0);
    Some(())
}

/// Counts the denials in a log, in windows of so many records.
fn denials(file: &[u8], rules: &[u8], log: &[u8], window: usize) {
    if let Some(denied) = told("denials", fichtengarn::denials(file, rules, log, window)) {
        println!("most {} start {}", denied.most, denied.start);
    }
}

/// Goes on with what each call answers; ends where one is refused.
fn work(file: &[u8]) -> Option<()> {
    let mut scratch = [0; fichtengarn::SCRATCH_WORDS];
    let mut output = [0; 65536];
    told("read roles", fichtengarn::read_roles(file))?;
    let mined =
        told("mine", fichtengarn::mine(file, &[], Weights::ONES, &mut scratch, &mut output))?;
    println!(
        "length {} parts {} rules {} merges {} cost {}",
        mined.length, mined.parts, mined.rules, mined.merges, mined.cost
    );
    let weighed = told("mine", fichtengarn::mine(file, &[], WEIGHTS, &mut scratch, &mut output))?;
    println!("cost {}", weighed.cost);
    let rules = &output[..mined.length];
    let count = told("read rules", fichtengarn::read_rules(file, rules))?;
    println!("rules {count}");
    print_verdict(told("judge", fichtengarn::judge(file, rules))?);
    show(file, rules, 0);
    show(file, rules, count);
    ask(file, rules, Triple { user: 0, resource: 0, operation: 0 });
    ask(file, rules, Triple { user: 0, resource: 1, operation: 0 });
    ask(file, rules, Triple { user: 0, resource: 0, operation: 1 });
    denials(file, rules, &USAGE, 2);
    denials(file, rules, &USAGE[..8], 2);
    told("read rules elsewhere", fichtengarn::read_rules(&NOBODY, rules));
    circle(&CIRCULAR);
    keep(file)?;
    load(0);
    load(1);
    mine_regions(&CUTS[..0]);
    mine_regions(&CUTS[..1]);
    mine_regions(&CUTS);
    Some(())
}

fn main() -> std::io::Result<()> {
    let path = std::env::args().nth(1).expect("usage: worked_example FILE");
    let file = std::fs::read(path)?;
    work(&file);
    Ok(())
}
