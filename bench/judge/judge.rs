//! The judge as one writes it in plain Rust: the same work as crates/rule_judge. Both files are read in one pass each. A rule's lines are
//! summed up in masks as they are read; at its end what it grants is compared with the grid of its parts, and joined to the grid of
//! all rules.

use crate::reader::{read, RoleFile};

#[derive(PartialEq, Debug)]
pub enum Judgement {
    Sound,
    Differ(usize, usize, usize),
    StrayRule(usize),
    StrayPart(usize),
    Refused(u8),
}

/// The attribute of the roles that a user holds, and of a resource's own number.
const OWN: u8 = 255;

/// By user and operation: a set of resources.
pub type Grid = [[u64; 16]; 64];

/// A rule of which all lines so far were read.
struct Rule {
    /// The last line: its command byte and its operands.
    last: (u8, u64, u64),
    /// By side and attribute, with the 255 as the seventh: who meets one of the values listed.
    met: [[u64; 7]; 2],
    /// By side: the attributes that have values listed.
    asked: [u8; 2],
    operations: u64,
    /// Bit 6 * a + b: the atom over user attribute a and resource attribute b.
    atoms: u64,
    lists_a_part: bool,
    tells_its_level: bool,
}

impl Rule {
    fn new() -> Rule {
        Rule {
            last: (0, 0, 0),
            met: [[0; 7]; 2],
            asked: [0; 2],
            operations: 0,
            atoms: 0,
            lists_a_part: false,
            tells_its_level: false,
        }
    }

    /// The lowest level that allows the conjuncts: by the two 255s.
    fn level(&self) -> u8 {
        (self.asked[0] >> 6 & 1) + 2 * (self.asked[1] >> 6 & 1)
    }

    /// Who of a side meets every conjunct.
    fn met_by_all(&self, side: usize, everybody: u64) -> u64 {
        let mut found = everybody;
        for attribute in 0..7 {
            if self.asked[side] >> attribute & 1 == 1 {
                found &= self.met[side][attribute];
            }
        }
        found
    }
}

/// The numbers below a count of at most 64.
fn below(count: u8) -> u64 {
    if count == 64 { u64::MAX } else { (1 << count) - 1 }
}

/// Whose values pass a test.
fn set_of(values: &[u64; 64], passes: impl Fn(u64) -> bool) -> u64 {
    values.iter().rev().fold(0, |found, &own| found << 1 | passes(own) as u64)
}

/// Whose values contain a set, or equal a value.
fn meeting(values: &[u64; 64], value: u64, by_containment: bool) -> u64 {
    if by_containment {
        set_of(values, |own| value & !own == 0)
    } else {
        set_of(values, |own| value == own)
    }
}

/// A rule file that is being read beside a role file.
pub struct Reading<'a> {
    file: &'a RoleFile,
    /// By atom and user: the resources of which the atom holds with the user. Worked out when a rule first has the atom.
    links: [[u64; 64]; 36],
    linked: u64,
    /// The grid of the parts under the open rule, and of all rules before it.
    parts: Grid,
    pub granted: Grid,
    rules: usize,
    stray_rule: Option<usize>,
    /// By role: the lowest operations of the parts listed so far, and of those listed again.
    seen: [u64; 32],
    again: [u64; 32],
}

impl<'a> Reading<'a> {
    pub fn beside(file: &'a RoleFile) -> Reading<'a> {
        Reading {
            file,
            links: [[0; 64]; 36],
            linked: 0,
            parts: [[0; 16]; 64],
            granted: [[0; 16]; 64],
            rules: 0,
            stray_rule: None,
            seen: [0; 32],
            again: [0; 32],
        }
    }

    /// The first command: what stands behind the 20, which has to say the role file's shape.
    fn opened<'b>(&self, bytes: &'b [u8]) -> Result<&'b [u8], u8> {
        let [command, operands @ ..] = bytes else { return Err(10) };
        let width = operand_bytes(*command).ok_or(11)?;
        if operands.len() < width {
            return Err(10);
        }
        if *command != 0x20 {
            return Err(12);
        }
        let (shape, behind) = operands.split_at(width);
        if shape == self.file.shape() { Ok(behind) } else { Err(16) }
    }

    /// Reads the rule file, or stops with the number of the refusal.
    pub fn read(&mut self, bytes: &[u8]) -> Result<(), u8> {
        let mut open = None;
        let mut rest = self.opened(bytes)?;
        loop {
            match *rest {
                [0x21, ref behind @ ..] => {
                    self.close(&open)?;
                    open = Some(Rule::new());
                    rest = behind;
                }
                [byte @ (0x22 | 0x24), attribute, low, high, ref behind @ ..] => {
                    let value = u16::from_le_bytes([low, high]) as u64;
                    let rule = following(&mut open, (byte, attribute as u64, value))?;
                    self.value(rule, (byte - 0x22) as usize / 2, false, attribute, value)?;
                    rest = behind;
                }
                [byte @ (0x23 | 0x25), attribute, b0, b1, b2, b3, b4, b5, b6, b7, ref behind @ ..] => {
                    let value = u64::from_le_bytes([b0, b1, b2, b3, b4, b5, b6, b7]);
                    let rule = following(&mut open, (byte, attribute as u64, value))?;
                    self.value(rule, (byte - 0x23) as usize / 2, true, attribute, value)?;
                    rest = behind;
                }
                [0x26, low, high, ref behind @ ..] => {
                    let operations = u16::from_le_bytes([low, high]) as u64;
                    let rule = following(&mut open, (0x26, operations, 0))?;
                    if rule.operations != 0 {
                        return Err(12);
                    }
                    if operations == 0 || operations >> self.file.operations != 0 {
                        return Err(13);
                    }
                    rule.operations = operations;
                    rest = behind;
                }
                [0x27, user, resource, ref behind @ ..] => {
                    let rule = following(&mut open, (0x27, user as u64, resource as u64))?;
                    self.atom(rule, user as usize, resource as usize)?;
                    rest = behind;
                }
                [0x28, role, low, high, ref behind @ ..] => {
                    let class = u16::from_le_bytes([low, high]) as u64;
                    let rule = following(&mut open, (0x28, role as u64, class))?;
                    self.part(role as usize, class)?;
                    rule.lists_a_part = true;
                    rest = behind;
                }
                [0x29, level, ref behind @ ..] => {
                    let rule = following(&mut open, (0x29, level as u64, 0))?;
                    if rule.tells_its_level {
                        return Err(12);
                    }
                    if level != rule.level() {
                        return Err(18);
                    }
                    rule.tells_its_level = true;
                    rest = behind;
                }
                [0x2F, ref behind @ ..] => {
                    self.close(&open)?;
                    return if behind.is_empty() { Ok(()) } else { Err(12) };
                }
                [0x20, _, _, _, _, _, _, ..] => return Err(12),
                [] | [0x20 | 0x22..=0x29, ..] => return Err(10),
                _ => return Err(11),
            }
        }
    }

    /// Commands 22 to 25.
    fn value(&self, rule: &mut Rule, side: usize, is_set: bool, attribute: u8, value: u64) -> Result<(), u8> {
        let file = self.file;
        let (slot, found) = if attribute == OWN {
            match side {
                0 if is_set && value >> file.roles == 0 => {
                    let mut found = below(file.users);
                    let mut roles = value;
                    while roles != 0 {
                        found &= file.holders[roles.trailing_zeros() as usize];
                        roles &= roles - 1;
                    }
                    (6, found)
                }
                1 if !is_set && value < file.resources as u64 => (6, 1 << value),
                _ => return Err(13),
            }
        } else {
            let attribute = attribute as usize;
            if attribute >= file.attributes[side] || (file.kinds[side] >> attribute & 1 == 1) != is_set {
                return Err(13);
            }
            let found = meeting(&file.values[side][attribute], value, is_set && side == 0);
            (attribute, found & file.known[side][attribute])
        };
        rule.met[side][slot] |= found;
        rule.asked[side] |= 1 << slot;
        Ok(())
    }

    /// Command 27.
    fn atom(&mut self, rule: &mut Rule, user: usize, resource: usize) -> Result<(), u8> {
        let file = self.file;
        if user >= file.attributes[0] || resource >= file.attributes[1] {
            return Err(13);
        }
        let is_set = [file.kinds[0] >> user & 1 == 1, file.kinds[1] >> resource & 1 == 1];
        if is_set == [false, true] || file.domains[0][user] != file.domains[1][resource] {
            return Err(13);
        }
        let atom = 6 * user + resource;
        rule.atoms |= 1 << atom;
        if self.linked >> atom & 1 == 0 {
            self.linked |= 1 << atom;
            let values = &file.values[1][resource];
            for who in 0..64 {
                if file.known[0][user] >> who & 1 == 0 {
                    continue;
                }
                let own = file.values[0][user][who];
                let found = match is_set {
                    [true, true] => set_of(values, |value| value & !own == 0),
                    [true, false] => set_of(values, |value| value < 64 && own >> value & 1 == 1),
                    _ => set_of(values, |value| value == own),
                };
                self.links[atom][who] = found & file.known[1][resource];
            }
        }
        Ok(())
    }

    /// Command 28.
    fn part(&mut self, role: usize, class: u64) -> Result<(), u8> {
        let file = self.file;
        let lowest = class.trailing_zeros() as usize;
        if role >= file.roles as usize || file.holders[role] == 0 || lowest >= file.operations as usize {
            return Err(13);
        }
        let permissions = &file.permissions[role];
        if permissions[lowest] == 0 || class_of(permissions, lowest) != class {
            return Err(13);
        }
        let mut holders = file.holders[role];
        while holders != 0 {
            let row = &mut self.parts[holders.trailing_zeros() as usize];
            let mut operations = class;
            while operations != 0 {
                row[operations.trailing_zeros() as usize] |= permissions[lowest];
                operations &= operations - 1;
            }
            holders &= holders - 1;
        }
        self.again[role] |= self.seen[role] & 1 << lowest;
        self.seen[role] |= 1 << lowest;
        Ok(())
    }

    /// The end of a rule, at the next 21 or 2F.
    fn close(&mut self, open: &Option<Rule>) -> Result<(), u8> {
        let Some(rule) = open else { return Ok(()) };
        if rule.operations == 0 || !rule.lists_a_part || !rule.tells_its_level {
            return Err(12);
        }
        let users = rule.met_by_all(0, below(self.file.users));
        let resources = rule.met_by_all(1, below(self.file.resources));
        let mut of_operation = [0; 16];
        for (operation, all) in of_operation.iter_mut().enumerate() {
            *all = if rule.operations >> operation & 1 == 1 { u64::MAX } else { 0 };
        }
        let mut differences = 0;
        for user in 0..64 {
            let mut row = if users >> user & 1 == 1 { resources } else { 0 };
            let mut atoms = rule.atoms;
            while atoms != 0 {
                row &= self.links[atoms.trailing_zeros() as usize][user];
                atoms &= atoms - 1;
            }
            for operation in 0..16 {
                let cell = row & of_operation[operation];
                differences |= cell ^ self.parts[user][operation];
                self.granted[user][operation] |= cell;
                self.parts[user][operation] = 0;
            }
        }
        if differences != 0 && self.stray_rule.is_none() {
            self.stray_rule = Some(self.rules);
        }
        self.rules += 1;
        Ok(())
    }

    fn verdict(&self) -> Judgement {
        let file = self.file;
        let roles = by_roles(file);
        for user in 0..file.users as usize {
            if roles[user] == self.granted[user] {
                continue;
            }
            for resource in 0..file.resources as usize {
                for operation in 0..file.operations as usize {
                    if (roles[user][operation] ^ self.granted[user][operation]) >> resource & 1 == 1 {
                        return Judgement::Differ(user, resource, operation);
                    }
                }
            }
        }
        if let Some(rule) = self.stray_rule {
            return Judgement::StrayRule(rule);
        }
        let mut number = 0;
        for role in 0..file.roles as usize {
            let permissions = &file.permissions[role];
            for operation in 0..file.operations as usize {
                let is_part = file.holders[role] != 0
                    && permissions[operation] != 0
                    && !permissions[..operation].contains(&permissions[operation]);
                if is_part {
                    if (self.seen[role] & !self.again[role]) >> operation & 1 == 0 {
                        return Judgement::StrayPart(number);
                    }
                    number += 1;
                }
            }
        }
        Judgement::Sound
    }
}

/// How many operand bytes a command has.
fn operand_bytes(command: u8) -> Option<usize> {
    match command {
        0x20 => Some(6),
        0x21 | 0x2F => Some(0),
        0x22 | 0x24 | 0x28 => Some(3),
        0x23 | 0x25 => Some(9),
        0x26 | 0x27 => Some(2),
        0x29 => Some(1),
        _ => None,
    }
}

/// The rule that is open, if a line may follow those that it has.
fn following(open: &mut Option<Rule>, line: (u8, u64, u64)) -> Result<&mut Rule, u8> {
    match open {
        Some(rule) if rule.last < line => {
            rule.last = line;
            Ok(rule)
        }
        _ => Err(12),
    }
}

/// The operations with the same resources as one of them.
fn class_of(permissions: &[u64; 16], lowest: usize) -> u64 {
    let mut class = 0;
    for (operation, &resources) in permissions.iter().enumerate() {
        class |= ((resources == permissions[lowest]) as u64) << operation;
    }
    class
}

/// What the roles grant.
fn by_roles(file: &RoleFile) -> Grid {
    let mut grid = [[0; 16]; 64];
    for role in 0..file.roles as usize {
        let mut holders = file.holders[role];
        while holders != 0 {
            let row = &mut grid[holders.trailing_zeros() as usize];
            for (operation, &resources) in file.permissions[role].iter().enumerate() {
                row[operation] |= resources;
            }
            holders &= holders - 1;
        }
    }
    grid
}

fn judged(role_file: &[u8], rule_file: &[u8]) -> Result<Judgement, u8> {
    let file = read(role_file)?;
    let mut reading = Reading::beside(&file);
    reading.read(rule_file)?;
    Ok(reading.verdict())
}

pub fn judge(role_file: &[u8], rule_file: &[u8]) -> Judgement {
    judged(role_file, rule_file).unwrap_or_else(Judgement::Refused)
}
