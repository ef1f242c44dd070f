//! The reader of role files as one writes it in plain Rust: the same work as crates/role_file, one pass over the bytes into tables of
//! masks, then seniors and holders worked out.

const USERS: u8 = 64;
const RESOURCES: u8 = 64;
const OPERATIONS: u8 = 16;
const ROLES: u8 = 32;
const ATTRIBUTES: usize = 6;

#[derive(Clone, Copy)]
pub struct RoleFile {
    pub users: u8,
    pub resources: u8,
    pub operations: u8,
    pub roles: u8,
    /// By side, 0 users and 1 resources: how many attributes there are, and which of them are sets.
    pub attributes: [usize; 2],
    pub kinds: [u64; 2],
    /// By side and attribute: the domain.
    pub domains: [[u8; 6]; 2],
    /// By side and attribute: who knows it, and the values.
    pub known: [[u64; 6]; 2],
    pub values: [[[u64; 64]; 6]; 2],
    /// By role: the users assigned, and the direct seniors.
    pub assigned: [u64; 32],
    pub lines: [u64; 32],
    /// By role and operation: the resources.
    pub permissions: [[u64; 16]; 32],
    /// By role, worked out: all seniors, and the holders.
    pub seniors: [u64; 32],
    pub holders: [u64; 32],
}

impl RoleFile {
    fn empty() -> RoleFile {
        RoleFile {
            users: 0,
            resources: 0,
            operations: 0,
            roles: 0,
            attributes: [0; 2],
            kinds: [0; 2],
            domains: [[0; 6]; 2],
            known: [[0; 6]; 2],
            values: [[[0; 64]; 6]; 2],
            assigned: [0; 32],
            lines: [0; 32],
            permissions: [[0; 16]; 32],
            seniors: [0; 32],
            holders: [0; 32],
        }
    }

    /// What the 20 of a rule file beside this role file says: the sizes, and how many attributes each side has.
    #[allow(dead_code)] // reading role files alone needs none
    pub fn shape(&self) -> [u8; 6] {
        let [of_users, of_resources] = self.attributes.map(|count| count as u8);
        [self.users, self.resources, self.operations, self.roles, of_users, of_resources]
    }

    /// Command 02, which means domain 0, or 08: one attribute more.
    fn declare(&mut self, side: u8, kind: u8, domain: u8) -> Result<(), u8> {
        let side = side as usize;
        if side > 1 || kind > 1 || self.attributes[side] == ATTRIBUTES {
            return Err(5);
        }
        self.kinds[side] |= (kind as u64) << self.attributes[side];
        self.domains[side][self.attributes[side]] = domain;
        self.attributes[side] += 1;
        Ok(())
    }

    /// Command 03 or 04: the value of an attribute.
    fn give(&mut self, is_set: bool, side: u8, attribute: u8, who: u8, value: u64) -> Result<(), u8> {
        let (side, attribute) = (side as usize, attribute as usize);
        if side > 1 || attribute >= self.attributes[side] {
            return Err(5);
        }
        if who >= (if side == 0 { self.users } else { self.resources }) {
            return Err(5);
        }
        let known = &mut self.known[side][attribute];
        if (self.kinds[side] >> attribute & 1 == 1) != is_set || *known >> who & 1 == 1 {
            return Err(6);
        }
        *known |= 1 << who;
        self.values[side][attribute][who as usize] = value;
        Ok(())
    }

    /// Seniors and holders, or refusal 7.
    fn settle(&mut self) -> Result<(), u8> {
        let roles = self.roles as usize;
        self.seniors = self.lines;
        for between in 0..roles {
            for role in 0..roles {
                if self.seniors[role] >> between & 1 == 1 {
                    self.seniors[role] |= self.seniors[between];
                }
            }
        }
        for role in 0..roles {
            if self.seniors[role] >> role & 1 == 1 {
                return Err(7);
            }
        }
        for role in 0..roles {
            let mut holders = self.assigned[role];
            for senior in 0..roles {
                if self.seniors[role] >> senior & 1 == 1 {
                    holders |= self.assigned[senior];
                }
            }
            self.holders[role] = holders;
        }
        Ok(())
    }
}

#[derive(PartialEq)]
enum Phase {
    Nothing,
    Declaring,
    Telling,
}

/// The file, or the number of the refusal.
pub fn read(bytes: &[u8]) -> Result<RoleFile, u8> {
    if bytes.len() > 65_535 {
        return Err(1);
    }
    let mut file = RoleFile::empty();
    let mut phase = Phase::Nothing;
    let mut rest = bytes;
    loop {
        match *rest {
            [0x01, users, resources, operations, roles, ref behind @ ..] => {
                if phase != Phase::Nothing {
                    return Err(4);
                }
                if users > USERS || resources > RESOURCES || operations > OPERATIONS || roles > ROLES {
                    return Err(5);
                }
                file.users = users;
                file.resources = resources;
                file.operations = operations;
                file.roles = roles;
                phase = Phase::Declaring;
                rest = behind;
            }
            [0x02, side, kind, ref behind @ ..] => {
                if phase != Phase::Declaring {
                    return Err(4);
                }
                file.declare(side, kind, 0)?;
                rest = behind;
            }
            [0x03, side, attribute, who, low, high, ref behind @ ..] => {
                if phase == Phase::Nothing {
                    return Err(4);
                }
                file.give(false, side, attribute, who, u16::from_le_bytes([low, high]) as u64)?;
                phase = Phase::Telling;
                rest = behind;
            }
            [0x04, side, attribute, who, b0, b1, b2, b3, b4, b5, b6, b7, ref behind @ ..] => {
                if phase == Phase::Nothing {
                    return Err(4);
                }
                let value = u64::from_le_bytes([b0, b1, b2, b3, b4, b5, b6, b7]);
                file.give(true, side, attribute, who, value)?;
                phase = Phase::Telling;
                rest = behind;
            }
            [0x05, role, user, ref behind @ ..] => {
                if phase == Phase::Nothing {
                    return Err(4);
                }
                if role >= file.roles || user >= file.users {
                    return Err(5);
                }
                file.assigned[role as usize] |= 1 << user;
                phase = Phase::Telling;
                rest = behind;
            }
            [0x06, role, resource, operation, ref behind @ ..] => {
                if phase == Phase::Nothing {
                    return Err(4);
                }
                if role >= file.roles || resource >= file.resources || operation >= file.operations {
                    return Err(5);
                }
                file.permissions[role as usize][operation as usize] |= 1 << resource;
                phase = Phase::Telling;
                rest = behind;
            }
            [0x07, junior, senior, ref behind @ ..] => {
                if phase == Phase::Nothing {
                    return Err(4);
                }
                if junior >= file.roles || senior >= file.roles {
                    return Err(5);
                }
                file.lines[junior as usize] |= 1 << senior;
                phase = Phase::Telling;
                rest = behind;
            }
            [0x08, side, kind, domain, ref behind @ ..] => {
                if phase != Phase::Declaring {
                    return Err(4);
                }
                file.declare(side, kind, domain)?;
                rest = behind;
            }
            [0x0F, ref behind @ ..] => {
                if phase == Phase::Nothing || !behind.is_empty() {
                    return Err(4);
                }
                file.settle()?;
                return Ok(file);
            }
            [] | [0x01..=0x08, ..] => return Err(2),
            _ => return Err(3),
        }
    }
}
