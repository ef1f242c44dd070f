//! What the three programs share: each reads what it is given, asks a question a turn, and adds up what was said.

/// A role file, and the rules beside it where the rule question is asked.
pub struct Given<'a> {
    pub roles: &'a [u8],
    pub rules: Option<&'a [u8]>,
}

impl Given<'_> {
    /// Two bytes with the length of the role file, low byte first, the role file, and the rule file if there is one.
    pub fn from(bytes: &[u8]) -> Given<'_> {
        let length = u16::from_le_bytes([bytes[0], bytes[1]]) as usize;
        let (roles, rules) = bytes[2..].split_at(length);
        Given { roles, rules: (!rules.is_empty()).then_some(rules) }
    }

    /// The user, resource and operation of a turn: within the sizes, which stand behind the role file's first byte, and others each turn.
    pub fn question(&self, turn: usize) -> [usize; 3] {
        let below = |place: usize, number: usize| number % self.roles[place] as usize;
        [below(1, turn), below(2, turn / 2), below(3, turn / 3)]
    }
}

/// An answer or a refusal as a number.
pub fn said<E: Into<u64>>(answer: Result<bool, E>) -> u64 {
    match answer {
        Ok(yes) => yes as u64,
        Err(number) => 2 + number.into(),
    }
}
