//! What the programs are given behind the number of turns, and what they add up.

pub struct Given<'a> {
    pub roles: &'a [u8],
    pub rules: &'a [u8],
    pub log: &'a [u8],
    pub window: usize,
}

impl<'a> From<&'a [u8]> for Given<'a> {
    /// Two bytes for the length of each file, one for the window, the files and the log.
    fn from(bytes: &'a [u8]) -> Given<'a> {
        let length = |at| u16::from_le_bytes([bytes[at], bytes[at + 1]]) as usize;
        let (roles, behind) = bytes[5..].split_at(length(0));
        let (rules, log) = behind.split_at(length(2));
        Given { roles, rules, log, window: bytes[4] as usize }
    }
}

/// The numbers of an answer, added up.
pub fn said(answer: Result<(usize, usize), u8>) -> u64 {
    match answer {
        Ok((most, start)) => (most + start) as u64,
        Err(number) => number as u64,
    }
}
