//! Memory that is lent to a call that writes a list or a file to its front, with bytes on both sides.

use crate::same;

/// What stands in the memory before a call, and on both sides of it.
const FORMER: u8 = 0xA5;

/// Bytes on each side of the memory that is lent.
const EDGE: usize = 8;

/// Lends the call so many bytes: it must answer how many it has written, and write those and nothing
/// else.
pub fn compare(
    what: &str,
    room: usize,
    theirs: Result<Vec<u8>, usize>,
    call: impl FnOnce(&mut [u8]) -> Result<usize, usize>,
) -> Result<(), String> {
    let mut memory = vec![FORMER; EDGE + room + EDGE];
    let mut wanted = memory.clone();
    if let Ok(bytes) = &theirs {
        wanted[EDGE..EDGE + bytes.len()].copy_from_slice(bytes);
    }
    let ours = call(&mut memory[EDGE..EDGE + room]);
    let what = format!("{what}, in {room} bytes of memory");
    same(&what, ours, theirs.map(|bytes| bytes.len()))?;
    same(&format!("{what}: the memory"), memory, wanted)
}
