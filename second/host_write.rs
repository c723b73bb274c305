//! Writing, as a host in C asks for it (docs/HOST.md, `hundurzek_write`): a
//! holding's bytes, a head of any length, numbers and how many rows of them
//! count, and the bytes to write into.

use super::host::decode;
use super::host_lines::DONE;
use super::{writer, ABSENT, COLUMNS};

/// The answer to a writing, as the host gets it.
#[derive(Clone, Copy, Debug, PartialEq, Eq)]
pub struct Written {
    /// `DONE`, or the refusal's number.
    pub number: u8,
    /// After the message; else the start asked for.
    pub place: usize,
    /// The message's length in bits; else 0.
    pub count: usize,
}

/// Writes one message under the lent holding.
pub fn write(
    lent: &[u8],
    head: &[i32],
    numbers: &[i32],
    rows: usize,
    bytes: &mut [u8],
    start: usize,
) -> Written {
    match writer::write(&decode(lent), &whole_head(head), numbers, rows, bytes, start) {
        Ok(place) => Written { number: DONE, place, count: place - start },
        Err(stop) => Written { number: stop.number, place: stop.place, count: 0 },
    }
}

/// "Of a longer slice the first eight count; where fewer are lent the others
/// are absent."
fn whole_head(lent: &[i32]) -> [i32; COLUMNS] {
    let mut head = [ABSENT; COLUMNS];
    for (number, &lent) in head.iter_mut().zip(lent) {
        *number = lent;
    }
    head
}
