//! Saving, loading, and a line of the listing's input, as a host in C asks for
//! them (docs/HOST.md): numbers and byte slices.

use super::answer::{ROOM, VALUE};
use super::host::{decode, put, HOLDING_BYTES, MESSAGE};
use super::{listing, saved};

/// The answer number of what is done, a message's own.
pub const DONE: u8 = MESSAGE;

/// The answer to saving and to a line of the listing's input.
#[derive(Clone, Copy, Debug, PartialEq, Eq)]
pub struct Done {
    /// `DONE`, 1 or 12.
    pub number: u8,
    /// Bytes of the saved line, or bits of the stretch; else 0.
    pub count: usize,
}

/// Saves the lent holding into the line buffer.
pub fn save(lent: &[u8], buffer: &mut [u8]) -> Done {
    match saved::save(&decode(lent), buffer) {
        Ok(count) => Done { number: DONE, count },
        Err(stop) => Done { number: stop.number, count: 0 },
    }
}

/// The answer to loading a line, and the 194 bytes of the holding beside it.
pub fn load(line: &[u8]) -> (u8, Vec<u8>) {
    let (loaded, holding) = saved::load(line);
    let mut bytes = vec![0; HOLDING_BYTES];
    put(&holding, &mut bytes);
    (loaded.map_or_else(|stop| stop.number, |()| DONE), bytes)
}

/// Puts the stretch that a line of the listing's input says into the buffer's
/// first bytes; "12 comes before 1".
pub fn line(line: &[u8], buffer: &mut [u8]) -> Done {
    let (stretch, bits) = match listing::parse(line) {
        Some(said) => said,
        None => return Done { number: VALUE, count: 0 },
    };
    match buffer.get_mut(..stretch.len()) {
        Some(first) => {
            first.copy_from_slice(&stretch);
            Done { number: DONE, count: bits }
        }
        None => Done { number: ROOM, count: 0 },
    }
}
