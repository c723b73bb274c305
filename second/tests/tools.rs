//! What several tests need: messages by hand, readings of them, row buffers.

use std::collections::HashMap;

use super::Group;
use crate::codec::bits::pack;
pub use crate::codec::generate::hand::*;
use crate::codec::holding::Holding;
use crate::codec::reader::{read, Message, Reading};
use crate::codec::{ABSENT, COLUMNS, ROW_ROOM};

/// Absent, as it stands in expected heads and rows.
pub const NO: i32 = ABSENT;

/// A row buffer with content that rows don't have by chance.
pub fn row_buffer() -> Vec<i32> {
    (0..ROW_ROOM as i32).map(|number| 1_000_000 + number).collect()
}

/// Reads at place 0 of exactly these bits.
pub fn reading(holding: &Holding, bits: &[bool]) -> Reading {
    read(holding, &pack(bits), bits.len(), 0, &mut row_buffer())
}

/// The answer number of a reading at place 0, if it isn't accepted.
pub fn stop(holding: &Holding, bits: &[bool]) -> Option<u8> {
    reading(holding, bits).err().map(|stop| stop.number)
}

/// The message and its rows when a reading at place 0 is accepted.
pub fn message(holding: &Holding, bits: &[bool]) -> Option<(Message, Vec<Vec<i32>>)> {
    let mut rows = row_buffer();
    let message = read(holding, &pack(bits), bits.len(), 0, &mut rows).ok()?;
    let found = rows.chunks(COLUMNS).take(message.rows).map(<[i32]>::to_vec).collect();
    Some((message, found))
}

/// The length of the message when a reading at place 0 is accepted.
pub fn length(holding: &Holding, bits: &[bool]) -> Option<usize> {
    message(holding, bits).map(|(message, _)| message.next)
}

/// What is held after an accepted mask message.
pub fn adopted(bits: &[bool]) -> Holding {
    message(&Holding::Empty, bits).map_or(Holding::Empty, |(message, _)| message.holding)
}

/// How often each thing was seen.
#[derive(Default)]
pub struct Seen(HashMap<String, usize>);

impl Seen {
    pub fn note(&mut self, what: String) {
        *self.0.entry(what).or_default() += 1;
    }

    pub fn note_if(&mut self, is_so: bool, what: &str) {
        if is_so {
            self.note(what.to_string());
        }
    }

    /// Each of these was seen at least so often.
    pub fn check_often<T: AsRef<str>>(&self, group: &mut Group, wanted: &[T], least: usize) {
        for what in wanted {
            let often = self.0.get(what.as_ref()).copied().unwrap_or(0);
            group.check(&format!("{}, {often} times", what.as_ref()), often >= least);
        }
    }
}
