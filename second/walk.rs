//! The walk over a stretch (document 01, "The walk reads from place 0 until
//! idle or a refusal"; document 02, Ask 2 for what 13 leaves).

use super::answer::{Stop, IDLE};
use super::holding::Holding;
use super::reader::{held_after, read, Message};

/// Where and why the walk stopped, and what came before.
#[derive(Clone, Debug, PartialEq, Eq)]
pub struct Walk {
    pub stop: Stop,
    pub messages: usize,
    pub rows: usize,
    /// Masks adopted before a refusal stay, but not before 13, which drops the held
    /// mask even if it was adopted in this very stretch.
    pub holding: Holding,
}

/// Walks, showing each accepted message with its place and the row buffer as
/// it then is. Nothing after a refusal is read.
pub fn walk(
    holding: &Holding,
    bytes: &[u8],
    bit_length: usize,
    rows: &mut [i32],
    mut show: impl FnMut(usize, &Message, &[i32]),
) -> Walk {
    let mut place = 0;
    let mut walk = Walk {
        stop: Stop::plain(IDLE, 0),
        messages: 0,
        rows: 0,
        holding: holding.clone(),
    };
    loop {
        let reading = read(&walk.holding, bytes, bit_length, place, rows);
        walk.holding = held_after(&reading, &walk.holding);
        match reading {
            Ok(message) => {
                show(place, &message, rows);
                walk.messages += 1;
                walk.rows += message.rows;
                place = message.next;
            }
            Err(stop) => {
                walk.stop = stop;
                return walk;
            }
        }
    }
}
