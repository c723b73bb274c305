//! In what a mask is another one than the held one under its number, for the counts
//! of 13 (document 02, Ask 2). The reader has no part in it.

use super::bits::Fields;
use super::generate::Case;
use super::holding::{Holding, Mask, System};
use super::mask_message::take_mask;

/// A kind of difference: its name, and whether two masks differ so.
type Kind = (&'static str, fn(&Mask, &Mask) -> bool);

/// The parts of an `S` line. The first in which two masks differ is their kind: what
/// comes after it, as a cell mask after a satellite mask, has to differ with it.
pub const KINDS: [Kind; 7] = [
    ("number of systems", |held, sent| held.systems.len() != sent.systems.len()),
    ("system ID", |held, sent| !sent.systems.iter().all(|system| held.names(system.id))),
    ("order of systems", |held, sent| differ(held, sent, |system| system.id)),
    ("satellite mask", |held, sent| differ(held, sent, |system| system.satellites)),
    ("signal mask", |held, sent| differ(held, sent, |system| system.signals)),
    ("cell flag", |held, sent| differ(held, sent, |system| system.cells.is_some())),
    ("cell mask", |held, sent| differ(held, sent, |system| system.cells.clone())),
];

fn differ<T: PartialEq>(held: &Mask, sent: &Mask, part: fn(&System) -> T) -> bool {
    let mut pairs = held.systems.iter().zip(&sent.systems);
    pairs.any(|(one, other)| part(one) != part(other))
}

/// The kind of two good masks; none where they are the same.
pub fn kind(held: &Mask, sent: &Mask) -> Option<&'static str> {
    KINDS.iter().find(|kind| kind.1(held, sent)).map(|kind| kind.0)
}

/// The kind of what is held and the good mask message at the place.
pub fn kind_at(case: &Case, place: usize, holding: &Holding) -> Option<&'static str> {
    match holding {
        Holding::Held(held) => kind(held, &sent(case, place)?),
        _ => None,
    }
}

/// The mask that the message says: its IOD SSR stands after number, sub type, epoch,
/// interval and indicator.
fn sent(case: &Case, place: usize) -> Option<Mask> {
    let mut fields = Fields::new(&case.bytes, place + 12 + 4 + 20 + 4 + 1, case.bit_length);
    let iod = fields.unsigned(4).ok()? as u8;
    take_mask(&mut fields, iod).ok()
}
