//! Lent holdings for the generator: encodings of 194 bytes (docs/HOST.md) and
//! what can be wrong with them. A damaged one may well be good again.

use std::ops::Range;

use super::super::holding::{Holding, Mask};
use super::super::host::{encode, HOLDING_BYTES};
use super::super::random::Random;
use super::masks;

/// The parts of an encoding: numbers, IDs, cell flags, signal masks, satellite
/// masks, and the signals that count for each satellite.
const PARTS: [Range<usize>; 6] = [0..6, 6..11, 11..16, 16..26, 26..66, COUNTING];
const SATELLITES: usize = 3;
const CELLS: usize = 4;
const SATELLITE_MASKS: Range<usize> = 26..66;
const COUNTING: Range<usize> = 66..HOLDING_BYTES;

/// A kind of good holding: its name, how often it comes, and one of it.
pub type Good = (&'static str, usize, fn(&mut Random) -> Holding);

pub const GOOD: [Good; 6] = [
    ("empty", 2, |_| Holding::Empty),
    ("no systems", 2, |random| {
        let iod = random.below(16) as u8;
        Holding::Held(Mask { iod, systems: Vec::new() })
    }),
    ("any mask", 10, |random| Holding::Held(masks::named(random))),
    ("limit met", 3, |random| Holding::Held(masks::at_limit(random, 0))),
    ("wide cell mask", 3, |random| Holding::Held(masks::wide(random))),
    ("cell mask of no bits", 2, |random| Holding::Held(masks::bare(random))),
];

/// Now and then lends other bytes after the 194.
pub fn lengthen(random: &mut Random, lent: &mut Vec<u8>) {
    if random.chance(5) {
        let further = random.pick(&[1, 2, 6, 62, HOLDING_BYTES]);
        lent.extend((0..further).map(|_| random.next() as u8));
    }
}

/// Damages a lent holding: above all in a single bit.
pub fn damage(random: &mut Random, lent: &mut Vec<u8>) {
    match random.below(20) {
        0..=9 => flip(random, lent),
        10 | 11 => recount_cells(random, lent),
        12 | 13 => recount_satellites(random, lent),
        14 | 15 => {
            let bad = bad_mask(random);
            lent[..HOLDING_BYTES].copy_from_slice(&encode(&bad));
        }
        16 => lent.swap(6, 7 + random.below(4)),
        17 => lent[..HOLDING_BYTES].fill_with(|| random.next() as u8),
        _ => {
            let any = random.below(HOLDING_BYTES);
            lent.truncate(random.pick(&[0, 1, 66, HOLDING_BYTES - 1, any]));
        }
    }
}

/// Flips one bit of any part, of the last mostly where satellites are counted.
pub fn flip(random: &mut Random, lent: &mut [u8]) {
    let mut part = PARTS[random.below(PARTS.len())].clone();
    if part == COUNTING && random.chance(80) {
        part = counted(lent);
    }
    flip_in(random, lent, part);
}

/// Flips one bit of these bytes; true if it is set from then on.
fn flip_in(random: &mut Random, lent: &mut [u8], part: Range<usize>) -> bool {
    let byte = &mut lent[part.start + random.below(part.len())];
    let one = 1 << random.below(8);
    *byte ^= one;
    *byte & one != 0
}

/// The bytes of the satellites that an encoding counts, or of the first.
pub fn counted(lent: &[u8]) -> Range<usize> {
    let satellites = usize::from(lent[SATELLITES]).max(1);
    COUNTING.start..(COUNTING.start + 2 * satellites).min(COUNTING.end)
}

/// A signal more or less for a satellite, and the number of cells with it.
pub fn recount_cells(random: &mut Random, lent: &mut [u8]) {
    let part = counted(lent);
    let more = flip_in(random, lent, part);
    let count = u16::from_le_bytes([lent[CELLS], lent[CELLS + 1]]);
    let count = if more { count.wrapping_add(1) } else { count.wrapping_sub(1) };
    lent[CELLS..CELLS + 2].copy_from_slice(&count.to_le_bytes());
}

/// A satellite more or less, and the number of satellites with it; the signals
/// that count for the others stay where they are.
pub fn recount_satellites(random: &mut Random, lent: &mut [u8]) {
    let more = flip_in(random, lent, SATELLITE_MASKS);
    let count = lent[SATELLITES];
    lent[SATELLITES] = if more { count.wrapping_add(1) } else { count.wrapping_sub(1) };
}

/// A mask that no message makes, with every count its own.
fn bad_mask(random: &mut Random) -> Mask {
    match random.below(3) {
        0 => masks::with_bad_system(random),
        1 => masks::with_reserved_place(random),
        _ => masks::at_limit(random, 1),
    }
}
