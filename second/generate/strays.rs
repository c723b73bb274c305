//! Lent bytes that are no holding, one kind for each way in which docs/HOST.md
//! says that they can be none, at the bytes that it names. What some kinds leave
//! may be a holding again.

use super::super::host::{encode, HOLDING_BYTES};
use super::super::random::Random;
use super::holdings::{counted, flip, recount_cells, recount_satellites};
use super::masks;

/// What no bytes of a good holding hold, by its name; it gets a holding's bytes
/// that have a system.
pub type Stray = (&'static str, fn(&mut Random, &mut Vec<u8>));

pub const STRAYS: [Stray; 22] = [
    ("byte 0 over 1", |random, lent| lent[0] = random.pick(&[2, 3, 128, 255])),
    ("byte 0 under a mask", |_, lent| lent[0] = 0),
    ("IOD byte over 15", |random, lent| lent[1] = random.pick(&[16, 17, 128, 255])),
    ("number of systems", |random, lent| lent[2] = other(random, lent[2], 8)),
    ("number of satellites", |random, lent| lent[3] = other(random, lent[3], 66)),
    ("number of cells", |random, lent| {
        let at = 4 + random.below(2);
        lent[at] = other(random, lent[at], 256);
    }),
    ("ID byte", |random, lent| {
        let at = 6 + random.below(usize::from(lent[2]));
        lent[at] = other(random, lent[at], 8);
    }),
    ("flag byte over 1", |random, lent| {
        let at = 11 + random.below(5);
        lent[at] = random.pick(&[2, 3, 128, 255]);
    }),
    ("other flag byte", |random, lent| {
        let at = 11 + random.below(usize::from(lent[2]));
        lent[at] ^= 1;
    }),
    ("satellite place 40", |random, lent| {
        let at = 26 + 8 * random.below(5);
        lent[at + 5 + random.below(3)] = 1 << random.below(8);
    }),
    ("unused system", unused_system),
    ("unused satellite", |random, lent| {
        let from = counted(lent).end;
        any_bit(random, lent, from.min(HOLDING_BYTES - 2));
    }),
    ("strip", |random, lent| {
        let at = counted(lent);
        lent[at.start + random.below(at.len())] ^= 1 << random.below(8);
    }),
    ("cells counted anew", |random, lent| recount_cells(random, lent)),
    ("satellites counted anew", |random, lent| recount_satellites(random, lent)),
    ("bad system", |random, lent| *lent = encode(&masks::with_bad_system(random))),
    ("reserved place", |random, lent| *lent = encode(&masks::with_reserved_place(random))),
    ("over a limit", |random, lent| *lent = encode(&masks::at_limit(random, 1))),
    ("one bit", |random, lent| flip(random, lent)),
    ("empty but for a byte", |random, lent| {
        lent.fill(0);
        any_bit(random, lent, 0);
    }),
    ("random holding", |random, lent| lent.fill_with(|| random.next() as u8)),
    ("fewer bytes", |random, lent| {
        let any = random.below(HOLDING_BYTES);
        lent.truncate(random.pick(&[0, 1, 66, HOLDING_BYTES - 1, any]));
    }),
];

/// Another number: one more, one less, or any below the bound.
fn other(random: &mut Random, number: u8, bound: usize) -> u8 {
    let any = random.below(bound) as u8;
    random.pick(&[number.wrapping_add(1), number.wrapping_sub(1), any])
}

/// Sets any bit from some byte on.
fn any_bit(random: &mut Random, lent: &mut [u8], from: usize) {
    let at = from + random.below(lent.len() - from);
    lent[at] |= 1 << random.below(8);
}

/// Something in a system past their number: ID, flag, signals or satellites.
/// Where all five are used, the number of systems is one less.
fn unused_system(random: &mut Random, lent: &mut Vec<u8>) {
    lent[2] = lent[2].min(4);
    let slot = usize::from(lent[2]) + random.below(5 - usize::from(lent[2]));
    let at = [6 + slot, 11 + slot, 16 + 2 * slot, 26 + 8 * slot];
    lent[random.pick(&at)] |= 1 << random.below(8);
}
