//! A seeded, deterministic generator of cases for the comparison of two
//! programs. Everything here encodes by itself, without the writer, because
//! most cases are meant to be refused.
//!
//! - `hand`: messages laid down field by field;
//! - `bench`: the readings of document 01's bench cases;
//! - `masks`: good masks, masks at and past the house limits, bad masks;
//! - `messages`: whole messages with the head and rows they stand for;
//! - `holdings`: lent holdings, good, damaged, cut and longer than they need be;
//! - `sweeps`: what one message and one holding can be damaged in, all of it;
//! - `cuts`: good messages and a stretch, cut at every length;
//! - `reissues`: masks that change under one issue;
//! - `reissue_sweeps`: every single change of a few masks so;
//! - `shorts`: messages that end inside a field, each as often;
//! - `single`: cases of one reading;
//! - `stretches`: cases of one stretch, the mask kept from stretch to stretch;
//! - `strays`: lent bytes that are no holding, kind by kind;
//! - `edits`: what can happen to a line of text;
//! - `saved_lines`, `input_lines`: good and bad lines, saved and of the listing's
//!   input;
//! - `texts`, `text_sweeps`: cases of saving, loading and lines of input;
//! - `inputs`: whole inputs of the listing program;
//! - `spoils`, `writes`: cases of one write, and what can be wrong with them;
//! - `changes`, `selections`: every single change of what a good message means;
//! - `rounds`: messages to be read, written back and read again.

pub mod bench;
pub mod changes;
pub mod cuts;
pub mod edits;
pub mod hand;
pub mod holdings;
pub mod input_lines;
pub mod inputs;
pub mod masks;
pub mod messages;
pub mod reissue_sweeps;
pub mod reissues;
pub mod rounds;
pub mod saved_lines;
pub mod selections;
pub mod shorts;
pub mod single;
pub mod spoils;
pub mod strays;
pub mod stretches;
pub mod sweeps;
pub mod text_sweeps;
pub mod texts;
pub mod writes;

use super::bits::{bytes_for, pack};
use super::holding::Holding;
use super::host::{put, HOLDING_BYTES};
use super::random::Random;
use super::{ROW_ROOM, STRETCH_BITS};

/// One case: everything that a reading or a walk is lent. A walk has start 0.
#[derive(Clone)]
pub struct Case {
    /// What the case is made for; for reports only.
    pub family: &'static str,
    /// The holding's bytes as the host lends them.
    pub holding: Vec<u8>,
    pub bytes: Vec<u8>,
    pub bit_length: usize,
    pub start: usize,
    /// The row buffer's length in numbers.
    pub room: usize,
    /// The seed of the row buffer's first content.
    pub fill: u64,
}

/// A reading at place 0 of exactly these bits, with just enough room for rows.
pub fn plain(family: &'static str, holding: &Holding, bits: &[bool]) -> Case {
    let mut lent = vec![0; HOLDING_BYTES];
    put(holding, &mut lent);
    Case {
        family,
        holding: lent,
        bytes: pack(bits),
        bit_length: bits.len(),
        start: 0,
        room: ROW_ROOM,
        fill: 1,
    }
}

/// The same with dirt after the bits, and any room that suffices.
fn lend(random: &mut Random, family: &'static str, holding: &Holding, bits: &[bool]) -> Case {
    let mut case = plain(family, holding, bits);
    holdings::lengthen(random, &mut case.holding);
    Case { bytes: dirty_bytes(random, bits), room: good_room(random), fill: random.next(), ..case }
}

/// The row buffer's first content, by a rule that any program can follow:
/// x starts as the seed; for each number x becomes
/// x * 6364136223846793005 + 1442695040888963407 modulo 2^64, and the number
/// is the upper 32 bits of x, taken as a signed number.
pub fn filled(seed: u64, room: usize) -> Vec<i32> {
    let mut x = seed;
    let mut next = || {
        x = x.wrapping_mul(6_364_136_223_846_793_005).wrapping_add(1_442_695_040_888_963_407);
        (x >> 32) as i32
    };
    (0..room).map(|_| next()).collect()
}

/// A row buffer of sufficient length: mostly the least, sometimes longer.
fn good_room(random: &mut Random) -> usize {
    ROW_ROOM + if random.chance(90) { 0 } else { random.pick(&[1, 7, 8, 52, 2_048]) }
}

/// A row buffer under 2,048 numbers.
fn bad_room(random: &mut Random) -> usize {
    let any = random.below(ROW_ROOM);
    random.pick(&[0, 1, 8, 1_024, ROW_ROOM - 8, ROW_ROOM - 1, any])
}

/// The bits as bytes with dirt after them: in what is left of the last byte,
/// and sometimes in further bytes.
fn dirty_bytes(random: &mut Random, bits: &[bool]) -> Vec<u8> {
    let mut all = bits.to_vec();
    let spare = 8 * bytes_for(bits.len()) - bits.len();
    let further = if random.chance(50) { 0 } else { 8 * random.below(4) };
    let dirt = random.bits(spare + further);
    all.extend(dirt);
    pack(&all)
}

/// The bits in hex, the last digit filled up with zero bits.
fn digits(bits: &[bool]) -> String {
    let digit = |four: &[bool]| {
        let weights = [8, 4, 2, 1];
        let value: u8 = four.iter().zip(weights).map(|(&one, weight)| u8::from(one) * weight).sum();
        format!("{value:X}")
    };
    bits.chunks(4).map(digit).collect()
}

/// One of the kinds, each as often as it says, with its name.
fn weighted<T: Copy>(random: &mut Random, kinds: &[(&'static str, usize, T)]) -> (&'static str, T) {
    let total = kinds.iter().map(|kind| kind.1).sum();
    let mut left = random.below(total);
    for &(name, often, kind) in kinds {
        if left < often {
            return (name, kind);
        }
        left -= often;
    }
    (kinds[0].0, kinds[0].2)
}

/// The other bit at this place, if it is among the bytes.
fn flip(bytes: &mut [u8], place: usize) {
    if let Some(byte) = bytes.get_mut(place / 8) {
        *byte ^= 1 << (7 - place % 8);
    }
}

/// A number far past every stretch: among the greatest there are, or one that
/// looks like the near one to whoever drops its upper bits.
fn far(random: &mut Random, near: usize) -> usize {
    let greatest = usize::MAX - random.below(8);
    random.pick(&[greatest, (1 << 32) + near, (1 << 63) + near])
}

/// Makes the bit length one that is refused with 2.
fn mislength(random: &mut Random, case: &mut Case) {
    match random.below(3) {
        0 => case.bit_length = case.bytes.len() * 8 + 1 + random.below(9),
        1 => case.bit_length = far(random, case.bit_length),
        _ => {
            case.bytes.resize(bytes_for(STRETCH_BITS) + random.pick(&[0, 0, 1, 100]), 0);
            let spare = case.bytes.len() * 8 - STRETCH_BITS;
            case.bit_length = STRETCH_BITS + 1 + random.below(spare);
        }
    }
}

/// Makes the start one that is refused with 2.
fn misstart(random: &mut Random, case: &mut Case) {
    case.start = match random.below(3) {
        0 => case.bit_length + 1,
        1 => case.bit_length + 1 + random.below(1_000),
        _ => far(random, case.start),
    }
}
