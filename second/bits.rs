//! Bit access: bytes hold bits most significant first, and places count bits
//! from 0 (document 01, "What is built").

use super::answer::Reason;

pub fn bit(bytes: &[u8], place: usize) -> bool {
    bytes[place / 8] >> (7 - place % 8) & 1 == 1
}

pub fn set_bit(bytes: &mut [u8], place: usize, value: bool) {
    let one = 1 << (7 - place % 8);
    if value {
        bytes[place / 8] |= one;
    } else {
        bytes[place / 8] &= !one;
    }
}

/// How many bytes so many bits take.
pub fn bytes_for(bits: usize) -> usize {
    (bits + 7) / 8
}

/// The bits as bytes, the last byte filled up with zero bits.
pub fn pack(bits: &[bool]) -> Vec<u8> {
    let mut bytes = vec![0; bytes_for(bits.len())];
    for (place, &value) in bits.iter().enumerate() {
        set_bit(&mut bytes, place, value);
    }
    bytes
}

/// The unsigned number that the bits spell, first bit most significant.
pub fn number(bits: &[bool]) -> u64 {
    bits.iter().fold(0, |sum, &one| sum << 1 | u64::from(one))
}

/// The number that the bits spell in two's complement: a set first bit counts
/// negative.
pub fn signed_number(bits: &[bool]) -> i64 {
    let wrap = if bits[0] { 1 << bits.len() } else { 0 };
    number(bits) as i64 - wrap
}

/// The low `width` bits of the value, most significant first. A negative value
/// passed as its 64-bit two's complement so becomes that of the width.
pub fn push(bits: &mut Vec<bool>, value: u64, width: usize) {
    bits.extend((0..width).rev().map(|shift| value >> shift & 1 == 1));
}

/// Fields taken one after another from a part of a stretch; a field that runs
/// past the end is refused with 3 (document 01, "Reader's order"), and "the field
/// reading itself" says how many bits were missing (document 02, Ask 7).
pub struct Fields<'a> {
    bytes: &'a [u8],
    place: usize,
    end: usize,
}

impl<'a> Fields<'a> {
    pub fn new(bytes: &'a [u8], place: usize, end: usize) -> Self {
        Fields { bytes, place, end }
    }

    pub fn place(&self) -> usize {
        self.place
    }

    /// One field of any width, bit by bit; a field of no bits is never short.
    pub fn flags(&mut self, width: usize) -> Result<Vec<bool>, Reason> {
        let left = self.end - self.place;
        if width > left {
            return Err(Reason::Short(width - left));
        }
        let first = self.place;
        self.place += width;
        Ok((first..self.place).map(|place| bit(self.bytes, place)).collect())
    }

    pub fn unsigned(&mut self, width: usize) -> Result<u64, Reason> {
        Ok(number(&self.flags(width)?))
    }
}
