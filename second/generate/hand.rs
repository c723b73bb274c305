//! Messages laid down field by field, and the masks that they name.

use super::super::bits::push;
use super::super::holding::{Holding, Mask, System};
use super::super::text::hex_bits;

/// The hex of document 01's worked listing, and its bit length.
pub const LISTING_HEX: &str = "FE91000645188500000000040806FFA4C1908600160000";
pub const LISTING_BITS: usize = 181;

/// The bits of document 01's worked listing.
pub fn listing_bits() -> Vec<bool> {
    let mut bits = hex_bits(LISTING_HEX.as_bytes()).unwrap_or_default();
    bits.truncate(LISTING_BITS);
    bits
}

/// The mask of that listing.
pub fn listing_mask() -> Mask {
    let cells = Some(vec![true, false, true, true]);
    let gps = System { id: 0, satellites: 0xA0_0000_0000, signals: 0x8100, cells };
    Mask { iod: 3, systems: vec![gps] }
}

/// Fields one after another, each value with its width.
pub fn fields(values: &[(i64, usize)]) -> Vec<bool> {
    let mut bits = Vec::new();
    for &(value, width) in values {
        push(&mut bits, value as u64, width);
    }
    bits
}

/// The opening of sub type 1 with epoch 100, interval 5, IOD 3.
pub fn mask_opening(systems: i64) -> Vec<bool> {
    fields(&[(4073, 12), (1, 4), (100, 20), (5, 4), (0, 1), (3, 4), (systems, 4)])
}

/// A mask message of these systems, each ID, satellite and signal mask, flag
/// and cell bits.
pub fn mask_bits(systems: &[(i64, i64, i64, i64, &[bool])]) -> Vec<bool> {
    let mut bits = mask_opening(systems.len() as i64);
    for &(id, satellites, signals, flag, cells) in systems {
        bits.extend(fields(&[(id, 4), (satellites, 40), (signals, 16), (flag, 1)]));
        bits.extend(cells);
    }
    bits
}

/// A mask message under another number than IOD 3.
pub fn of_issue(iod: i64, mut message: Vec<bool>) -> Vec<bool> {
    message.splice(41..45, fields(&[(iod, 4)]));
    message
}

/// The 37-bit head of a correction with epoch 100, interval 2.
pub fn head_bits(sub_type: i64, iod: i64) -> Vec<bool> {
    fields(&[(4073, 12), (sub_type, 4), (100, 12), (2, 4), (0, 1), (iod, 4)])
}

/// The first so many places of a mask field of this width.
pub fn first(count: usize, width: usize) -> i64 {
    ((1 << count) - 1) << (width - count)
}

/// One place of a mask field of this width.
pub fn place(place: usize, width: usize) -> i64 {
    1 << (width - 1 - place)
}

/// A holding of issue 3 with these systems and no cell masks.
pub fn held(systems: &[(u8, i64, i64)]) -> Holding {
    let system = |&(id, satellites, signals): &(u8, i64, i64)| System {
        id,
        satellites: satellites as u64,
        signals: signals as u16,
        cells: None,
    };
    Holding::Held(Mask { iod: 3, systems: systems.iter().map(system).collect() })
}
