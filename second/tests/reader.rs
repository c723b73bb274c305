//! The reader's answer numbers and their order (document 01, "Answer numbers").

use super::tools::*;
use super::Group;
use crate::codec::answer::Stop;
use crate::codec::bits::pack;
use crate::codec::holding::Holding;
use crate::codec::reader::read;
use crate::codec::ROW_ROOM;

const NONSENSE: Holding = Holding::Nonsense;

/// The answer of a reading with everything given.
fn answer(
    holding: &Holding,
    bytes: usize,
    bit_length: usize,
    start: usize,
    room: usize,
) -> Option<Stop> {
    read(holding, &vec![0; bytes], bit_length, start, &mut vec![0; room]).err()
}

fn refused(number: u8, place: usize) -> Option<Stop> {
    Some(Stop::plain(number, place))
}

pub fn numbers(group: &mut Group) {
    lent(group);
    opening_fields(group);
    mask_fields(group);
}

/// 0, 1, 2 and 12.
fn lent(group: &mut Group) {
    let empty = Holding::Empty;
    group.same("0: no bytes", answer(&empty, 0, 0, 0, ROW_ROOM), refused(0, 0));
    group.same("0: none remain", answer(&empty, 2, 13, 13, ROW_ROOM), refused(0, 13));
    group.same("0: all zero", answer(&empty, 6_357, 50_850, 5, ROW_ROOM), refused(0, 5));
    let dirty = read(&empty, &[0, 0x0F, 0xFF], 12, 3, &mut row_buffer());
    group.same("0: dirt after the end", dirty, Err(Stop::plain(0, 3)));
    group.same("1: no room", answer(&empty, 0, 0, 0, 0), refused(1, 0));
    group.same("1: 2,047", answer(&empty, 2, 9, 4, 2_047), refused(1, 4));
    group.same("2: over 50,850", answer(&empty, 6_357, 50_851, 0, ROW_ROOM), refused(2, 0));
    group.same("2: over the bytes", answer(&empty, 2, 17, 7, ROW_ROOM), refused(2, 7));
    group.same("2: past the end", answer(&empty, 2, 9, 10, ROW_ROOM), refused(2, 10));
    group.same("2: far", answer(&empty, 1, usize::MAX, usize::MAX, ROW_ROOM), refused(2, usize::MAX));
    group.same("12: holding", answer(&NONSENSE, 1, 8, 2, ROW_ROOM), refused(12, 2));
}

/// 3 to 7 and 11.
fn opening_fields(group: &mut Group) {
    let held = held(&[(0, first(2, 40), 0)]);
    for number in [0, 1, 4_072, 4_074, 4_095] {
        let bits = fields(&[(number, 12), (1, 1)]);
        group.same("4: number", stop(&Holding::Empty, &bits), Some(4));
    }
    for sub_type in 0..16 {
        let bits = fields(&[(4_073, 12), (sub_type, 4)]);
        let expected = if matches!(sub_type, 1..=7 | 10 | 11) { 3 } else { 5 };
        group.same("3 or 5: sub type", stop(&held, &bits), Some(expected));
    }
    for sub_type in [2, 3, 4, 5, 6, 7, 11] {
        let bits = head_bits(sub_type, 3);
        group.same("6: no mask", stop(&Holding::Empty, &bits), Some(6));
        group.same("3: before the IOD's end", stop(&Holding::Empty, &bits[..36]), Some(3));
        for iod in (0..16).filter(|&iod| iod != 3) {
            group.same("7: other issue", stop(&held, &head_bits(sub_type, iod)), Some(7));
        }
    }
    for sub_type in [6, 11] {
        let mut bits = head_bits(sub_type, 3);
        bits.extend(fields(&[(0, 1), (0, 1), (1, 1), (0, 5)]));
        group.same("11: network 0", stop(&held, &bits), Some(11));
        group.same("3: network", stop(&held, &bits[..44]), Some(3));
        bits[44] = true;
        group.same("3: selection", stop(&held, &bits), Some(3));
        bits.push(false);
        group.same("3: selection's end", stop(&held, &bits), Some(3));
        bits.push(false);
        group.same("selection whole", length(&held, &bits), Some(47));
    }
}

/// 8, 9 and 10, and 3 between them.
fn mask_fields(group: &mut Group) {
    let empty = Holding::Empty;
    let satellites = [40, 24, 37, 40, 10];
    let signals = [14, 13, 15, 9, 10];
    for id in 0..5 {
        let one = id as usize;
        for at in 0..40 {
            let found = stop(&empty, &mask_bits(&[(id, place(at, 40), 0, 0, &[])]));
            group.same("9: satellite place", found, (at >= satellites[one]).then_some(9));
        }
        for at in 0..16 {
            let found = stop(&empty, &mask_bits(&[(id, 0, place(at, 16), 0, &[])]));
            group.same("9: signal place", found, (at >= signals[one]).then_some(9));
        }
        let twice = [(id, 0, 0, 0, &[][..]), (id, 0, 0, 0, &[][..])];
        group.same("8: twice", stop(&empty, &mask_bits(&twice)), Some(8));
    }
    for id in 5..16 {
        group.same("8: ID over 4", stop(&empty, &mask_bits(&[(id, 0, 0, 0, &[])])), Some(8));
    }
    let mut six: Vec<(i64, i64, i64, i64, &[bool])> = (0..5).map(|id| (id, 0, 0, 0, &[][..])).collect();
    group.same("five systems", length(&empty, &mask_bits(&six)), Some(49 + 5 * 61));
    for id in 0..16 {
        six.push((id, 0, 0, 0, &[]));
        group.same("8: a sixth ID", stop(&empty, &mask_bits(&six)), Some(8));
        six.pop();
    }
    let cells = |set: usize| (0..320).map(|cell| cell < set).collect::<Vec<bool>>();
    let flagged = |cells: &[bool]| mask_bits(&[(3, first(40, 40), first(8, 16), 1, cells)]);
    group.same("256 set cells", length(&empty, &flagged(&cells(256))), Some(110 + 320));
    group.same("10: 257 set cells", stop(&empty, &flagged(&cells(257))), Some(10));
    let over = [(0, first(32, 40), first(8, 16), 0, &[][..]), (1, 1 << 39, 0x8000, 0, &[][..])];
    group.same("10: 257 cells over two systems", stop(&empty, &mask_bits(&over)), Some(10));
}

/// Several things wrong at once: the first in the order is answered.
pub fn order(group: &mut Group) {
    let empty = Holding::Empty;
    group.same("1 before 2", answer(&NONSENSE, 0, 1, 9, 2_047), refused(1, 9));
    group.same("2 before 12", answer(&NONSENSE, 0, 1, 9, 2_048), refused(2, 9));
    group.same("12 before 0", answer(&NONSENSE, 1, 8, 8, 2_048), refused(12, 8));
    let zeros = vec![false; 500];
    group.same("0 before 4", stop(&empty, &zeros), Some(0));
    group.same("5 before 3", stop(&empty, &fields(&[(4_073, 12), (9, 4)])), Some(5));
    group.same("6 before 7", stop(&empty, &head_bits(3, 9)), Some(6));
    group.same("7 before 3", stop(&held(&[(0, 1 << 39, 0)]), &head_bits(3, 9)), Some(7));
    at_once(group);
    every_truncation(group);
}

/// A field is refused at once, before the next one is missed.
fn at_once(group: &mut Group) {
    let empty = Holding::Empty;
    let system = |fields_of: &[(i64, usize)]| {
        let mut bits = mask_opening(1);
        bits.extend(fields(fields_of));
        bits
    };
    group.same("8 before 3", stop(&empty, &system(&[(5, 4)])), Some(8));
    let satellites = system(&[(4, 4), (1, 40)]);
    group.same("9 of satellites before 3", stop(&empty, &satellites), Some(9));
    let signals = system(&[(4, 4), (0, 40), (1, 16)]);
    group.same("9 of signals before 3", stop(&empty, &signals), Some(9));
    let cells = system(&[(0, 4), (first(40, 40), 40), (first(7, 16), 16), (0, 1)]);
    group.same("10 of cells", stop(&empty, &cells), Some(10));
    let short = system(&[(0, 4), (first(40, 40), 40), (first(7, 16), 16), (1, 1), (0, 60)]);
    group.same("3 of a cell mask", stop(&empty, &short), Some(3));

    let mut two = mask_bits(&[(0, first(40, 40), 0, 0, &[])]);
    two.splice(45..49, fields(&[(2, 4)]));
    let mut over = two.clone();
    over.extend(fields(&[(1, 4), (first(25, 40), 40)]));
    group.same("9 before 10", stop(&empty, &over), Some(9));
    two.extend(fields(&[(3, 4), (first(25, 40), 40)]));
    group.same("10 of satellites before 3", stop(&empty, &two), Some(10));
}

/// Each shorter part of a good message is short, and none of it is idle.
fn every_truncation(group: &mut Group) {
    let bits = mask_bits(&[(0, first(2, 40), 0x8000, 1, &[true, true]), (2, 8, 2, 0, &[])]);
    let holding = adopted(&bits);
    for end in 0..bits.len() {
        let expected = if end == 0 { 0 } else { 3 };
        group.same("mask cut", stop(&Holding::Empty, &bits[..end]), Some(expected));
    }
    let network = 3 + 5 + 3;
    let (biases, combined) = (network + 3 * 28, network + 149 + 45);
    let bodies = [(2, 149), (3, 45), (4, 33), (5, 51), (6, biases), (7, 18), (11, combined)];
    for (sub_type, body) in bodies {
        let mut bits = head_bits(sub_type, 3);
        let end = bits.len() + body;
        bits.resize(end, true);
        group.same("whole", length(&holding, &bits), Some(end));
        for cut in 1..end {
            group.same("cut", stop(&holding, &bits[..cut]), Some(3));
        }
    }
    let bytes = pack(&bits);
    let whole = read(&Holding::Empty, &bytes, bits.len(), 0, &mut row_buffer());
    group.check("the mask whole", whole.is_ok());
}
