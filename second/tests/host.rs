//! Holdings and answers as the host passes them (docs/HOST.md).

use super::tools::*;
use super::Group;
use crate::codec::bits::pack;
use crate::codec::generate::{filled, single, sweeps};
use crate::codec::holding::{Holding, Mask, System};
use crate::codec::host::{decode, encode, put, read, Answer, HOLDING_BYTES};
use crate::codec::random::Random;

const CASES: usize = 40_000;

/// The bytes at these offsets, all others zero.
pub fn bytes(set: &[(usize, u8)]) -> Vec<u8> {
    let mut bytes = vec![0; HOLDING_BYTES];
    for &(offset, byte) in set {
        bytes[offset] = byte;
    }
    bytes
}

/// The mask of document 01's worked listing, byte by byte: GPS satellites 1 and
/// 3, signal places 0 and 7, cells 1011.
pub fn listing_bytes() -> Vec<u8> {
    let numbers = [(0, 1), (1, 3), (2, 1), (3, 2), (4, 3), (11, 1)];
    let masks = [(17, 0x81), (30, 0xA0), (67, 0x80), (69, 0x81)];
    bytes(&[&numbers[..], &masks[..]].concat())
}

/// BeiDou with place 39 and signal place 8, then Galileo with no satellite but
/// signal place 14 and a cell mask of no bits.
fn two_systems() -> (Vec<u8>, Mask) {
    let numbers = [(0, 1), (1, 15), (2, 2), (3, 1), (4, 1), (6, 3), (7, 2), (12, 1)];
    let masks = [(16, 0x80), (18, 0x02), (26, 0x01), (66, 0x80)];
    let beidou = System { id: 3, satellites: 1, signals: 0x0080, cells: None };
    let galileo = System { id: 2, satellites: 0, signals: 0x0002, cells: Some(Vec::new()) };
    let mask = Mask { iod: 15, systems: vec![beidou, galileo] };
    (bytes(&[&numbers[..], &masks[..]].concat()), mask)
}

pub fn by_hand(group: &mut Group) {
    group.same("empty", decode(&bytes(&[])), Holding::Empty);
    let listing = adopted(&listing_bits());
    group.same("the worked listing", decode(&listing_bytes()), listing);
    let (encoding, mask) = two_systems();
    group.same("two systems", encode(&mask), encoding.clone());
    group.same("two systems back", decode(&encoding), Holding::Held(mask));
    group.same("no systems", decode(&bytes(&[(0, 1), (1, 3)])), held(&[]));
    lengths(group);
    nonsense(group);
}

/// Fewer than 194 bytes are no holding; those after them are left alone.
fn lengths(group: &mut Group) {
    for length in 0..HOLDING_BYTES {
        group.same("fewer", decode(&listing_bytes()[..length]), Holding::Nonsense);
        group.same("fewer zeros", decode(&vec![0; length]), Holding::Nonsense);
    }
    let mut longer = listing_bytes();
    longer.extend([7; 9]);
    group.same("longer", decode(&longer), adopted(&listing_bits()));
    put(&Holding::Empty, &mut longer);
    group.same("put", longer, [&[0; HOLDING_BYTES][..], &[7; 9]].concat());
}

/// Each way that docs/HOST.md names in which bytes are no holding.
fn nonsense(group: &mut Group) {
    let changes: [(&str, usize, u8); 20] = [
        ("byte 0 over 1", 0, 2),
        ("a mask that isn't held", 0, 0),
        ("IOD over 15", 1, 16),
        ("a system more", 2, 2),
        ("six systems", 2, 6),
        ("a system less", 2, 0),
        ("a satellite more", 3, 3),
        ("a cell less", 4, 2),
        ("256 cells more", 5, 1),
        ("ID 5", 6, 5),
        ("an unused ID", 7, 1),
        ("cell flag 2", 11, 2),
        ("flag 0 with a cell missing", 11, 0),
        ("an unused flag", 15, 1),
        ("signal place 14 of GPS", 16, 2),
        ("an unused signal mask", 25, 1),
        ("satellite place 40", 31, 1),
        ("an unused satellite mask", 65, 1),
        ("a signal that isn't in the mask", 66, 1),
        ("an unused satellite", 193, 1),
    ];
    for (what, offset, byte) in changes {
        let mut lent = listing_bytes();
        lent[offset] = byte;
        group.same(what, decode(&lent), Holding::Nonsense);
        put(&Holding::Nonsense, &mut lent);
        group.same("kept as it came", lent[offset], byte);
    }
    let mut lent = listing_bytes();
    lent[16] = 0x40;
    let other = decode(&lent);
    group.check("a signal without a cell is good", matches!(other, Holding::Held(_)));
}

/// The mask message with the numbers of an encoding, cut to their fields.
fn sent(lent: &[u8]) -> Vec<bool> {
    let number = |at: usize, width: usize| {
        let bytes = lent[at..at + width].iter().rev();
        bytes.fold(0, |sum, &byte| sum << 8 | i64::from(byte))
    };
    let mut bits = fields(&[(4073, 12), (1, 4), (0, 20), (0, 4), (0, 1)]);
    bits.extend(fields(&[(number(1, 1), 4), (number(2, 1), 4)]));
    let mut satellite = 0;
    for slot in 0..usize::from(lent[2]).min(5) {
        let (id, flag) = (number(6 + slot, 1), number(11 + slot, 1));
        let (signals, satellites) = (number(16 + 2 * slot, 2), number(26 + 8 * slot, 8));
        bits.extend(fields(&[(id, 4), (satellites, 40), (signals, 16), (flag, 1)]));
        for _ in 0..(satellites & first(40, 40)).count_ones() {
            let counting = number(66 + 2 * (satellite % 64), 2);
            let set = (0..16).filter(|&at| flag == 1 && signals & place(at, 16) != 0);
            bits.extend(set.map(|at| counting & place(at, 16) != 0));
            satellite += 1;
        }
    }
    bits
}

/// Some mask message makes exactly this holding.
fn made(lent: &[u8]) -> bool {
    match lent.get(..HOLDING_BYTES) {
        Some(encoding) => {
            let mut after = vec![0; HOLDING_BYTES];
            put(&adopted(&sent(encoding)), &mut after);
            after == encoding && after[0] == 1
        }
        None => false,
    }
}

/// "Neither empty nor what a good mask message makes" (document 01, answer 12),
/// tried against its very words: the lent holding is sent as a mask message, and
/// what a fresh receiver then holds is compared with it.
pub fn good_masks(group: &mut Group) {
    let mut random = Random::new(11);
    let mut kinds = [0; 3];
    let random_cases = (0..CASES).map(|_| single::case(&mut random));
    for case in random_cases.chain(sweeps::cases()) {
        let mut lent = case.holding;
        let before = lent.clone();
        let holding = decode(&lent);
        kinds[match holding {
            Holding::Empty => 0,
            Holding::Held(_) => 1,
            Holding::Nonsense => 2,
        }] += 1;
        let empty = lent.len() >= HOLDING_BYTES && lent[..HOLDING_BYTES] == bytes(&[]);
        group.same("empty", holding == Holding::Empty, empty);
        group.same("held", matches!(holding, Holding::Held(_)), made(&lent));
        put(&holding, &mut lent);
        group.check("put back", lent == before);
    }
    group.check("all three kinds occurred often", kinds.iter().all(|&kind| kind > 1_000));
}

/// The numbers of an answer, and what a reading leaves in the holding.
pub fn readings(group: &mut Group) {
    let stretch = pack(&listing_bits());
    let mut holding = bytes(&[]);
    holding.extend([7; 6]);
    let mut rows = filled(1, 2_048);
    let mut at = |place, rows: &mut [i32]| {
        let answer = read(&mut holding, &stretch, LISTING_BITS, place, rows);
        (answer, holding.clone())
    };
    let message = |place, rows, raw, head| {
        Answer { number: 255, place, missing: 0, rows, raw, head }
    };
    let (answer, held) = at(0, &mut rows);
    let head = [1, 100, 5, 0, 3, 1, NO, NO];
    group.same("mask", answer, message(114, 0, 0..15, head));
    group.same("adopted", held.clone(), [&listing_bytes()[..], &[7; 6]].concat());
    let (answer, after) = at(114, &mut rows);
    let head = [3, 100, 2, 0, 3, NO, NO, NO];
    group.same("clock", answer, message(181, 2, 14..23, head));
    group.check("still held", after == held);
    let short = |number, place, missing| {
        Answer { number, place, missing, rows: 0, raw: 0..0, head: [NO; 8] }
    };
    let nothing = |number, place| short(number, place, 0);
    group.same("idle", at(181, &mut rows), (nothing(0, 181), held.clone()));
    group.same("a refusal", at(8, &mut rows), (nothing(4, 8), held.clone()));
    group.same("no room", at(114, &mut rows[1..]), (nothing(1, 114), held));
    let fewer = read(&mut [0; 193], &stretch, LISTING_BITS, 5, &mut rows);
    group.same("193 bytes", fewer, nothing(12, 5));
    let cut = read(&mut listing_bytes(), &stretch, LISTING_BITS - 1, 114, &mut rows);
    group.same("a bit missing", cut, short(3, 114, 1));
    let cut = read(&mut listing_bytes(), &stretch, 114 + 1, 114, &mut rows);
    group.same("11 bits missing", cut, short(3, 114, 11));
}
