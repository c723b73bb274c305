//! Writing as a host in C asks for it (docs/HOST.md, `hundurzek_write`), and the
//! cases of it that are generated.

use std::collections::{BTreeMap, BTreeSet};

use super::tools::*;
use super::Group;
use crate::codec::bits::{bit, pack};
use crate::codec::emit::writes::answer;
use crate::codec::generate::changes;
use crate::codec::generate::filled;
use crate::codec::generate::rounds::round;
use crate::codec::generate::spoils::SPOILS;
use crate::codec::generate::texts::filled_bytes;
use crate::codec::generate::writes::{self, Writing, ROOMS};
use crate::codec::host::{self, read, HOLDING_BYTES};
use crate::codec::host_lines::DONE;
use crate::codec::host_write::{write, Written};
use crate::codec::random::Random;
use crate::codec::{ABSENT, COLUMNS, ROW_ROOM};

const CASES: usize = 20_000;
const ROUNDS: usize = 10_000;

/// The clock of document 01's worked listing, read and written back.
const HEAD: [i32; 8] = [3, 100, 2, 0, 3, NO, NO, NO];
const ROWS: [i32; 16] = [0, 1, NO, 5, NO, NO, NO, NO, 0, 3, NO, -16_384, NO, NO, NO, NO];

/// The holding after the worked listing's first message.
fn listing_holding() -> Vec<u8> {
    let mut holding = vec![0; HOLDING_BYTES];
    host::put(&adopted(&listing_bits()[..114]), &mut holding);
    holding
}

fn done(place: usize, count: usize) -> Written {
    Written { number: DONE, place, count }
}

fn refused(number: u8, place: usize) -> Written {
    Written { number, place, count: 0 }
}

pub fn by_hand(group: &mut Group) {
    let stretch = pack(&listing_bits());
    let holding = listing_holding();
    let mut bytes = vec![0; stretch.len()];
    let mask_head = [1, 100, 5, 0, 3, 1];
    let mask = write(&holding, &mask_head, &[], 0, &mut bytes, 0);
    let clock = write(&holding, &HEAD[..5], &ROWS, 2, &mut bytes, 114);
    group.same("the worked listing's messages", [mask, clock], [done(114, 114), done(181, 67)]);
    group.same("the worked listing", bytes, stretch);
    let long: Vec<i32> = HEAD.iter().chain(&[0, 7, 0]).copied().collect();
    let longer = [&holding[..], &[1]].concat();
    let at = |holding: &[u8], head: &[i32], numbers: &[i32], rows, start| {
        write(holding, head, numbers, rows, &mut [0; 9], start)
    };
    let numbers = [&ROWS[..], &[9]].concat();
    group.same("longer slices", at(&longer, &long, &numbers, 2, 5), done(72, 67));
    group.same("1", at(&holding, &HEAD, &ROWS, 2, 6), refused(1, 6));
    group.same("2", at(&holding, &HEAD, &ROWS, 2, usize::MAX), refused(2, usize::MAX));
    group.same("12: 193 bytes", at(&holding[..193], &HEAD, &ROWS, 2, 5), refused(12, 5));
    group.same("5: no head", at(&holding, &[], &ROWS, 2, 5), refused(5, 5));
    group.same("6", at(&[0; 194], &HEAD, &ROWS, 2, 5), refused(6, 5));
    group.same("7: four numbers of a head", at(&holding, &HEAD[..4], &ROWS, 2, 5), refused(7, 5));
    let network = [11, 100, 2, 0, 3, 0, 0, 0];
    group.same("11", at(&holding, &network, &ROWS, 2, 5), refused(11, 5));
    group.same("12: fifteen numbers", at(&holding, &HEAD, &ROWS[..15], 2, 5), refused(12, 5));
    for rows in [3, 2 + (1 << 61), 1 << 61, usize::MAX] {
        group.same("12: a count", at(&holding, &HEAD, &ROWS, rows, 5), refused(12, 5));
    }
}

/// The head that a case means.
fn head_of(case: &Writing) -> Vec<i32> {
    let absent = std::iter::repeat(ABSENT);
    case.head.iter().copied().chain(absent).take(COLUMNS).collect()
}

/// What is written reads back to exactly what was lent, every other bit being as
/// it was; a refusal answers the start and changes nothing.
fn check_case(group: &mut Group, case: &Writing) -> u8 {
    let before = filled_bytes(case.fill, case.room);
    let (written, bytes) = answer(case);
    let name = &case.family;
    if written.number != DONE {
        group.check(name, written == refused(written.number, case.start) && bytes == before);
        return written.number;
    }
    group.check(name, written == done(case.start + written.count, written.count));
    let inside = |place: usize| case.start <= place && place < written.place;
    let mut places = 0..8 * case.room;
    let kept = places.all(|place| inside(place) || bit(&bytes, place) == bit(&before, place));
    group.check("all else kept", kept);
    let mut holding = case.holding.clone();
    let mut rows = filled(1, ROW_ROOM);
    let reading = read(&mut holding, &bytes, written.place, case.start, &mut rows);
    let same = reading.number == host::MESSAGE
        && reading.place == written.place
        && reading.head.to_vec() == head_of(case)
        && reading.rows == case.rows
        && rows[..COLUMNS * reading.rows] == case.numbers[..COLUMNS * reading.rows]
        && holding == case.holding;
    group.check(&format!("{name}: read back"), same);
    written.number
}

/// Random writes: each kind occurs.
pub fn random(group: &mut Group) {
    let mut random = Random::new(15);
    let mut seen = BTreeSet::new();
    for _ in 0..CASES {
        let case = writes::case(&mut random);
        check_case(group, &case);
        seen.extend(case.family.split(',').map(str::to_string));
    }
    let spoils = SPOILS.iter().map(|kind| kind.0);
    for name in spoils.chain(ROOMS.iter().map(|kind| kind.0)).chain(["something else"]) {
        group.check(name, seen.contains(name));
    }
}

/// What each kind of change can be answered with.
const CHANGES: [(&str, &[u8]); 40] = [
    ("unchanged", &[DONE]),
    ("sub type", &[DONE, 12, 5, 7]),
    ("IOD SSR", &[7]),
    ("number of systems", &[12]),
    ("head at an end", &[DONE]),
    ("head past an end", &[12]),
    ("head absent", &[12]),
    ("head for absent", &[12]),
    ("shape", &[DONE, 12]),
    ("network 0", &[11]),
    ("network past an end", &[12]),
    ("another network", &[DONE]),
    ("no network", &[DONE, 12]),
    ("key", &[12]),
    ("value at an end", &[DONE]),
    ("value past an end", &[12]),
    ("value absent", &[12]),
    ("value for absent", &[12]),
    ("rows swapped", &[12]),
    ("row doubled", &[12]),
    ("row dropped", &[12]),
    ("row added", &[12]),
    ("row not counted", &[12]),
    ("rows not lent", &[12]),
    ("selected key", &[DONE, 12]),
    ("selected rows swapped", &[12]),
    ("selected row doubled", &[12]),
    ("selected row dropped", &[DONE]),
    ("selected row not counted", &[DONE]),
    ("selected too", &[DONE]),
    ("cell key", &[12]),
    ("cell rows swapped", &[12]),
    ("cell row doubled", &[12]),
    ("cell row dropped", &[DONE, 12]),
    ("cell row added", &[12]),
    ("cell row not counted", &[DONE, 12]),
    ("cells too", &[DONE]),
    ("cells at the end", &[DONE, 12]),
    ("cells in part", &[12]),
    ("row without a cell", &[12]),
];

/// These come too, with either answer: whether a row that was added fits is the
/// selection's matter.
const EITHER: [&str; 2] = ["selected row added", "selected at the end"];

/// Single changes: each is answered with what its name says, and each answer
/// that the name allows comes.
pub fn changed(group: &mut Group) {
    let mut seen: BTreeMap<String, BTreeSet<u8>> = BTreeMap::new();
    let all = changes::all();
    group.check("2,000 records", all.len() >= 2_000);
    for changed in all.iter().step_by(3) {
        let cases = changed.changes.iter().map(|change| changed.after(change));
        for case in cases.chain([changed.case.clone()]) {
            let number = check_case(group, &case);
            seen.entry(case.family).or_default().insert(number);
        }
    }
    let either = EITHER.map(|name| (name, &[DONE, 12][..]));
    for (name, numbers) in CHANGES.into_iter().chain(either) {
        let found = seen.remove(name).unwrap_or_default();
        group.same(name, found, numbers.iter().copied().collect());
    }
    group.check("no other names", seen.is_empty());
}

/// Rounds: what the generator encoded reads as it meant, and what was read is
/// written to its very bits.
pub fn round_trips(group: &mut Group) {
    let mut random = Random::new(16);
    for _ in 0..ROUNDS {
        let round = round(&mut random);
        let (case, drawn) = (&round.case, &round.scene.drawn);
        let mut holding = case.holding.clone();
        let mut rows = filled(case.fill, case.room);
        let reading = read(&mut holding, &case.bytes, case.bit_length, case.start, &mut rows);
        group.same("head", reading.head, drawn.head);
        group.check("rows", rows[..COLUMNS * reading.rows] == drawn.rows.concat()[..]);
        group.check("holding", host::decode(&holding) == round.scene.after);
        let mut bytes = vec![0; round.room];
        let head = &reading.head;
        let written = write(&holding, head, &rows, reading.rows, &mut bytes, round.place);
        group.same("written", written, done(round.place + drawn.bits.len(), drawn.bits.len()));
        let same = (0..drawn.bits.len()).all(|at| bit(&bytes, round.place + at) == drawn.bits[at]);
        group.check("the very bits", same);
    }
}
