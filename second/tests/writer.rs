//! The writer's answer numbers, their order, and what it leaves alone
//! (document 01, "Writer").

use super::tools::*;
use super::Group;
use crate::codec::answer::Stop;
use crate::codec::bits::{bit, pack};
use crate::codec::holding::Holding;
use crate::codec::writer::write;

/// A clock for GPS satellites 1 and 2 under `mask`.
const HEAD: [i32; 8] = [3, 100, 2, 0, 3, NO, NO, NO];
const ROWS: [i32; 16] = [0, 1, NO, 5, NO, NO, NO, NO, 0, 2, NO, -1, NO, NO, NO, NO];
const LENGTH: usize = 67;

const NONSENSE: Holding = Holding::Nonsense;

fn mask() -> Holding {
    held(&[(0, first(2, 40), 0x8000)])
}

/// The head with one column changed.
fn head(column: usize, value: i32) -> [i32; 8] {
    let mut head = HEAD;
    head[column] = value;
    head
}

/// Writes the two clock rows with this head at place 0 of 16 bytes.
fn written(holding: &Holding, head: &[i32; 8]) -> Result<usize, u8> {
    attempt(holding, head, &ROWS, 2, 16, 0)
}

/// The writer's answer; a refusal answers the start and leaves the bytes.
fn attempt(
    holding: &Holding,
    head: &[i32; 8],
    rows: &[i32],
    count: usize,
    room: usize,
    start: usize,
) -> Result<usize, u8> {
    let mut bytes = vec![0xA5; room];
    let answer = write(holding, head, rows, count, &mut bytes, start);
    answer.map_err(|stop| {
        let left_alone = stop.place == start && bytes == vec![0xA5; room];
        if left_alone {
            stop.number
        } else {
            u8::MAX
        }
    })
}

pub fn numbers(group: &mut Group) {
    group.same("accepted", written(&mask(), &HEAD), Ok(LENGTH));
    places(group);
    issues(group);
    row_counts(group);
    neighbours(group);
}

/// 1 and 2: the limit is the bytes' end or 50,850, the smaller.
fn places(group: &mut Group) {
    let at = |room: usize, start: usize| attempt(&mask(), &HEAD, &ROWS, 2, room, start);
    group.same("fits to the last bit", at(9, 5), Ok(72));
    group.same("1: one bit too far", at(9, 6), Err(1));
    group.same("1: start at the end", at(9, 72), Err(1));
    group.same("1: no bytes", at(0, 0), Err(1));
    group.same("2: past the end", at(9, 73), Err(2));
    group.same("2: far", at(9, usize::MAX), Err(2));
    group.same("fits to 50,850", at(7_000, 50_850 - LENGTH), Ok(50_850));
    group.same("1: over 50,850", at(7_000, 50_851 - LENGTH), Err(1));
    group.same("1: start at 50,850", at(7_000, 50_850), Err(1));
    group.same("2: past 50,850", at(7_000, 50_851), Err(2));
}

/// 5, 6, 7, 11 and 12 of head and holding.
fn issues(group: &mut Group) {
    group.same("12: holding", written(&NONSENSE, &HEAD), Err(12));
    for sub_type in [0, 8, 9, 12, 13, 14, 15, 16, 22, 23, -1, NO, i32::MIN, i32::MAX] {
        group.same("5: sub type", written(&mask(), &head(0, sub_type)), Err(5));
    }
    for sub_type in [1, 2, 3, 4, 5, 6, 7, 11] {
        group.same("6: no mask", written(&Holding::Empty, &head(0, sub_type)), Err(6));
        for iod in [0, 2, 4, 15, 16, 19, -1, NO] {
            let mut head = head(0, sub_type);
            head[4] = iod;
            group.same("7: other issue", written(&mask(), &head), Err(7));
        }
    }
    for sub_type in [6, 11] {
        let network = [sub_type, 100, 2, 0, 3, 0, 0, 0];
        group.same("11: network 0", written(&mask(), &network), Err(11));
    }
    group.same("c = 0 elsewhere is 12", written(&mask(), &head(7, 0)), Err(12));
    let service = [10, NO, NO, 0, NO, 0, 0, NO];
    let row = [NO, NO, 1, 1, 2, 3, 4, 5];
    let sent = |holding: &Holding, head: &[i32; 8]| attempt(holding, head, &row, 1, 16, 0);
    group.same("10 without a mask", sent(&Holding::Empty, &service), Ok(62));
    group.same("10 with a mask", sent(&mask(), &service), Ok(62));
    group.same("10 with a damaged holding", sent(&NONSENSE, &service), Err(12));
    for (column, value) in [(1, 100), (2, 2), (4, 3)] {
        let mut head = service;
        head[column] = value;
        group.same("12: sub type 10 with it", sent(&mask(), &head), Err(12));
    }
}

/// 12 for rows: the count, the length lent, their order and their keys.
fn row_counts(group: &mut Group) {
    let rows = |rows: &[i32], count| attempt(&mask(), &HEAD, rows, count, 16, 0);
    group.same("12: fewer lent", rows(&ROWS[..15], 2), Err(12));
    group.same("12: one counted", rows(&ROWS, 1), Err(12));
    group.same("12: none counted", rows(&ROWS, 0), Err(12));
    let three = [&ROWS[..], &ROWS[8..]].concat();
    group.same("12: three counted", rows(&three, 3), Err(12));
    group.same("12: one counted more than lent", rows(&ROWS, 3), Err(12));
    group.same("12: far more counted", rows(&ROWS, usize::MAX), Err(12));
    group.same("rows past the count", rows(&three, 2), Ok(LENGTH));
    let swapped = [&ROWS[8..], &ROWS[..8]].concat();
    group.same("12: swapped", rows(&swapped, 2), Err(12));
    let mask_head = [1, 100, 2, 0, 3, 1, NO, NO];
    let sent = |count| attempt(&mask(), &mask_head, &ROWS, count, 16, 0);
    group.same("mask message", sent(0), Ok(110));
    group.same("12: mask message with a row", sent(1), Err(12));
    selections(group);
}

/// With a network the rows tell the selection, in the mask's order.
fn selections(group: &mut Group) {
    let holding = held(&[(2, first(1, 40), 0), (0, first(2, 40), 0)]);
    let head = [11, 100, 2, 0, 3, 0, 1, 31];
    let rows = |keys: &[(i32, i32)]| -> Vec<i32> {
        let row = |&(id, satellite): &(i32, i32)| [id, satellite, NO, NO, NO, NO, NO, 4];
        keys.iter().flat_map(row).collect()
    };
    let sent = |keys: &[(i32, i32)]| attempt(&holding, &head, &rows(keys), keys.len(), 16, 0);
    group.same("nothing selected", sent(&[]), Ok(48));
    group.same("one selected", sent(&[(0, 2)]), Ok(63));
    group.same("all selected", sent(&[(2, 1), (0, 1), (0, 2)]), Ok(93));
    group.same("12: not the mask's order", sent(&[(0, 1), (2, 1)]), Err(12));
    group.same("12: twice", sent(&[(0, 1), (0, 1)]), Err(12));
    group.same("12: not in the mask", sent(&[(0, 3)]), Err(12));
    let all = [11, 100, 2, 0, 3, 0, 1, NO];
    let part = attempt(&holding, &all, &rows(&[(0, 2)]), 1, 16, 0);
    group.same("12: a part without a network", part, Err(12));
}

/// Bits outside the message keep their values, at every alignment.
fn neighbours(group: &mut Group) {
    let mut expected = head_bits(3, 3);
    expected.extend(fields(&[(5, 15), (-1, 15)]));
    for start in 0..17 {
        for old in [0x00, 0xFF, 0xA5] {
            let mut bytes = vec![old; 12];
            let answer = write(&mask(), &HEAD, &ROWS, 2, &mut bytes, start);
            group.same("answer", answer, Ok(start + LENGTH));
            let mut bits: Vec<bool> = (0..96).map(|place| bit(&[old; 12], place)).collect();
            bits.splice(start..start + LENGTH, expected.clone());
            group.same("bits", bytes, pack(&bits));
        }
    }
}

/// Several things wrong at once: the first in the order is answered.
pub fn order(group: &mut Group) {
    let all_wrong = [99, -1, -1, -1, 99, -1, -1, 0];
    let at = |holding: &Holding, head: &[i32; 8], start| attempt(holding, head, &[], 9, 0, start);
    group.same("2 before 12", at(&NONSENSE, &all_wrong, 1), Err(2));
    group.same("12 before 5", at(&NONSENSE, &all_wrong, 0), Err(12));
    group.same("5 before 6", at(&Holding::Empty, &all_wrong, 0), Err(5));
    for sub_type in [6, 11] {
        let combined = [sub_type, -1, -1, -1, 99, -1, -1, 0];
        group.same("6 before 7", at(&Holding::Empty, &combined, 0), Err(6));
        group.same("7 before 11", at(&mask(), &combined, 0), Err(7));
        let issued = [sub_type, -1, -1, -1, 3, -1, -1, 0];
        group.same("11 before 12", at(&mask(), &issued, 0), Err(11));
    }
    group.same("12 before 1", at(&mask(), &head(1, -1), 0), Err(12));
    let mut bytes = [0; 8];
    let last = write(&mask(), &HEAD, &ROWS, 2, &mut bytes, 64);
    group.same("1 last", last, Err(Stop::plain(1, 64)));
}
