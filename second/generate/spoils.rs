//! What can be wrong with a write (document 01, "Writer"), kind by kind. What
//! some kinds leave may well be written.

use super::super::holding::{Holding, Mask};
use super::super::host::{decode, put, HOLDING_BYTES};
use super::super::random::Random;
use super::super::{ABSENT, COLUMNS};
use super::strays::STRAYS;
use super::writes::Writing;
use super::{far, masks};

/// A kind: the sub types that it is tried with, and what it does to a case.
#[derive(Clone, Copy)]
pub struct Spoil {
    pub sub_types: &'static [u64],
    pub edit: fn(&mut Random, &mut Writing),
}

const fn any(edit: fn(&mut Random, &mut Writing)) -> Spoil {
    Spoil { sub_types: &[1, 2, 3, 4, 5, 6, 6, 7, 10, 11, 11], edit }
}

const fn of_masks(edit: fn(&mut Random, &mut Writing)) -> Spoil {
    Spoil { sub_types: &[1], edit }
}

const fn with_rows(edit: fn(&mut Random, &mut Writing)) -> Spoil {
    Spoil { sub_types: &[2, 3, 4, 5, 6, 6, 7, 10, 11, 11], edit }
}

const fn selected(edit: fn(&mut Random, &mut Writing)) -> Spoil {
    Spoil { sub_types: &[6, 11], edit }
}

const fn of_cells(edit: fn(&mut Random, &mut Writing)) -> Spoil {
    Spoil { sub_types: &[6], edit }
}

/// A kind with its name and how often it comes.
pub type Kind = (&'static str, usize, Spoil);

pub const SPOILS: [Kind; 36] = [
    ("good", 60, any(|_, _| {})),
    ("stray holding", 10, any(stray)),
    ("empty holding", 8, any(|_, case| put_holding(case, &Holding::Empty))),
    ("empty holding for sub type 1", 3, of_masks(|_, case| put_holding(case, &Holding::Empty))),
    ("no mask and any IOD SSR", 4, any(no_mask_and_any_iod)),
    ("another issue held", 6, any(other_issue)),
    ("another issue for sub type 1", 3, of_masks(other_issue)),
    ("another mask held", 4, any(other_mask)),
    ("sub type", 8, any(|random, case| other_head(random, case, 0))),
    ("epoch", 4, any(|random, case| other_head(random, case, 1))),
    ("interval", 4, any(|random, case| other_head(random, case, 2))),
    ("indicator", 4, any(|random, case| other_head(random, case, 3))),
    ("IOD SSR", 4, any(|random, case| other_head(random, case, 4))),
    ("a", 4, any(|random, case| other_head(random, case, 5))),
    ("b", 4, any(|random, case| other_head(random, case, 6))),
    ("c", 4, any(|random, case| other_head(random, case, 7))),
    ("head of sub type 1", 6, of_masks(|random, case| {
        let column = random.below(COLUMNS);
        other_head(random, case, column);
    })),
    ("network 0", 12, selected(|_, case| set(&mut case.head, 7, 0))),
    ("network 32 or -1", 6, selected(|random, case| {
        let network = random.pick(&[32, -1]);
        set(&mut case.head, 7, network);
    })),
    ("network and something earlier", 10, selected(network_and_earlier)),
    ("no network", 4, selected(|_, case| set(&mut case.head, 7, ABSENT))),
    ("network without rows", 4, selected(|random, case| {
        set(&mut case.head, 7, 1 + random.below(31) as i32);
        case.rows = 0;
    })),
    ("flag turned", 4, selected(|random, case| {
        let column = random.pick(&[5, 6]);
        let flag = case.head.get(column).map_or(0, |&flag| i32::from(flag != 1));
        set(&mut case.head, column, flag);
    })),
    ("cell missing", 4, of_cells(cell_missing)),
    ("row without a cell", 4, of_cells(row_without_cell)),
    ("shorter head", 4, any(|random, case| {
        let length = random.below(COLUMNS);
        case.cut_head(length);
    })),
    ("longer head", 4, any(|random, case| {
        let further = 1 + random.below(9);
        case.head.extend((0..further).map(|_| random.next() as i32));
    })),
    ("key", 8, with_rows(|random, case| other_number(random, case, 0, 3))),
    ("value", 10, with_rows(|random, case| other_number(random, case, 3, COLUMNS))),
    ("fewer rows lent", 6, with_rows(fewer_lent)),
    ("far count", 4, any(far_count)),
    ("row too few", 5, with_rows(|_, case| case.rows = case.rows.saturating_sub(1))),
    ("row too many", 5, any(row_too_many)),
    ("row doubled", 5, with_rows(|random, case| insert(random, case, |_, row| row))),
    ("rows swapped", 5, with_rows(swapped)),
    ("foreign row", 5, any(|random, case| insert(random, case, foreign))),
];

fn put_holding(case: &mut Writing, holding: &Holding) {
    if case.holding.len() >= HOLDING_BYTES {
        put(holding, &mut case.holding);
    }
}

/// Bytes that are no holding, of each kind that has a name.
fn stray(random: &mut Random, case: &mut Writing) {
    let (_, stray) = random.pick(&STRAYS);
    put_holding(case, &Holding::Held(masks::named(random)));
    case.holding.truncate(HOLDING_BYTES);
    if case.holding.len() == HOLDING_BYTES {
        let whole = case.holding.clone();
        stray(random, &mut case.holding);
        case.behind.holding = whole[case.holding.len()..].to_vec();
    }
}

/// The empty holding "has no issue number at all", whatever a program keeps in
/// the place of one.
fn no_mask_and_any_iod(random: &mut Random, case: &mut Writing) {
    let iod = random.pick(&[0, 1, 15, 16, 17, 32, 255, 256, -1, i32::MIN, ABSENT]);
    set(&mut case.head, 4, iod);
    put_holding(case, &Holding::Empty);
}

/// The same mask of another issue.
fn other_issue(random: &mut Random, case: &mut Writing) {
    if let Holding::Held(mask) = decode(&case.holding) {
        let iod = (mask.iod + 1 + random.below(15) as u8) % 16;
        put_holding(case, &Holding::Held(Mask { iod, ..mask }));
    }
}

/// Another mask of the same issue.
fn other_mask(random: &mut Random, case: &mut Writing) {
    if let Holding::Held(mask) = decode(&case.holding) {
        let other = Mask { iod: mask.iod, ..masks::good(random) };
        put_holding(case, &Holding::Held(other));
    }
}

fn set(numbers: &mut [i32], at: usize, value: i32) {
    if let Some(number) = numbers.get_mut(at) {
        *number = value;
    }
}

/// A network ID that is refused, and what is refused before it.
fn network_and_earlier(random: &mut Random, case: &mut Writing) {
    let network = random.pick(&[0, 32, -1]);
    set(&mut case.head, 7, network);
    match random.below(5) {
        0 => stray(random, case),
        1 | 2 => put_holding(case, &Holding::Empty),
        _ => other_issue(random, case),
    }
}

fn other_head(random: &mut Random, case: &mut Writing, column: usize) {
    if let Some(&number) = case.head.get(column) {
        case.head[column] = other(random, number);
    }
}

/// Another number in a column of a counted row, from one column to before the
/// other.
fn other_number(random: &mut Random, case: &mut Writing, from: usize, to: usize) {
    let rows = case.counted() / COLUMNS;
    if rows > 0 {
        let at = COLUMNS * random.below(rows) + from + random.below(to - from);
        case.numbers[at] = other(random, case.numbers[at]);
    }
}

/// Another number: absent, a neighbour, one that has the same low bits, the
/// first that a width has no room for, or any.
fn other(random: &mut Random, number: i32) -> i32 {
    let width = random.pick(&[1, 2, 3, 4, 5, 8, 10, 11, 12, 13, 15, 16, 20, 31]);
    let power = 1_i32 << width;
    let half = power >> 1;
    let near = random.pick(&[number.wrapping_add(1), number.wrapping_sub(1), 0, 1, -1]);
    let alias = random.pick(&[number.wrapping_add(power), number.wrapping_sub(power)]);
    let edge = random.pick(&[power, half, -half, -1 - half]);
    let any = random.next() as i32;
    let far = random.pick(&[i32::MIN, i32::MAX, ABSENT - 1, ABSENT + 1, any]);
    random.pick(&[ABSENT, ABSENT, near, near, alias, edge, far])
}

/// At least one number less than the counted rows have.
fn fewer_lent(random: &mut Random, case: &mut Writing) {
    let counted = case.counted();
    if counted > 0 {
        let some = 1 + random.below(counted);
        let lost = random.pick(&[1, 1, COLUMNS, some]);
        case.cut_numbers(counted.saturating_sub(lost));
    }
}

/// Far more rows than are lent; eight times as many may look like those that are
/// to whoever drops upper bits.
fn far_count(random: &mut Random, case: &mut Writing) {
    let far = far(random, case.rows);
    let alias = case.rows.wrapping_add(1 << random.pick(&[29, 32, 61]));
    case.rows = random.pick(&[far, alias]);
}

/// One row more is counted than there is, with any numbers in it: or with
/// absent ones alone, which some reader might take for none.
fn row_too_many(random: &mut Random, case: &mut Writing) {
    let row = if random.chance(50) { [ABSENT; COLUMNS] } else { [0; COLUMNS] };
    let at = case.counted();
    case.numbers.splice(at..at, row);
    case.rows = case.rows.wrapping_add(1);
}

/// Puts a row made of a counted one in before or after it; a service row where
/// there is none.
fn insert(random: &mut Random, case: &mut Writing, made: fn(&mut Random, [i32; 8]) -> [i32; 8]) {
    let rows = case.counted() / COLUMNS;
    let of = COLUMNS * random.below(rows.max(1));
    let mut row = [ABSENT, ABSENT, 1, 0, 0, 0, 0, 0];
    if rows > 0 {
        row.copy_from_slice(&case.numbers[of..of + COLUMNS]);
    }
    let at = if random.chance(50) { of } else { (of + COLUMNS).min(case.counted()) };
    case.numbers.splice(at..at, made(random, row));
    case.rows = case.rows.wrapping_add(1);
}

/// A row of some other satellite, signal or part.
fn foreign(random: &mut Random, mut row: [i32; COLUMNS]) -> [i32; COLUMNS] {
    let column = random.below(3);
    row[column] = match column {
        0 => random.below(6) as i32,
        1 => 1 + random.below(40) as i32,
        _ => random.below(16) as i32,
    };
    row
}

/// One counted row less. Where it is its satellite's only one, another selection is
/// left.
fn cell_missing(random: &mut Random, case: &mut Writing) {
    let rows = case.counted() / COLUMNS;
    if rows > 0 {
        let at = COLUMNS * random.below(rows);
        case.numbers.drain(at..at + COLUMNS);
        case.rows = rows - 1;
    }
}

/// A row of a satellite that has no cell, wherever it stands among the others.
fn row_without_cell(random: &mut Random, case: &mut Writing) {
    if let Holding::Held(mask) = decode(&case.holding) {
        let bare = mask.bare_satellites();
        if bare.is_empty() {
            return;
        }
        let (id, place) = random.pick(&bare);
        let any = random.below(16) as i32;
        let signal = random.pick(&[0, any, ABSENT]);
        let row = [i32::from(id), place as i32 + 1, signal, 0, 0, 0, ABSENT, ABSENT];
        let at = COLUMNS * random.below(case.counted() / COLUMNS + 1);
        case.numbers.splice(at..at, row);
        case.rows = case.rows.wrapping_add(1);
    }
}

fn swapped(random: &mut Random, case: &mut Writing) {
    let rows = case.counted() / COLUMNS;
    if rows < 2 {
        return;
    }
    let one = random.below(rows - 1);
    let later = one + 1 + random.below(rows - 1 - one);
    let other = random.pick(&[one + 1, later]);
    for column in 0..COLUMNS {
        case.numbers.swap(COLUMNS * one + column, COLUMNS * other + column);
    }
}
