//! Every single change of what a good message means: each number of its head
//! and of its rows at and past the ends of its range, absent, or there where it
//! is absent; rows swapped, doubled, dropped and added; other counts. The ranges
//! are laid down here from documents 01 and 02, and not taken from the writer.
//!
//! A change's name says what it must be answered with: `second test` holds that
//! against the writer. With a network, rows tell the selection (`selections.rs`),
//! so what is done to its rows has names of its own: in sub type 6, where a
//! satellite has a row for each cell, others than in sub type 11.

use super::super::bits::bytes_for;
use super::super::holding::{Mask, GALILEO};
use super::super::random::Random;
use super::super::{ABSENT, COLUMNS};
use super::masks;
use super::messages::{of_sub_type, Drawn};
use super::selections::of_selection;
use super::writes::{plain, Writing};

/// A good case, and all its single changes.
pub struct Changed {
    pub case: Writing,
    pub changes: Vec<Change>,
}

/// In place of some numbers of the head, or of the rows, stand others.
#[derive(Clone)]
pub struct Change {
    pub name: String,
    pub part: Part,
    pub from: usize,
    pub to: usize,
    pub numbers: Vec<i32>,
    /// Rows counted then.
    pub rows: usize,
}

#[derive(Clone, Copy, PartialEq, Eq)]
pub enum Part {
    Head,
    Rows,
}

/// What a number may be: one alone, a field of some width, the network ID of
/// sub types 6 and 11, or absent. A shape says how many rows there are or what
/// they have, so that they must change with it.
#[derive(Clone, Copy)]
pub enum Range {
    Fixed(&'static str),
    Unsigned(u32),
    Signed(u32),
    Shape(u32),
    Network,
    Absent,
}

use Range::{Absent, Fixed, Network, Shape, Signed, Unsigned};

/// Good records of each sub type.
const RECORDS: usize = 234;
const SUB_TYPES: [u64; 9] = [1, 2, 3, 4, 5, 6, 7, 10, 11];

/// Bytes more than the message needs: room for what a change may add to it.
const SPARE: usize = 64;

pub fn all() -> Vec<Changed> {
    let mut random = Random::new(3);
    let mut all = Vec::new();
    for sub_type in SUB_TYPES {
        all.extend((0..RECORDS).map(|_| changed(&mut random, sub_type)));
    }
    all
}

fn changed(random: &mut Random, sub_type: u64) -> Changed {
    let mask = small_mask(random);
    let drawn = of_sub_type(random, &mask, sub_type);
    let start = random.below(24);
    let mut case = plain(&mask, &drawn, bytes_for(start + drawn.bits.len()) + SPARE, start);
    case.family = "unchanged".to_string();
    case.fill = random.next();
    let mut changes = of_head(&drawn);
    changes.extend(of_numbers(&drawn));
    changes.extend(of_rows(&drawn));
    changes.extend(of_counts(&drawn));
    if is_selected(&drawn) {
        changes.extend(of_selection(&mask, &drawn));
    }
    Changed { case, changes }
}

/// A mask of few satellites and cells, now and then of none.
fn small_mask(random: &mut Random) -> Mask {
    let (satellites, cells) = random.pick(&[(3, 4), (3, 4), (6, 8), (12, 16)]);
    loop {
        let mask = masks::good(random);
        let wanted = random.chance(5) || !mask.satellites().is_empty();
        if wanted && mask.satellites().len() <= satellites && mask.cells().len() <= cells {
            return mask;
        }
    }
}

fn is_selected(drawn: &Drawn) -> bool {
    matches!(drawn.head[0], 6 | 11) && drawn.head[7] != ABSENT
}

/// The name of what is done to rows.
fn row_name(drawn: &Drawn, name: &str) -> String {
    match drawn.head[0] {
        6 if is_selected(drawn) => format!("cell {name}"),
        11 if is_selected(drawn) => format!("selected {name}"),
        _ => name.to_string(),
    }
}

/// A change that leaves the number of rows.
fn splice(name: String, part: Part, at: usize, numbers: Vec<i32>, rows: usize) -> Change {
    Change { name, part, from: at, to: at + numbers.len(), numbers, rows }
}

/// Document 01, "Message layouts" and "What is handed out"; document 02, Ask 1.
fn head_ranges(sub_type: i32) -> [Range; COLUMNS] {
    let opening = |epoch, [a, b, c]: [Range; 3]| {
        let (sub_type, iod) = (Fixed("sub type"), Fixed("IOD SSR"));
        [sub_type, Unsigned(epoch), Unsigned(4), Unsigned(1), iod, a, b, c]
    };
    match sub_type {
        1 => opening(20, [Fixed("number of systems"), Absent, Absent]),
        10 => {
            let (indicator, counter, size) = (Unsigned(1), Unsigned(3), Shape(2));
            [Fixed("sub type"), Absent, Absent, indicator, Absent, counter, size, Absent]
        }
        6 | 11 => opening(12, [Shape(1), Shape(1), Network]),
        _ => opening(12, [Absent; 3]),
    }
}

/// The ranges of v1 to v5 of a row, by what is in the head and the row's system.
pub fn value_ranges(head: &[i32; COLUMNS], system: i32) -> [Range; 5] {
    let iode = Unsigned(if system == i32::from(GALILEO) { 10 } else { 8 });
    let a = |range: Range| if head[5] == 1 { range } else { Absent };
    let b = |range: Range| if head[6] == 1 { range } else { Absent };
    match head[0] {
        2 => [iode, Signed(15), Signed(13), Signed(13), Absent],
        3 => [Signed(15), Absent, Absent, Absent, Absent],
        4 => [Signed(11), Absent, Absent, Absent, Absent],
        5 => [Signed(15), Unsigned(2), Absent, Absent, Absent],
        6 => [a(Signed(11)), b(Signed(15)), b(Unsigned(2)), Absent, Absent],
        7 => [Unsigned(6), Absent, Absent, Absent, Absent],
        10 => [Unsigned(8); 5],
        _ => [a(iode), a(Signed(15)), a(Signed(13)), a(Signed(13)), b(Signed(15))],
    }
}

/// What a number is changed to, with the name of each change.
fn others(prefix: &str, range: Range, number: i32) -> Vec<(String, i32)> {
    let named = |name: &str, numbers: &[i32]| -> Vec<(String, i32)> {
        numbers.iter().map(|&number| (format!("{prefix} {name}"), number)).collect()
    };
    let within = |low: i32, high: i32, power: i32| {
        let past = [low - 1, high + 1, number - power, number + power];
        [
            named("at an end", &[low, high]),
            named("past an end", &past),
            named("absent", &[ABSENT]),
        ]
        .concat()
    };
    let renamed = |name: &str, numbers: &[i32]| -> Vec<(String, i32)> {
        numbers.iter().map(|&number| (name.to_string(), number)).collect()
    };
    match range {
        Unsigned(width) => within(0, (1 << width) - 1, 1 << width),
        Signed(width) => within(-(1 << (width - 1)), (1 << (width - 1)) - 1, 1 << width),
        Shape(width) => renamed("shape", &[-1, 0, (1 << width) - 1, 1 << width, ABSENT]),
        Network => [
            renamed("network 0", &[0]),
            renamed("network past an end", &[-1, 32, 33, 64]),
            renamed("another network", &[1, 31]),
            renamed("no network", &[ABSENT]),
        ]
        .concat(),
        Fixed(name) => renamed(name, &[number - 1, number + 1, number + 16, -1, 0, ABSENT]),
        Absent => named("for absent", &[0, 1, -1, ABSENT - 1, ABSENT + 1, i32::MAX]),
    }
}

fn of_head(drawn: &Drawn) -> Vec<Change> {
    let mut changes = Vec::new();
    for (column, range) in head_ranges(drawn.head[0]).into_iter().enumerate() {
        for (name, number) in others("head", range, drawn.head[column]) {
            if number != drawn.head[column] {
                changes.push(splice(name, Part::Head, column, vec![number], drawn.rows.len()));
            }
        }
    }
    changes
}

/// Each key and each value of each row.
fn of_numbers(drawn: &Drawn) -> Vec<Change> {
    let mut changes = Vec::new();
    for (index, row) in drawn.rows.iter().enumerate() {
        let mut change = |column: usize, name: String, number: i32| {
            let at = COLUMNS * index + column;
            changes.push(splice(name, Part::Rows, at, vec![number], drawn.rows.len()));
        };
        for (column, &key) in row[..3].iter().enumerate() {
            let none = [0, 1, ABSENT + 1];
            for number in if key == ABSENT { none } else { [key - 1, key + 1, ABSENT] } {
                change(column, row_name(drawn, "key"), number);
            }
        }
        for (value, range) in value_ranges(&drawn.head, row[0]).into_iter().enumerate() {
            for (name, number) in others("value", range, row[3 + value]) {
                change(3 + value, name, number);
            }
        }
    }
    changes
}

/// Two rows swapped, each with each; one doubled, dropped, or added before it
/// and after the last: a like row of a neighbour.
fn of_rows(drawn: &Drawn) -> Vec<Change> {
    let rows = &drawn.rows;
    let count = rows.len();
    let edit = |name: &str, (from, to): (usize, usize), new: &[[i32; COLUMNS]]| Change {
        name: row_name(drawn, name),
        part: Part::Rows,
        from: COLUMNS * from,
        to: COLUMNS * to,
        numbers: new.concat(),
        rows: count + from + new.len() - to,
    };
    let mut changes = Vec::new();
    for one in 0..count {
        for other in one + 1..count {
            let mut swapped = rows[one..=other].to_vec();
            swapped.swap(0, other - one);
            changes.push(edit("rows swapped", (one, other + 1), &swapped));
        }
        changes.push(edit("row doubled", (one, one), &[rows[one]]));
        changes.push(edit("row dropped", (one, one + 1), &[]));
        changes.push(edit("row added", (one, one), &[neighbour(&rows[one])]));
    }
    let last = rows.last().copied().unwrap_or([0, 1, ABSENT, 0, ABSENT, ABSENT, ABSENT, ABSENT]);
    changes.push(edit("row added", (count, count), &[neighbour(&last)]));
    changes
}

/// The same of the next signal, or of the next satellite where there is none.
fn neighbour(row: &[i32; COLUMNS]) -> [i32; COLUMNS] {
    let mut other = *row;
    other[if row[2] == ABSENT { 1 } else { 2 }] += 1;
    other
}

/// One row less is counted, or more are than are lent: up to the greatest
/// number, and to those whose numbers are as many, their upper bits dropped.
fn of_counts(drawn: &Drawn) -> Vec<Change> {
    let count = drawn.rows.len();
    let counted = |name: String, rows| splice(name, Part::Rows, 0, Vec::new(), rows);
    let more = [count + 1, count + (1 << 32), count + (1 << 61), usize::MAX];
    let mut changes = more.map(|rows| counted("rows not lent".to_string(), rows)).to_vec();
    if count > 0 {
        changes.push(counted(row_name(drawn, "row not counted"), count - 1));
    }
    changes
}

impl Changed {
    /// The case after a change.
    pub fn after(&self, change: &Change) -> Writing {
        let mut case = self.case.clone();
        let numbers = match change.part {
            Part::Head => &mut case.head,
            Part::Rows => &mut case.numbers,
        };
        numbers.splice(change.from..change.to, change.numbers.iter().copied());
        case.family = change.name.clone();
        case.rows = change.rows;
        case
    }
}
