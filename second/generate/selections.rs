//! Changes of what a network selects (sub types 6 and 11). Rows tell the selection,
//! so the rows of one more satellite are good where the mask has them, in sub type 6
//! all of the satellite's cells and no others (document 02, Ask 1).

use super::super::holding::Mask;
use super::super::{ABSENT, COLUMNS};
use super::changes::{value_ranges, Change, Part, Range};
use super::messages::Drawn;

type Row = [i32; COLUMNS];

/// Of each satellite that is not selected: its rows, at their place among the others
/// and after all of them.
pub fn of_selection(mask: &Mask, drawn: &Drawn) -> Vec<Change> {
    let mut changes = Vec::new();
    let mut before = 0;
    for satellite in mask.satellites() {
        let rows = rows_of(mask, drawn, satellite);
        if is_next(drawn, before, satellite) {
            before += rows.len();
        } else if drawn.head[0] == 6 {
            changes.extend(of_cells(mask, drawn, before, satellite, &rows));
        } else {
            changes.push(added("selected too", drawn, before, &rows));
            changes.push(added("selected at the end", drawn, drawn.rows.len(), &rows));
        }
    }
    changes
}

fn is_next(drawn: &Drawn, before: usize, (id, place): (u8, usize)) -> bool {
    let key = [i32::from(id), place as i32 + 1];
    drawn.rows.get(before).map_or(false, |row| row[..2] == key)
}

/// In sub type 6 also all its cells but one, and a row of a satellite that has none.
fn of_cells(
    mask: &Mask,
    drawn: &Drawn,
    before: usize,
    (id, place): (u8, usize),
    rows: &[Row],
) -> Vec<Change> {
    if rows.is_empty() {
        let system = mask.systems.iter().find(|system| system.id == id);
        let signal = system.and_then(|system| system.signal_places().first().copied());
        let row = valued(drawn, (id, place), signal.unwrap_or(0) as i32);
        return vec![added("row without a cell", drawn, before, &[row])];
    }
    let mut changes = vec![
        added("cells too", drawn, before, rows),
        added("cells at the end", drawn, drawn.rows.len(), rows),
    ];
    for missing in 0..rows.len() {
        let mut part = rows.to_vec();
        part.remove(missing);
        if !part.is_empty() {
            changes.push(added("cells in part", drawn, before, &part));
        }
    }
    changes
}

/// The rows that the satellite has when it is selected.
fn rows_of(mask: &Mask, drawn: &Drawn, satellite: (u8, usize)) -> Vec<Row> {
    if drawn.head[0] == 11 {
        return vec![valued(drawn, satellite, ABSENT)];
    }
    let cells = mask.cells().into_iter().filter(|&(id, place, _)| (id, place) == satellite);
    cells.map(|(_, _, signal)| valued(drawn, satellite, signal as i32)).collect()
}

/// A row with a value wherever the head's flags ask for one.
fn valued(drawn: &Drawn, (id, place): (u8, usize), signal: i32) -> Row {
    let mut row = [ABSENT; COLUMNS];
    row[..3].copy_from_slice(&[i32::from(id), place as i32 + 1, signal]);
    for (value, range) in value_ranges(&drawn.head, row[0]).into_iter().enumerate() {
        if !matches!(range, Range::Absent) {
            row[3 + value] = value as i32;
        }
    }
    row
}

/// These rows before one of those there are.
fn added(name: &str, drawn: &Drawn, at: usize, rows: &[Row]) -> Change {
    let (from, count) = (COLUMNS * at, drawn.rows.len() + rows.len());
    let (name, numbers) = (name.to_string(), rows.concat());
    Change { name, part: Part::Rows, from, to: from, numbers, rows: count }
}
