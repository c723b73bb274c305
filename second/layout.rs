//! The rows of each sub type, column by column (document 01, "Message layouts"
//! and "What is handed out"; of sub types 6 and 7 document 02, Ask 1, by Tables
//! 4.1.2-20 and 4.1.2-22 of source document 002). Reader and writer share this one
//! description: the fields of a row stand in the message in the order of its columns.

use super::holding::{Mask, GALILEO};
use super::{ABSENT, COLUMNS};

/// What one column of a row holds.
#[derive(Clone, Copy, Debug, PartialEq, Eq)]
pub enum Column {
    /// A number that the mask, the place or an absent field fixes.
    Fixed(i32),
    /// A field of this many bits, unsigned.
    Unsigned(usize),
    /// A field of this many bits, two's complement.
    Signed(usize),
}

use Column::{Fixed, Signed, Unsigned};

pub type Row = [Column; COLUMNS];

const NONE: Column = Fixed(ABSENT);
const CLOCK: Column = Signed(15);
const CODE_BIAS: Column = Signed(11);
const PHASE_BIAS: Column = Signed(15);
const DISCONTINUITY: Column = Unsigned(2);
const URA: Column = Unsigned(6);

impl Column {
    pub fn width(&self) -> usize {
        match *self {
            Fixed(_) => 0,
            Unsigned(width) | Signed(width) => width,
        }
    }
}

/// Bits that these rows take in a message.
pub fn width(rows: &[Row]) -> usize {
    rows.iter().flatten().map(Column::width).sum()
}

/// The rows of sub types 2, 3 and 7, one per satellite, and of 4 and 5, one per cell.
pub fn correction(sub_type: u64, mask: &Mask) -> Vec<Row> {
    let satellites = mask.satellites();
    match sub_type {
        2 => orbit_clock_rows(&satellites, [true, false]),
        3 => satellite_rows(&satellites, CLOCK),
        4 => cell_rows(&mask.cells(), [CODE_BIAS, NONE, NONE]),
        5 => cell_rows(&mask.cells(), [PHASE_BIAS, DISCONTINUITY, NONE]),
        7 => satellite_rows(&satellites, URA),
        _ => Vec::new(),
    }
}

/// The rows of sub types 6 and 11, of the selected satellites alone, with what
/// their two flags allow: in 6 one per cell, in 11 one per satellite, even where
/// both flags are 0.
pub fn selected(
    sub_type: u64,
    mask: &Mask,
    satellites: &[(u8, usize)],
    flags: [bool; 2],
) -> Vec<Row> {
    match sub_type {
        6 => {
            let [code, phase] = flags;
            let phase = [PHASE_BIAS, DISCONTINUITY].map(|column| when(phase, column));
            cell_rows(&mask.cells_of(satellites), [when(code, CODE_BIAS), phase[0], phase[1]])
        }
        11 => orbit_clock_rows(satellites, flags),
        _ => Vec::new(),
    }
}

/// The rows of sub type 10: one per 40 bits, numbered from 1 in the signal column.
pub fn service(size: u64) -> Vec<Row> {
    let byte = Unsigned(8);
    (1..=size as i32 + 1)
        .map(|number| [NONE, NONE, Fixed(number), byte, byte, byte, byte, byte])
        .collect()
}

fn system(id: u8) -> Column {
    Fixed(i32::from(id))
}

/// "Satellite number is place + 1".
fn satellite(place: usize) -> Column {
    Fixed(place as i32 + 1)
}

fn when(flag: bool, column: Column) -> Column {
    if flag {
        column
    } else {
        NONE
    }
}

fn satellite_rows(satellites: &[(u8, usize)], value: Column) -> Vec<Row> {
    let row = |&(id, place): &(u8, usize)| {
        [system(id), satellite(place), NONE, value, NONE, NONE, NONE, NONE]
    };
    satellites.iter().map(row).collect()
}

fn orbit_clock_rows(satellites: &[(u8, usize)], [orbit, clock]: [bool; 2]) -> Vec<Row> {
    let row = |&(id, place): &(u8, usize)| {
        let iode = Unsigned(if id == GALILEO { 10 } else { 8 });
        [
            system(id),
            satellite(place),
            NONE,
            when(orbit, iode),
            when(orbit, Signed(15)),
            when(orbit, Signed(13)),
            when(orbit, Signed(13)),
            when(clock, CLOCK),
        ]
    };
    satellites.iter().map(row).collect()
}

fn cell_rows(cells: &[(u8, usize, usize)], [v1, v2, v3]: [Column; 3]) -> Vec<Row> {
    let row = |&(id, place, signal): &(u8, usize, usize)| {
        [system(id), satellite(place), Fixed(signal as i32), v1, v2, v3, NONE, NONE]
    };
    cells.iter().map(row).collect()
}
