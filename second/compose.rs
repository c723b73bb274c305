//! The bits of one message out of head and rows, or 12 where "no message reads
//! back to exactly this under this mask" (document 01, "Writer").

use super::answer::VALUE;
use super::bits::push;
use super::holding::Mask;
use super::layout::{self, Column, Row};
use super::mask_message::push_mask;
use super::{ABSENT, COLUMNS, MESSAGE_NUMBER};

type Head = [i32; COLUMNS];
type Bits = Result<Vec<bool>, u8>;

/// Sub type 1: the head must count the mask's systems, and there are no rows.
pub fn mask_message(mask: &Mask, head: &Head, rows: &[&[i32]]) -> Bits {
    let mut bits = opening(head, 20)?;
    require(head[5] == mask.systems.len() as i32)?;
    require(head[6] == ABSENT && head[7] == ABSENT)?;
    require(rows.is_empty())?;
    push_mask(&mut bits, mask);
    Ok(bits)
}

/// Sub type 10: no epoch, interval or IOD; the size fixes the number of rows.
pub fn service(head: &Head, rows: &[&[i32]]) -> Bits {
    let mut bits = number_and_sub_type(head);
    require([1, 2, 4, 7].iter().all(|&column| head[column] == ABSENT))?;
    put_unsigned(&mut bits, head[3], 1)?;
    put_unsigned(&mut bits, head[5], 3)?;
    put_unsigned(&mut bits, head[6], 2)?;
    put_rows(&mut bits, &layout::service(head[6] as u64), rows)?;
    Ok(bits)
}

/// Sub types 2, 3, 4, 5 and 7: a, b and c are absent.
pub fn correction(mask: &Mask, head: &Head, rows: &[&[i32]]) -> Bits {
    let mut bits = opening(head, 12)?;
    require(head[5..].iter().all(|&column| column == ABSENT))?;
    put_rows(&mut bits, &layout::correction(head[0] as u64, mask), rows)?;
    Ok(bits)
}

/// Sub types 6 and 11: without a network every satellite has its rows; with one
/// the rows themselves tell the selection.
pub fn selected(mask: &Mask, head: &Head, rows: &[&[i32]]) -> Bits {
    let mut bits = opening(head, 12)?;
    put_unsigned(&mut bits, head[5], 1)?;
    put_unsigned(&mut bits, head[6], 1)?;
    let layout = |satellites: &[(u8, usize)]| {
        layout::selected(head[0] as u64, mask, satellites, [head[5] == 1, head[6] == 1])
    };
    let mut selected = mask.satellites();
    let network = head[7] != ABSENT;
    push(&mut bits, u64::from(network), 1);
    if network {
        put_unsigned(&mut bits, head[7], 5)?;
        let selection = selection(&selected, rows, |satellite| layout(&[satellite]).len());
        bits.extend(&selection);
        let mut chosen = selection.into_iter();
        selected.retain(|_| chosen.next() == Some(true));
    }
    put_rows(&mut bits, &layout(&selected), rows)?;
    Ok(bits)
}

/// For each satellite of the mask whether the next row not yet used names it; all
/// rows that such a satellite must have are used then. A row that names none, one
/// out of order, or in sub type 6 one without a cell, is left over and so refused.
fn selection(
    satellites: &[(u8, usize)],
    rows: &[&[i32]],
    rows_of: impl Fn((u8, usize)) -> usize,
) -> Vec<bool> {
    let mut left = rows;
    let mut named = |&(id, place): &(u8, usize)| {
        let key = [i32::from(id), place as i32 + 1];
        let named = left.first().map_or(false, |row| row[..2] == key);
        if named {
            left = left.get(rows_of((id, place))..).unwrap_or_default();
        }
        named
    };
    satellites.iter().map(&mut named).collect()
}

fn number_and_sub_type(head: &Head) -> Vec<bool> {
    let mut bits = Vec::new();
    push(&mut bits, MESSAGE_NUMBER, 12);
    push(&mut bits, head[0] as u64, 4);
    bits
}

/// Number, sub type, epoch of this width, interval, indicator and IOD SSR.
fn opening(head: &Head, epoch: usize) -> Bits {
    let mut bits = number_and_sub_type(head);
    for (column, width) in [(1, epoch), (2, 4), (3, 1), (4, 4)] {
        put_unsigned(&mut bits, head[column], width)?;
    }
    Ok(bits)
}

/// The rows counted must be those of the layout, neither more nor fewer.
fn put_rows(bits: &mut Vec<bool>, layout: &[Row], rows: &[&[i32]]) -> Result<(), u8> {
    require(rows.len() == layout.len())?;
    for (columns, row) in layout.iter().zip(rows) {
        for (column, &value) in columns.iter().zip(*row) {
            put_column(bits, *column, value)?;
        }
    }
    Ok(())
}

fn put_column(bits: &mut Vec<bool>, column: Column, value: i32) -> Result<(), u8> {
    match column {
        Column::Fixed(number) => require(value == number),
        Column::Unsigned(width) => put_unsigned(bits, value, width),
        Column::Signed(width) => put_signed(bits, value, width),
    }
}

fn put_unsigned(bits: &mut Vec<bool>, value: i32, width: usize) -> Result<(), u8> {
    require((0..1 << width).contains(&value))?;
    push(bits, value as u64, width);
    Ok(())
}

fn put_signed(bits: &mut Vec<bool>, value: i32, width: usize) -> Result<(), u8> {
    let half = 1 << (width - 1);
    require((-half..half).contains(&value))?;
    push(bits, value as u64, width);
    Ok(())
}

fn require(good: bool) -> Result<(), u8> {
    if good {
        Ok(())
    } else {
        Err(VALUE)
    }
}
