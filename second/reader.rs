//! The reader of one message (document 01, "Answer numbers", "What is handed out";
//! document 02, Ask 2 for 13).

use std::ops::Range;

use super::answer::Reason::{self, Plain};
use super::answer::{Stop, CHANGED_MASK, IDLE, NETWORK, NUMBER, PLACE, ROOM, SUB_TYPE, VALUE};
use super::bits::{bit, bytes_for, number, signed_number, Fields};
use super::holding::{Holding, Mask};
use super::layout::{self, Column, Row};
use super::mask_message::take_mask;
use super::{ABSENT, COLUMNS, MESSAGE_NUMBER, ROW_ROOM, STRETCH_BITS};

/// An accepted message; its rows stand first in the lent row buffer.
#[derive(Clone, Debug, PartialEq, Eq)]
pub struct Message {
    pub head: [i32; COLUMNS],
    /// The place after the message.
    pub next: usize,
    /// The number of rows.
    pub rows: usize,
    /// The message's raw bytes, as a part of the bytes lent.
    pub raw: Range<usize>,
    /// What is held from now on.
    pub holding: Holding,
}

pub type Reading = Result<Message, Stop>;

/// The raw part of any reading: on idle or a refusal the empty part at offset 0.
pub fn raw(reading: &Reading) -> Range<usize> {
    reading.as_ref().map_or(0..0, |message| message.raw.clone())
}

/// What is held after any reading. 13 drops the held mask, "so that the next mask is
/// taken": "this is the one refusal that changes the holding" (document 02, Ask 2).
pub fn held_after(reading: &Reading, before: &Holding) -> Holding {
    match reading {
        Ok(message) => message.holding.clone(),
        Err(Stop { number: CHANGED_MASK, .. }) => Holding::Empty,
        Err(_) => before.clone(),
    }
}

/// Reads one message. Rows reach the buffer only after the last refusal.
pub fn read(
    holding: &Holding,
    bytes: &[u8],
    bit_length: usize,
    start: usize,
    rows: &mut [i32],
) -> Reading {
    let open = open(holding, bytes, bit_length, start, rows.len());
    let taken = open.and_then(|mut fields| {
        let parts = take_message(&mut fields, holding)?;
        Ok((parts, fields.place()))
    });
    let (parts, next) = taken.map_err(|reason| reason.at(start))?;
    for (lent, row) in rows.chunks_exact_mut(COLUMNS).zip(&parts.rows) {
        lent.copy_from_slice(row);
    }
    Ok(Message {
        head: parts.head,
        next,
        rows: parts.rows.len(),
        raw: start / 8..bytes_for(next),
        holding: parts.holding,
    })
}

/// What the fields of one message give.
struct Parts {
    head: [i32; COLUMNS],
    rows: Vec<[i32; COLUMNS]>,
    holding: Holding,
}

/// "Reader's order: 1, 2, 12, 0", then the fields may be taken.
fn open<'a>(
    holding: &Holding,
    bytes: &'a [u8],
    bit_length: usize,
    start: usize,
    room: usize,
) -> Result<Fields<'a>, Reason> {
    if room < ROW_ROOM {
        return Err(Plain(ROOM));
    }
    if bit_length > STRETCH_BITS || bit_length > bytes.len() * 8 || start > bit_length {
        return Err(Plain(PLACE));
    }
    if *holding == Holding::Nonsense {
        return Err(Plain(VALUE));
    }
    if !(start..bit_length).any(|place| bit(bytes, place)) {
        return Err(Plain(IDLE));
    }
    Ok(Fields::new(bytes, start, bit_length))
}

fn take_message(fields: &mut Fields, holding: &Holding) -> Result<Parts, Reason> {
    if fields.unsigned(12)? != MESSAGE_NUMBER {
        return Err(Plain(NUMBER));
    }
    match fields.unsigned(4)? {
        1 => take_mask_message(fields, holding),
        10 => take_service(fields, holding),
        sub_type @ (2..=7 | 11) => take_correction(fields, holding, sub_type),
        _ => Err(Plain(SUB_TYPE)),
    }
}

/// Sub type, epoch, interval, indicator and IOD SSR; a, b and c still absent.
fn take_head(fields: &mut Fields, sub_type: u64, epoch: usize) -> Result<[i32; COLUMNS], Reason> {
    let mut head = [ABSENT; COLUMNS];
    head[0] = sub_type as i32;
    for (column, width) in [(1, epoch), (2, 4), (3, 1), (4, 4)] {
        head[column] = fields.unsigned(width)? as i32;
    }
    Ok(head)
}

/// Sub type 1: a is the number of systems, and the mask is adopted. 13 comes "when
/// all else in the mask message was good" (document 02, Ask 2).
fn take_mask_message(fields: &mut Fields, holding: &Holding) -> Result<Parts, Reason> {
    let mut head = take_head(fields, 1, 20)?;
    let mask = take_mask(fields, head[4] as u8)?;
    if holding.is_changed_by(&mask) {
        return Err(Plain(CHANGED_MASK));
    }
    head[5] = mask.systems.len() as i32;
    Ok(Parts { head, rows: Vec::new(), holding: Holding::Held(mask) })
}

/// Sub type 10: indicator, counter (a) and size (b); no epoch, interval or IOD.
fn take_service(fields: &mut Fields, holding: &Holding) -> Result<Parts, Reason> {
    let mut head = [ABSENT; COLUMNS];
    head[0] = 10;
    head[3] = fields.unsigned(1)? as i32;
    head[5] = fields.unsigned(3)? as i32;
    let size = fields.unsigned(2)?;
    head[6] = size as i32;
    let rows = take_body(fields, &layout::service(size))?;
    Ok(Parts { head, rows, holding: holding.clone() })
}

/// Sub types 2 to 7 and 11, all made for one mask. "After IOD SSR: 6, then 7."
fn take_correction(fields: &mut Fields, holding: &Holding, sub_type: u64) -> Result<Parts, Reason> {
    let mut head = take_head(fields, sub_type, 12)?;
    let mask = holding.of_issue(head[4])?;
    let layout = match sub_type {
        6 | 11 => take_selected_layout(fields, mask, &mut head)?,
        _ => layout::correction(sub_type, mask),
    };
    let rows = take_body(fields, &layout)?;
    Ok(Parts { head, rows, holding: holding.clone() })
}

/// Sub types 6 and 11 after their head: the two flags (a and b), of code and phase
/// bias or of orbit and clock, the network flag and, if that is 1, the network ID
/// (c) and the selection.
fn take_selected_layout(
    fields: &mut Fields,
    mask: &Mask,
    head: &mut [i32; COLUMNS],
) -> Result<Vec<Row>, Reason> {
    let sub_type = head[0] as u64;
    let flags = [fields.unsigned(1)?, fields.unsigned(1)?];
    [head[5], head[6]] = flags.map(|flag| flag as i32);
    let mut selected = mask.satellites();
    if fields.unsigned(1)? == 1 {
        head[7] = take_network(fields)?;
        selected = take_selection(fields, mask, sub_type)?;
    }
    Ok(layout::selected(sub_type, mask, &selected, flags.map(|flag| flag == 1)))
}

/// The network ID; 0 is refused at once.
fn take_network(fields: &mut Fields) -> Result<i32, Reason> {
    match fields.unsigned(5)? {
        0 => Err(Plain(NETWORK)),
        network => Ok(network as i32),
    }
}

/// The selected satellites. In sub type 6 a selection that names "a satellite
/// without a cell" is refused "right after it" (document 02, Ask 1).
fn take_selection(
    fields: &mut Fields,
    mask: &Mask,
    sub_type: u64,
) -> Result<Vec<(u8, usize)>, Reason> {
    let mut selected = mask.satellites();
    let mut selection = fields.flags(selected.len())?.into_iter();
    selected.retain(|_| selection.next() == Some(true));
    if sub_type == 6 && mask.bare_satellites().iter().any(|bare| selected.contains(bare)) {
        return Err(Plain(NETWORK));
    }
    Ok(selected)
}

/// "The body ... after the last head or selection field is one test of 3." So what
/// is missing of it is missing of the whole body.
fn take_body(fields: &mut Fields, layout: &[Row]) -> Result<Vec<[i32; COLUMNS]>, Reason> {
    let body = fields.flags(layout::width(layout))?;
    let mut left = &body[..];
    Ok(layout.iter().map(|columns| columns.map(|column| split_column(&mut left, column))).collect())
}

/// One column of a row; a field is split off the bits left.
fn split_column(left: &mut &[bool], column: Column) -> i32 {
    let (field, rest) = left.split_at(column.width());
    *left = rest;
    match column {
        Column::Fixed(value) => value,
        Column::Unsigned(_) => number(field) as i32,
        Column::Signed(_) => signed_number(field) as i32,
    }
}
