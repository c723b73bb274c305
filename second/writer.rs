//! The writer of one message (document 01, "Writer").

use super::answer::{Stop, NETWORK, PLACE, ROOM, SUB_TYPE, VALUE};
use super::bits::set_bit;
use super::compose;
use super::holding::Holding;
use super::{COLUMNS, STRETCH_BITS};

/// Writes the message at the start and answers the place after it. Bits
/// outside the message keep their values; a refusal writes nothing.
pub fn write(
    holding: &Holding,
    head: &[i32; COLUMNS],
    rows: &[i32],
    count: usize,
    bytes: &mut [u8],
    start: usize,
) -> Result<usize, Stop> {
    let limit = STRETCH_BITS.min(bytes.len() * 8);
    let message = prepare(holding, head, rows, count, start, limit)
        .map_err(|number| Stop::plain(number, start))?;
    for (offset, &value) in message.iter().enumerate() {
        set_bit(bytes, start + offset, value);
    }
    Ok(start + message.len())
}

/// All refusals: 2, 12 for the holding, those of the message, and last 1.
fn prepare(
    holding: &Holding,
    head: &[i32; COLUMNS],
    rows: &[i32],
    count: usize,
    start: usize,
    limit: usize,
) -> Result<Vec<bool>, u8> {
    if start > limit {
        return Err(PLACE);
    }
    if *holding == Holding::Nonsense {
        return Err(VALUE);
    }
    let message = message(holding, head, rows, count)?;
    if message.len() > limit - start {
        return Err(ROOM);
    }
    Ok(message)
}

/// "5, 6 (also for sub type 1), 7 (also for sub type 1; 10 skips both),
/// 11 (sub type 11 with c = 0), 12"; for sub type 6 as for 11 (document 02, Ask 1),
/// where no c but 0 gives 11, whatever the rows select.
fn message(
    holding: &Holding,
    head: &[i32; COLUMNS],
    rows: &[i32],
    count: usize,
) -> Result<Vec<bool>, u8> {
    match head[0] {
        1 => compose::mask_message(holding.of_issue(head[4])?, head, &counted(rows, count)?),
        2..=5 | 7 => compose::correction(holding.of_issue(head[4])?, head, &counted(rows, count)?),
        10 => compose::service(head, &counted(rows, count)?),
        6 | 11 => {
            let mask = holding.of_issue(head[4])?;
            if head[7] == 0 {
                return Err(NETWORK);
            }
            compose::selected(mask, head, &counted(rows, count)?)
        }
        _ => Err(SUB_TYPE),
    }
}

/// The counted rows; rows past the count are ignored, fewer are refused.
fn counted(rows: &[i32], count: usize) -> Result<Vec<&[i32]>, u8> {
    if count > rows.len() / COLUMNS {
        return Err(VALUE);
    }
    Ok(rows.chunks_exact(COLUMNS).take(count).collect())
}
