//! Every column of every head and row, at the edges of what a message can
//! carry: just inside it is written and read back, just outside it is 12
//! (document 01, "Writer": "no message reads back to exactly this").

use super::tools::*;
use super::Group;
use crate::codec::holding::Holding;
use crate::codec::reader::read;
use crate::codec::writer::write;
use crate::codec::ROW_ROOM;

/// What a column may hold: from, to, and whether it may be absent as well.
type Range = (i32, i32, bool);

const NEVER: Range = (NO, NO, true);
const NETWORK: Range = (1, 31, true);

fn exactly(value: i32) -> Range {
    (value, value, false)
}

fn unsigned(width: u32) -> Range {
    (0, (1 << width) - 1, false)
}

fn signed(width: u32) -> Range {
    (-(1 << (width - 1)), (1 << (width - 1)) - 1, false)
}

/// A good message under `mask`, with the range of every column while all others
/// stay. Sub type and IOD have refusals of their own and no range here.
struct Sample {
    name: &'static str,
    head: [i32; 8],
    head_ranges: [Option<Range>; 8],
    row: [i32; 8],
    row_ranges: [Range; 8],
    rows: usize,
}

/// Galileo satellite 7 with signal place 3.
fn mask() -> Holding {
    held(&[(2, place(6, 40), place(3, 16))])
}

fn head_ranges(epoch: u32, [a, b, c]: [Range; 3]) -> [Option<Range>; 8] {
    let [a, b, c] = [Some(a), Some(b), Some(c)];
    [None, Some(unsigned(epoch)), Some(unsigned(4)), Some(unsigned(1)), None, a, b, c]
}

fn satellite_row(signal: Range, values: [Range; 5]) -> [Range; 8] {
    let [v1, v2, v3, v4, v5] = values;
    [exactly(2), exactly(7), signal, v1, v2, v3, v4, v5]
}

fn plain(
    name: &'static str,
    sub_type: i32,
    signal: i32,
    values: [i32; 5],
    ranges: [Range; 5],
) -> Sample {
    let signal_range = if signal == NO { NEVER } else { exactly(signal) };
    let [v1, v2, v3, v4, v5] = values;
    Sample {
        name,
        head: [sub_type, 7, 1, 0, 3, NO, NO, NO],
        head_ranges: head_ranges(12, [NEVER; 3]),
        row: [2, 7, signal, v1, v2, v3, v4, v5],
        row_ranges: satellite_row(signal_range, ranges),
        rows: 1,
    }
}

/// Sub type 6 with these flags and network 4.
fn biases(name: &'static str, [a, b]: [i32; 2], values: [i32; 5], ranges: [Range; 5]) -> Sample {
    Sample {
        head: [6, 7, 1, 0, 3, a, b, 4],
        head_ranges: head_ranges(12, [exactly(a), exactly(b), NETWORK]),
        ..plain(name, 6, 3, values, ranges)
    }
}

const N: Range = NEVER;

fn samples() -> Vec<Sample> {
    let orbit = [unsigned(10), signed(15), signed(13), signed(13)];
    let [iode, radial, along, cross] = orbit;
    let never = Some(NEVER);
    let byte = unsigned(8);
    let (code, phase) = (signed(11), signed(15));
    vec![
        Sample {
            name: "mask",
            head: [1, 7, 1, 0, 3, 1, NO, NO],
            head_ranges: head_ranges(20, [exactly(1), NEVER, NEVER]),
            row: [0; 8],
            row_ranges: [N; 8],
            rows: 0,
        },
        plain("orbit", 2, NO, [1, 2, 3, 4, NO], [iode, radial, along, cross, N]),
        plain("clock", 3, NO, [1, NO, NO, NO, NO], [signed(15), N, N, N, N]),
        plain("code bias", 4, 3, [1, NO, NO, NO, NO], [signed(11), N, N, N, N]),
        plain("phase bias", 5, 3, [1, 2, NO, NO, NO], [signed(15), unsigned(2), N, N, N]),
        plain("URA", 7, NO, [1, NO, NO, NO, NO], [unsigned(6), N, N, N, N]),
        biases("both biases", [1, 1], [1, 2, 3, NO, NO], [code, phase, unsigned(2), N, N]),
        biases("code of both", [1, 0], [1, NO, NO, NO, NO], [code, N, N, N, N]),
        biases("phase of both", [0, 1], [NO, 2, 3, NO, NO], [N, phase, unsigned(2), N, N]),
        biases("neither bias", [0, 0], [NO; 5], [N; 5]),
        Sample {
            head: [11, 7, 1, 0, 3, 1, 1, 4],
            head_ranges: head_ranges(12, [exactly(1), exactly(1), NETWORK]),
            ..plain("combined", 11, NO, [1, 2, 3, 4, 5], [iode, radial, along, cross, signed(15)])
        },
        Sample {
            head: [11, 7, 1, 0, 3, 0, 0, 4],
            head_ranges: head_ranges(12, [exactly(0), exactly(0), NETWORK]),
            ..plain("bare combined", 11, NO, [NO; 5], [N; 5])
        },
        Sample {
            name: "service",
            head: [10, NO, NO, 0, NO, 1, 0, NO],
            head_ranges: [
                None,
                never,
                never,
                Some(unsigned(1)),
                never,
                Some(unsigned(3)),
                Some(exactly(0)),
                never,
            ],
            row: [NO, NO, 1, 1, 2, 3, 4, 5],
            row_ranges: [N, N, exactly(1), byte, byte, byte, byte, byte],
            rows: 1,
        },
    ]
}

/// Values around the edges, and some far away.
fn trials((low, high, _): Range) -> Vec<i32> {
    let around = |edge: i32| [edge.wrapping_sub(1), edge, edge.wrapping_add(1)];
    let far = [0, 1, -1, NO, NO - 1, NO + 1, i32::MIN, i32::MAX, 65_536, 1 << 20];
    [&around(low)[..], &around(high)[..], &far[..]].concat()
}

fn allowed((low, high, absent): Range, value: i32) -> bool {
    (low..=high).contains(&value) || (absent && value == NO)
}

/// Whether the message is written; if so it must read back exactly.
fn written(group: &mut Group, sample: &Sample, head: &[i32; 8], row: &[i32; 8]) -> Result<(), u8> {
    let mut bytes = [0; 40];
    let answer = write(&mask(), head, row, sample.rows, &mut bytes, 3);
    let next = answer.map_err(|stop| stop.number)?;
    let mut rows = vec![0; ROW_ROOM];
    let back = read(&mask(), &bytes, next, 3, &mut rows);
    let same = back.map_or(false, |message| {
        message.head == *head && message.rows == sample.rows && message.next == next
    });
    group.check(sample.name, same && rows[..sample.rows * 8] == row[..sample.rows * 8]);
    Ok(())
}

fn expected(range: Range, value: i32) -> Result<(), u8> {
    if allowed(range, value) {
        Ok(())
    } else {
        Err(12)
    }
}

pub fn ranges(group: &mut Group) {
    for sample in samples() {
        for (column, range) in sample.head_ranges.iter().enumerate() {
            let range = match *range {
                Some(range) => range,
                None => continue,
            };
            for value in trials(range) {
                let mut head = sample.head;
                head[column] = value;
                let network = matches!(sample.head[0], 6 | 11) && column == 7 && value == 0;
                let expected = if network { Err(11) } else { expected(range, value) };
                let found = written(group, &sample, &head, &sample.row);
                group.same(&format!("{} head {column} {value}", sample.name), found, expected);
            }
        }
        for (column, range) in sample.row_ranges.iter().enumerate().take(8 * sample.rows) {
            for value in trials(*range) {
                let mut row = sample.row;
                row[column] = value;
                let found = written(group, &sample, &sample.head, &row);
                let expected = expected(*range, value);
                group.same(&format!("{} row {column} {value}", sample.name), found, expected);
            }
        }
    }
}
