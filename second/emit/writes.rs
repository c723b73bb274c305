//! The streams of writes, of their single changes, and of rounds.
//!
//! Record of kind `write` (random writes): lent
//!   u8        number n of letters
//!   n bytes   family of the case: names parted by commas, for counts and reports
//!   u16       number of bytes lent
//!   u16       number n of bytes, not less; those past the ones lent lie behind
//!             them in memory and must not count
//!   n bytes   holding, as docs/HOST.md encodes it, or nonsense
//!   u16       number of numbers lent
//!   u16       number n of numbers, likewise
//!   n x i32   head
//!   u32       number of numbers lent
//!   u32       number n of numbers, likewise
//!   n x i32   rows, and numbers past them
//!   u64       rows counted
//!   u32       number of bytes to write into
//!   u64       their fill seed, by the rule of `emit/texts.rs`
//!   u64       start
//! then expected, as docs/HOST.md has it:
//!   u8        answer: 255 when it is written; else 1, 2, 5, 6, 7, 11 or 12
//!   u64       place: after the message; else the start
//!   u64       count: the message's length in bits; else 0
//!   n bytes   of the bytes lent, those from the byte that holds the start to the
//!             one before the place rounded up to bytes; none when it is not
//!             written. All others are as they were
//!
//! Record of kind `changes` (every single change of a good case): lent and
//! expected as above, the family being `unchanged`, and all of it lent; then
//!   u32       number n of changes, each made to the case as it is above
//!   n times:
//!     u8      number n of letters
//!     n bytes name of the change
//!     u8      0: numbers of the head change; 1: numbers of the rows
//!     u16     from which number on,
//!     u16     to before which one
//!     u16     number n of numbers
//!     n x i32 what stands in place of them
//!     u64     rows counted
//!     expected, as above
//!
//! Record of kind `rounds`: a record of kind `read` (`emit.rs`), its reading being
//! a message; then where else what was read is to be written:
//!   u64       place
//!   u32       number of bytes lent there
//!   u64       their fill seed; also of the bytes for the same place, of which
//!             there are as many as of the stretch

use std::io::{self, Write};

use super::super::generate::changes::{self, Change, Changed, Part};
use super::super::generate::rounds;
use super::super::generate::texts::filled_bytes;
use super::super::generate::writes::{self, Writing};
use super::super::host_lines::DONE;
use super::super::host_write::{self, Written};
use super::super::random::Random;
use super::{put, put_counted, put_header, put_numbers, put_readings, Answers, Readings};

/// Writes so many records of kind `write`.
pub fn emit_write(output: &mut impl Write, seed: u64, count: usize) -> io::Result<Answers> {
    let mut answers = Answers::default();
    let mut random = Random::new(seed);
    put_header(output, b"write\0\0\0", count)?;
    for _ in 0..count {
        let case = writes::case(&mut random);
        let mut record = Vec::new();
        put_lent(&mut record, &case);
        put_expected(&mut record, &mut answers, &case);
        output.write_all(&record)?;
    }
    Ok(answers)
}

/// Writes the kind `changes`.
pub fn emit_changes(output: &mut impl Write) -> io::Result<Answers> {
    let mut answers = Answers::default();
    let all = changes::all();
    put_header(output, b"changes\0", all.len())?;
    for changed in &all {
        let mut record = Vec::new();
        put_changed(&mut record, &mut answers, changed);
        output.write_all(&record)?;
    }
    Ok(answers)
}

/// Writes so many records of kind `rounds`.
pub fn emit_rounds(output: &mut impl Write, seed: u64, count: usize) -> io::Result<Answers> {
    let mut answers = Answers::default();
    let mut random = Random::new(seed);
    put_header(output, b"rounds\0\0", count)?;
    for _ in 0..count {
        let round = rounds::round(&mut random);
        put_readings(output, &mut answers, &round.case, Readings::Single)?;
        let mut record = Vec::new();
        put(&mut record, round.place as u64, 8);
        put(&mut record, round.room as u64, 4);
        put(&mut record, random.next(), 8);
        output.write_all(&record)?;
    }
    Ok(answers)
}

/// The answer to a case, and the bytes after it.
pub fn answer(case: &Writing) -> (Written, Vec<u8>) {
    let mut bytes = filled_bytes(case.fill, case.room);
    let (holding, rows, start) = (&case.holding, case.rows, case.start);
    let written = host_write::write(holding, &case.head, &case.numbers, rows, &mut bytes, start);
    (written, bytes)
}

fn put_lent(record: &mut Vec<u8>, case: &Writing) {
    put_counted(record, case.family.as_bytes(), 1);
    put(record, case.holding.len() as u64, 2);
    put_counted(record, &[&case.holding[..], &case.behind.holding].concat(), 2);
    put_slice(record, &case.head, &case.behind.head, 2);
    put_slice(record, &case.numbers, &case.behind.numbers, 4);
    put(record, case.rows as u64, 8);
    put(record, case.room as u64, 4);
    put(record, case.fill, 8);
    put(record, case.start as u64, 8);
}

/// Numbers lent and those behind them, after how many are lent and are there.
fn put_slice(record: &mut Vec<u8>, lent: &[i32], behind: &[i32], width: usize) {
    put(record, lent.len() as u64, width);
    put(record, (lent.len() + behind.len()) as u64, width);
    put_numbers(record, lent);
    put_numbers(record, behind);
}

fn put_expected(record: &mut Vec<u8>, answers: &mut Answers, case: &Writing) {
    let (written, bytes) = answer(case);
    put(record, u64::from(written.number), 1);
    put(record, written.place as u64, 8);
    put(record, written.count as u64, 8);
    if written.number == DONE {
        answers.accepted += 1;
        record.extend(&bytes[case.start / 8..(written.place + 7) / 8]);
    } else {
        answers.stops[usize::from(written.number)] += 1;
    }
}

fn put_changed(record: &mut Vec<u8>, answers: &mut Answers, changed: &Changed) {
    put_lent(record, &changed.case);
    put_expected(record, answers, &changed.case);
    put(record, changed.changes.len() as u64, 4);
    for change in &changed.changes {
        put_change(record, change);
        put_expected(record, answers, &changed.after(change));
    }
}

fn put_change(record: &mut Vec<u8>, change: &Change) {
    put_counted(record, change.name.as_bytes(), 1);
    put(record, u64::from(change.part == Part::Rows), 1);
    put(record, change.from as u64, 2);
    put(record, change.to as u64, 2);
    put(record, change.numbers.len() as u64, 2);
    put_numbers(record, &change.numbers);
    put(record, change.rows as u64, 8);
}
