//! The binary stream of cases with this program's answers, for a program that
//! runs another codec on the same cases.
//!
//! All numbers are little endian; u8, u16, u32 and u64 are unsigned, i32 is
//! two's complement. Nothing is padded.
//!
//! Stream:
//!   8 bytes   its kind, `fixed`, `read`, `stretch`, `bench` or `walk`, filled
//!             up with zero bytes
//!   u64       number of records
//!   records
//!
//! Lent (the same for all kinds):
//!   u8        number n of letters
//!   n bytes   family of the case, for reports only
//!   u16       number n of bytes
//!   n bytes   holding, as docs/HOST.md encodes it, or nonsense
//!   u32       number n of bytes
//!   n bytes   stretch
//!   u64       bit length
//!   u64       start (0 for a stretch and for a walk)
//!   u32       row buffer's length in numbers
//!   u64       fill seed of the row buffer: x = seed; for each number
//!             x = x * 6364136223846793005 + 1442695040888963407 modulo 2^64,
//!             the number is the upper 32 bits of x as an i32
//!
//! Record of kind `fixed` (bench cases and sweeps), `read` (random single
//! readings) or `stretch` (random stretches, each read until a stop): lent, then
//!   u32       number n of readings, 1 or more; the first is made at the start
//!             and each other at the place that the one before answered, so under
//!             the holding that it left. A single reading that answers 13 is made
//!             twice: the second time what it refused is taken (document 02, Ask 2)
//!   n times, expected, as docs/HOST.md has it:
//!     u8      answer: 0 to 13, or 255 for a message; 64 bits wide in C, but a
//!             byte holds all there are
//!     u64     place: after the message; else where the reading was made
//!     u64     missing: with answer 3 how many bits were missing, 1 or more; with
//!             every other answer 0 (document 02, Ask 7)
//!     8 x i32 head; eight times -32768 when there is no message
//!     u32     row count r; 0 when there is no message
//!     u64     raw part: offset in bytes; 0 when there is no message
//!     u64     raw part: number of bytes; 0 when there is no message
//!     8r x i32  rows: first in the row buffer, its old numbers after them
//!     bytes   holding after the reading, as many bytes as were lent
//!
//! Record of kind `bench` (bench cases, and sweeps from place 0) or `walk`
//! (random stretches), each as one walk: lent, then expected
//!   u8        stop number, 0 to 13
//!   u64       stop place
//!   u64       missing: with stop 3 how many bits were missing, 1 or more; with
//!             every other stop 0
//!   u64       messages accepted
//!   u64       rows in all of them
//!   bytes     holding after the walk, as many bytes as were lent
//!   u32       number n of the row buffer's numbers, up to the last one changed
//!   n x i32   row buffer after the walk: these first, its old numbers after them
//!
//! The kinds `save`, `load` and `line` have records of their own (`emit/texts.rs`),
//! as have `write`, `changes` and `rounds` (`emit/writes.rs`); a record of `rounds`
//! begins with one of `read`, and so has its missing bits too.

pub mod texts;
pub mod writes;

use std::collections::{BTreeMap, BTreeSet};
use std::io::{self, Write};

use super::answer::{Stop, CHANGED_MASK, NETWORK, SHORT, STOPS};
use super::bits::Fields;
use super::difference;
use super::generate::{bench, cuts, filled, plain, reissue_sweeps, single, stretches, sweeps, Case};
use super::holding::Holding;
use super::host::{self, Answer, MESSAGE};
use super::pencil;
use super::random::Random;
use super::walk::walk;
use super::COLUMNS;

/// How often each answer occurred.
#[derive(Default)]
pub struct Answers {
    /// Idle and the refusals, each at its number.
    pub stops: [usize; STOPS],
    /// Messages, apart from them because their number is far from the others.
    pub accepted: usize,
    /// Each sub type with each number of missing bits that occurred with it; no
    /// sub type where the stretch ends before it.
    pub pairs: BTreeSet<(Option<u64>, usize)>,
    /// How often each field was refused with 3, and with 11, by the pencil's names.
    pub fields: Refused,
    /// How often 13 was answered for each kind of difference, by its name.
    pub changed: BTreeMap<&'static str, usize>,
}

/// A refusal's number and the name of the field, and how often it occurred.
pub type Refused = BTreeMap<(u8, String), usize>;

impl Answers {
    /// Counts idle or a refusal of what stands at the place, under what was held
    /// before it.
    fn stopped(&mut self, case: &Case, stop: Stop, holding: &Holding) {
        let Stop { number, place, missing } = stop;
        self.stops[usize::from(number)] += 1;
        let field = match number {
            SHORT => {
                self.pairs.insert((sub_type(case, place), missing));
                pencil::short(case, place, holding).map(|short| short.0)
            }
            NETWORK => Some(pencil::refused_network(case, place, holding)),
            _ => None,
        };
        if let Some(field) = field {
            *self.fields.entry((number, field)).or_default() += 1;
        }
        if number == CHANGED_MASK {
            if let Some(kind) = difference::kind_at(case, place, holding) {
                *self.changed.entry(kind).or_default() += 1;
            }
        }
    }
}

/// The sub type of the message at the place, if it is there whole.
fn sub_type(case: &Case, place: usize) -> Option<u64> {
    let mut fields = Fields::new(&case.bytes, place, case.bit_length);
    fields.unsigned(12).ok()?;
    fields.unsigned(4).ok()
}

/// Readings of a record: a single one, which 13 lets be made again, or as many as
/// there are until a stop.
#[derive(Clone, Copy)]
enum Readings {
    Single,
    Whole,
}

impl Readings {
    /// Whether there is one more after so many, the last of which was answered so.
    fn go_on(self, count: usize, answer: u8) -> bool {
        match self {
            Readings::Single => count == 1 && answer == CHANGED_MASK,
            Readings::Whole => answer == MESSAGE,
        }
    }
}

/// Writes the kind `fixed`.
pub fn emit_fixed(output: &mut impl Write) -> io::Result<Answers> {
    let (readings, stretches) = (fixed_readings(), fixed_stretches());
    let mut answers = Answers::default();
    put_header(output, b"fixed\0\0\0", readings.len() + stretches.len())?;
    for case in &readings {
        put_readings(output, &mut answers, case, Readings::Single)?;
    }
    for case in &stretches {
        put_readings(output, &mut answers, case, Readings::Whole)?;
    }
    Ok(answers)
}

/// Writes so many records of kind `read`.
pub fn emit_read(output: &mut impl Write, seed: u64, count: usize) -> io::Result<Answers> {
    let mut answers = Answers::default();
    let mut random = Random::new(seed);
    put_header(output, b"read\0\0\0\0", count)?;
    for _ in 0..count {
        put_readings(output, &mut answers, &single::case(&mut random), Readings::Single)?;
    }
    Ok(answers)
}

/// Writes so many records of kind `stretch`.
pub fn emit_stretch(output: &mut impl Write, seed: u64, count: usize) -> io::Result<Answers> {
    let mut answers = Answers::default();
    let mut run = stretches::Run::new(seed);
    put_header(output, b"stretch\0", count)?;
    for _ in 0..count {
        let holding = put_readings(output, &mut answers, &run.case(), Readings::Whole)?;
        run.keep(&host::decode(&holding));
    }
    Ok(answers)
}

/// Writes the kind `bench`.
pub fn emit_bench(output: &mut impl Write) -> io::Result<Answers> {
    let mut cases = [fixed_readings(), fixed_stretches()].concat();
    cases.retain(|case| case.start == 0);
    let mut answers = Answers::default();
    put_header(output, b"bench\0\0\0", cases.len())?;
    for case in &cases {
        put_walk(output, &mut answers, case)?;
    }
    Ok(answers)
}

/// Writes so many records of kind `walk`.
pub fn emit_walk(output: &mut impl Write, seed: u64, count: usize) -> io::Result<Answers> {
    let mut answers = Answers::default();
    let mut run = stretches::Run::new(seed);
    put_header(output, b"walk\0\0\0\0", count)?;
    for _ in 0..count {
        let holding = put_walk(output, &mut answers, &run.case())?;
        run.keep(&holding);
    }
    Ok(answers)
}

/// The bench cases that are single readings, and the sweeps of these.
pub fn fixed_readings() -> Vec<Case> {
    let bench = bench::readings();
    let bench = bench.iter().map(|case| plain(case.name, &case.holding, &case.bits));
    let sweeps = sweeps::cases().into_iter().chain(reissue_sweeps::readings());
    bench.chain(sweeps).chain(cuts::readings()).collect()
}

/// The bench cases that are whole stretches, and the sweep of these.
pub fn fixed_stretches() -> Vec<Case> {
    let bench = bench::stretches();
    let bench = bench.iter().map(|case| plain(case.name, &Holding::Empty, &case.bits));
    bench.chain(cuts::stretches()).chain(reissue_sweeps::stretches()).collect()
}

/// Writes the case with its readings, and gives the bytes of the holding after them.
fn put_readings(
    output: &mut impl Write,
    answers: &mut Answers,
    case: &Case,
    wanted: Readings,
) -> io::Result<Vec<u8>> {
    let mut readings = Vec::new();
    let mut count = 0;
    let mut place = case.start;
    let mut holding = case.holding.clone();
    let mut rows = filled(case.fill, case.room);
    loop {
        let before = holding.clone();
        let answer = host::read(&mut holding, &case.bytes, case.bit_length, place, &mut rows);
        put_reading(&mut readings, &answer, &rows, &holding);
        match answer.number {
            MESSAGE => answers.accepted += 1,
            number => {
                let stop = Stop { number, place: answer.place, missing: answer.missing };
                answers.stopped(case, stop, &host::decode(&before));
            }
        }
        place = answer.place;
        count += 1;
        if !wanted.go_on(count, answer.number) {
            break;
        }
    }
    let mut record = Vec::new();
    put_lent(&mut record, case);
    put(&mut record, count as u64, 4);
    record.extend(readings);
    output.write_all(&record)?;
    Ok(holding)
}

/// Writes the case with its walk, and gives what is held after it.
fn put_walk(output: &mut impl Write, answers: &mut Answers, case: &Case) -> io::Result<Holding> {
    let before = filled(case.fill, case.room);
    let mut rows = before.clone();
    let mut holding = case.holding.clone();
    let lent = host::decode(&holding);
    let mut held = lent.clone();
    let walk = walk(&lent, &case.bytes, case.bit_length, &mut rows, |_, message, _| {
        held = message.holding.clone();
    });
    host::put(&walk.holding, &mut holding);
    let Stop { number, place, missing } = walk.stop;
    answers.stopped(case, walk.stop, &held);
    answers.accepted += walk.messages;
    let mut record = Vec::new();
    put_lent(&mut record, case);
    put(&mut record, u64::from(number), 1);
    put(&mut record, place as u64, 8);
    put(&mut record, missing as u64, 8);
    put(&mut record, walk.messages as u64, 8);
    put(&mut record, walk.rows as u64, 8);
    record.extend(holding);
    let changed = changed(&before, &rows);
    put(&mut record, changed as u64, 4);
    put_numbers(&mut record, &rows[..changed]);
    output.write_all(&record)?;
    Ok(walk.holding)
}

/// How many numbers there are up to the last one that differs.
fn changed(before: &[i32], after: &[i32]) -> usize {
    let last = before.iter().zip(after).rposition(|(before, after)| before != after);
    last.map_or(0, |last| last + 1)
}

/// The low so many bytes of the number, little endian.
fn put(record: &mut Vec<u8>, number: u64, width: usize) {
    record.extend_from_slice(&number.to_le_bytes()[..width]);
}

/// So many bytes after their number, which has this width.
fn put_counted(record: &mut Vec<u8>, bytes: &[u8], width: usize) {
    put(record, bytes.len() as u64, width);
    record.extend_from_slice(bytes);
}

fn put_numbers(record: &mut Vec<u8>, numbers: &[i32]) {
    record.extend(numbers.iter().flat_map(|number| number.to_le_bytes()));
}

fn put_header(output: &mut impl Write, kind: &[u8; 8], count: usize) -> io::Result<()> {
    output.write_all(kind)?;
    output.write_all(&(count as u64).to_le_bytes())
}

fn put_lent(record: &mut Vec<u8>, case: &Case) {
    put_counted(record, case.family.as_bytes(), 1);
    put_counted(record, &case.holding, 2);
    put_counted(record, &case.bytes, 4);
    put(record, case.bit_length as u64, 8);
    put(record, case.start as u64, 8);
    put(record, case.room as u64, 4);
    put(record, case.fill, 8);
}

fn put_reading(record: &mut Vec<u8>, answer: &Answer, rows: &[i32], holding: &[u8]) {
    put(record, u64::from(answer.number), 1);
    put(record, answer.place as u64, 8);
    put(record, answer.missing as u64, 8);
    put_numbers(record, &answer.head);
    put(record, answer.rows as u64, 4);
    put(record, answer.raw.start as u64, 8);
    put(record, answer.raw.len() as u64, 8);
    put_numbers(record, &rows[..answer.rows * COLUMNS]);
    record.extend(holding);
}
