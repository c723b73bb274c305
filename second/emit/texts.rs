//! The streams of saving, loading, and lines of the listing's input.
//!
//! Record of kind `save`, `load` or `line`: lent
//!   u8        number n of letters
//!   n bytes   family of the case: names parted by commas, for counts and reports
//!   u16       number n of bytes
//!   n bytes   the holding to save, as docs/HOST.md encodes it, or nonsense; none
//!             for `load` and `line`
//!   u32       number n of bytes
//!   n bytes   the line to load, or of the listing's input; none for `save`
//!   u32       the buffer's length in bytes: of the line buffer for `save`, of
//!             that for a stretch for `line`; 0 for `load`
//!   u64       fill seed of the buffer: x = seed; for each byte
//!             x = x * 6364136223846793005 + 1442695040888963407 modulo 2^64,
//!             the byte is the upper 8 bits of x
//! then expected, as docs/HOST.md has it:
//!   u8        answer: 255 when it is done; else 12 or 1
//!   u64       count: bytes of the saved line, or bits of the stretch; 0 for `load`
//!   u32       number n of bytes
//!   n bytes   `save` and `line`: the buffer's first bytes, its old ones after
//!             them; `load`: the 194 bytes of the holding

use std::io::{self, Write};

use super::super::bits::bytes_for;
use super::super::generate::text_sweeps;
use super::super::generate::texts::{filled_bytes, input, loading, saving, Text};
use super::super::host_lines::{self, Done, DONE};
use super::super::random::Random;
use super::{put, put_counted, put_header, Answers};

/// What is asked for: saving, loading, or what a line of the listing's input says.
#[derive(Clone, Copy)]
pub enum Kind {
    Save,
    Load,
    Line,
}

impl Kind {
    pub fn named(name: &str) -> Option<Kind> {
        match name {
            "save" => Some(Kind::Save),
            "load" => Some(Kind::Load),
            "line" => Some(Kind::Line),
            _ => None,
        }
    }

    fn name(self) -> &'static [u8; 8] {
        match self {
            Kind::Save => b"save\0\0\0\0",
            Kind::Load => b"load\0\0\0\0",
            Kind::Line => b"line\0\0\0\0",
        }
    }

    fn case(self, random: &mut Random) -> Text {
        match self {
            Kind::Save => saving(random),
            Kind::Load => loading(random),
            Kind::Line => input(random),
        }
    }

    fn sweep(self) -> Vec<Text> {
        match self {
            Kind::Save => text_sweeps::savings(),
            Kind::Load => text_sweeps::loadings(),
            Kind::Line => text_sweeps::inputs(),
        }
    }

    /// The answer, and what is written.
    fn done(self, case: &Text) -> (Done, Vec<u8>) {
        let mut buffer = filled_bytes(case.fill, case.room);
        match self {
            Kind::Save => {
                let done = host_lines::save(&case.holding, &mut buffer);
                buffer.truncate(done.count);
                (done, buffer)
            }
            Kind::Load => {
                let (number, holding) = host_lines::load(&case.line);
                (Done { number, count: 0 }, holding)
            }
            Kind::Line => {
                let done = host_lines::line(&case.line, &mut buffer);
                buffer.truncate(bytes_for(done.count));
                (done, buffer)
            }
        }
    }
}

/// Writes so many random records of the kind.
pub fn emit_texts(
    output: &mut impl Write,
    kind: Kind,
    seed: u64,
    count: usize,
) -> io::Result<Answers> {
    let mut answers = Answers::default();
    let mut random = Random::new(seed);
    put_header(output, kind.name(), count)?;
    for _ in 0..count {
        put_text(output, &mut answers, kind, &kind.case(&mut random))?;
    }
    Ok(answers)
}

/// Writes the records of the kind's sweeps.
pub fn emit_sweep(output: &mut impl Write, kind: Kind) -> io::Result<Answers> {
    let mut answers = Answers::default();
    let cases = kind.sweep();
    put_header(output, kind.name(), cases.len())?;
    for case in &cases {
        put_text(output, &mut answers, kind, case)?;
    }
    Ok(answers)
}

fn put_text(
    output: &mut impl Write,
    answers: &mut Answers,
    kind: Kind,
    case: &Text,
) -> io::Result<()> {
    let (done, written) = kind.done(case);
    match done.number {
        DONE => answers.accepted += 1,
        stop => answers.stops[usize::from(stop)] += 1,
    }
    let mut record = Vec::new();
    put_counted(&mut record, case.family.as_bytes(), 1);
    put_counted(&mut record, &case.holding, 2);
    put_counted(&mut record, &case.line, 4);
    put(&mut record, case.room as u64, 4);
    put(&mut record, case.fill, 8);
    put(&mut record, u64::from(done.number), 1);
    put(&mut record, done.count as u64, 8);
    put_counted(&mut record, &written, 4);
    output.write_all(&record)
}
