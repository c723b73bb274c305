//! The command line of the second program: the listing of document 01, the
//! tests, and the stream of cases for comparison with another program.

#[path = "lib.rs"]
mod codec;
mod tests;

use std::io::{self, BufWriter, Write};
use std::process::ExitCode;

use codec::answer::CHANGED_MASK;
use codec::emit::texts::{emit_sweep, emit_texts, Kind};
use codec::emit::writes::{emit_changes, emit_rounds, emit_write};
use codec::emit::{emit_bench, emit_fixed, emit_read, emit_stretch, emit_walk, Answers};
use codec::generate::inputs::put_input;
use codec::generate::texts::LINE_ROOM;
use codec::saved;

const USAGE: &str = "usage: second listing|mask | second test | second lines SEED COUNT \
                     | second emit fixed|bench | second emit sweep write|save|load|line \
                     | second emit read|stretch|walk|write|rounds|save|load|line SEED COUNT";

fn main() -> ExitCode {
    let words: Vec<String> = std::env::args().skip(1).collect();
    let words: Vec<&str> = words.iter().map(String::as_str).collect();
    let done = match words[..] {
        ["listing"] => list(),
        ["mask"] => print_mask(),
        ["test"] => return tests::run(),
        ["lines", seed, count] => print_lines(seed, count),
        ["emit", "fixed"] => emit(emit_fixed),
        ["emit", "bench"] => emit(emit_bench),
        ["emit", "sweep", "write"] => emit(emit_changes),
        ["emit", "sweep", kind] => emit_swept(kind),
        ["emit", kind, seed, count] => emit_random(kind, seed, count),
        _ => Err(fault(USAGE)),
    };
    match done {
        Ok(()) => ExitCode::SUCCESS,
        Err(error) => {
            eprintln!("{error}");
            ExitCode::FAILURE
        }
    }
}

fn fault<E: Into<Box<dyn std::error::Error + Send + Sync>>>(error: E) -> io::Error {
    io::Error::new(io::ErrorKind::InvalidInput, error)
}

fn list() -> io::Result<()> {
    let mut output = BufWriter::new(io::stdout().lock());
    codec::listing::listing(&mut io::stdin().lock(), &mut output)?;
    output.flush()
}

/// The saved mask after the listing of the standard input.
fn print_mask() -> io::Result<()> {
    let holding = codec::listing::listing(&mut io::stdin().lock(), &mut io::sink())?;
    let mut line = [0; LINE_ROOM];
    let length = saved::save(&holding, &mut line).map_err(|stop| fault(format!("{stop:?}")))?;
    io::stdout().write_all(&line[..length])
}

/// An input of the listing program, and on stderr how often each kind of line
/// is in it.
fn print_lines(seed: &str, count: &str) -> io::Result<()> {
    let (seed, count) = numbers(seed, count)?;
    let mut output = BufWriter::new(io::stdout().lock());
    for (kind, often) in put_input(&mut output, seed, count)? {
        eprintln!("{often}\t{kind}");
    }
    output.flush()
}

fn numbers(seed: &str, count: &str) -> io::Result<(u64, usize)> {
    Ok((seed.parse().map_err(fault)?, count.parse().map_err(fault)?))
}

fn emit_random(kind: &str, seed: &str, count: &str) -> io::Result<()> {
    let (seed, count) = numbers(seed, count)?;
    match kind {
        "read" => emit(|output| emit_read(output, seed, count)),
        "stretch" => emit(|output| emit_stretch(output, seed, count)),
        "walk" => emit(|output| emit_walk(output, seed, count)),
        "write" => emit(|output| emit_write(output, seed, count)),
        "rounds" => emit(|output| emit_rounds(output, seed, count)),
        _ => {
            let kind = Kind::named(kind).ok_or_else(|| fault(USAGE))?;
            emit(|output| emit_texts(output, kind, seed, count))
        }
    }
}

fn emit_swept(kind: &str) -> io::Result<()> {
    let kind = Kind::named(kind).ok_or_else(|| fault(USAGE))?;
    emit(|output| emit_sweep(output, kind))
}

type Output = BufWriter<io::StdoutLock<'static>>;

fn emit(emitted: impl FnOnce(&mut Output) -> io::Result<Answers>) -> io::Result<()> {
    let mut output = BufWriter::new(io::stdout().lock());
    let answers = emitted(&mut output)?;
    output.flush()?;
    print_answers(&answers);
    Ok(())
}

/// The distribution over the answers, those of 3 and 11 also over the fields that
/// they were for, those of 13 over the kinds of change; where bits were missing, also
/// how many pairs of a sub type and a number of missing bits there were.
fn print_answers(answers: &Answers) {
    for (number, count) in answers.stops.iter().enumerate() {
        eprintln!("{number} {count}");
    }
    eprintln!("accepted {}", answers.accepted);
    for ((number, field), count) in &answers.fields {
        eprintln!("{number} at {field}: {count}");
    }
    for (kind, count) in &answers.changed {
        eprintln!("{CHANGED_MASK} by: {kind}: {count}");
    }
    if !answers.pairs.is_empty() {
        eprintln!("pairs {}", answers.pairs.len());
    }
}
