//! Whole inputs of the listing program: stretch after stretch of a sender that
//! changes its mask now and then, and bad lines of every kind among them.

use std::collections::BTreeMap;
use std::io::{self, Write};

use super::super::random::Random;
use super::edits::EDITS;
use super::input_lines::{good, BAD};
use super::stretches::Run;
use super::weighted;

/// How often each kind of line occurred.
pub type Kinds = BTreeMap<&'static str, usize>;

const LATE: &str = "late joiner";
const UNENDED: &str = "last without its line feed";
const MEGABYTES: &str = "megabytes";

/// How many lines there are for one of megabytes.
const SELDOM: usize = 2_000;

/// Writes so many lines. The first few stretches name no mask; after an odd
/// seed the last line lacks its line feed.
pub fn put_input(output: &mut impl Write, seed: u64, count: usize) -> io::Result<Kinds> {
    let mut random = Random::new(seed);
    let mut run = Run::new(random.next());
    let mut kinds = Kinds::new();
    let late = random.below(8);
    for number in 1..=count {
        let (kind, line) = if number == count && seed % 2 == 1 {
            let mut line = good(&run.sent().1);
            line.pop();
            (UNENDED, line)
        } else if number <= late {
            (LATE, good(&run.unmasked()))
        } else {
            one_line(&mut random, &mut run)
        };
        *kinds.entry(kind).or_default() += 1;
        output.write_all(&line)?;
    }
    Ok(kinds)
}

/// A good line or a bad one, ended by its only line feed.
fn one_line(random: &mut Random, run: &mut Run) -> (&'static str, Vec<u8>) {
    loop {
        let (kind, line) = any_line(random, run);
        if line.iter().position(|&byte| byte == b'\n') == Some(line.len().wrapping_sub(1)) {
            return (kind, line);
        }
    }
}

fn any_line(random: &mut Random, run: &mut Run) -> (&'static str, Vec<u8>) {
    if random.below(SELDOM) == 0 {
        return (MEGABYTES, megabytes(random));
    }
    let (kind, bits) = run.sent();
    match random.below(20) {
        0 | 1 => {
            let (name, edit) = random.pick(&EDITS);
            let mut line = good(&bits);
            edit(random, &mut line);
            (name, line)
        }
        2..=5 => {
            let (name, bad) = weighted(random, &BAD);
            (name, bad(random, bits))
        }
        _ => (kind, good(&bits)),
    }
}

/// One to three million characters: after a count that they fit, after one that
/// they don't, or a count of them.
fn megabytes(random: &mut Random) -> Vec<u8> {
    let length = 1_000_000 + random.below(2_000_000);
    let digits = random.pick(&["0", "A", "f", "1"]).repeat(length);
    match random.below(3) {
        0 => format!("{}\t{digits}\n", 4 * length).into_bytes(),
        1 => format!("181\t{digits}\n").into_bytes(),
        _ => format!("{digits}\n").into_bytes(),
    }
}
