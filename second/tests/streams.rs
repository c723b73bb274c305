//! The streams of cases: the same from the same seed, of the documented length,
//! and with every answer number in them often.

use std::io::{self, sink};

use super::Group;
use crate::codec::emit::texts::{emit_sweep, emit_texts, Kind};
use crate::codec::emit::writes::{emit_changes, emit_rounds, emit_write};
use crate::codec::emit::{emit_bench, emit_fixed, emit_read, emit_stretch, emit_walk, Answers};

const CASES: usize = 30_000;

pub fn answers(group: &mut Group) {
    let read = emit_read(&mut sink(), 1, CASES);
    often(group, "read", read, CASES / 300);
    often(group, "stretch", emit_stretch(&mut sink(), 1, 3_000), 10);
    often(group, "walk", emit_walk(&mut sink(), 1, 3_000), 10);
    often(group, "fixed", emit_fixed(&mut sink()), 1);
    often(group, "bench", emit_bench(&mut sink()), 1);
    let write = emit_write(&mut sink(), 1, CASES).unwrap_or_default();
    for number in [1, 2, 5, 6, 7, 11, 12] {
        let count = write.stops[number];
        group.check(&format!("write: answer {number}, {count} times"), count >= CASES / 60);
    }
    group.check("write: written", write.accepted >= CASES / 5);
    group.same("write: never 13", write.stops[13], 0);
    let rounds = emit_rounds(&mut sink(), 1, 300).unwrap_or_default();
    group.same("rounds: all are messages", rounds.accepted, 300);
}

fn often(group: &mut Group, kind: &str, answers: io::Result<Answers>, least: usize) {
    let Answers { stops, accepted, pairs, .. } = answers.unwrap_or_default();
    for (number, &count) in stops.iter().enumerate() {
        group.check(&format!("{kind}: answer {number}, {count} times"), count >= least);
    }
    group.check(&format!("{kind}: accepted {accepted} times"), accepted >= least);
    let pairs = pairs.len();
    group.check(&format!("{kind}: {pairs} sub types with missing bits"), pairs >= least);
}

pub fn formats(group: &mut Group) {
    let stream = |seed| written(|output| emit_read(output, seed, 50));
    group.check("the same seed", stream(5) == stream(5));
    group.check("another seed", stream(5) != stream(6));
    let fixed = written(|output| emit_fixed(output));
    let stretches = written(|output| emit_stretch(output, 5, 50));
    let bench = written(|output| emit_bench(output));
    let walks = written(|output| emit_walk(output, 5, 50));
    let readings = |stream: &[u8], kind: &[u8]| records(stream, kind, skip_readings);
    group.same("read ends where it should", readings(&stream(5), b"read\0\0\0\0"), Some(50));
    group.same("stretch too", readings(&stretches, b"stretch\0"), Some(50));
    group.check("fixed too", readings(&fixed, b"fixed\0\0\0") > Some(5_000));
    group.check("bench too", records(&bench, b"bench\0\0\0", skip_walk) > Some(5_000));
    group.same("walk too", records(&walks, b"walk\0\0\0\0", skip_walk), Some(50));
    texts(group);
    writes(group);
}

/// The streams of lines.
fn texts(group: &mut Group) {
    for name in ["save", "load", "line"] {
        let kind = Kind::named(name).unwrap_or(Kind::Save);
        let stream = |seed| written(|output| emit_texts(output, kind, seed, 50));
        let sweep = written(|output| emit_sweep(output, kind));
        let header = [name.as_bytes(), &[0; 4]].concat();
        group.check("the same seed", stream(5) == stream(5) && stream(5) != stream(6));
        group.same(name, records(&stream(5), &header, skip_text), Some(50));
        group.check("and its sweep", records(&sweep, &header, skip_text) > Some(5_000));
    }
}

/// The streams of writes and rounds.
fn writes(group: &mut Group) {
    let write = |seed| written(|output| emit_write(output, seed, 50));
    let rounds = |seed| written(|output| emit_rounds(output, seed, 50));
    let changes = written(|output| emit_changes(output));
    group.check("the same seed", write(5) == write(5) && rounds(5) == rounds(5));
    group.check("another seed", write(5) != write(6) && rounds(5) != rounds(6));
    let skip_write = |left: &mut &[u8]| skip_writing(left).map(drop);
    group.same("write too", records(&write(5), b"write\0\0\0", skip_write), Some(50));
    group.check("changes too", records(&changes, b"changes\0", skip_changes) > Some(2_000));
    group.same("rounds too", records(&rounds(5), b"rounds\0\0", skip_round), Some(50));
}

fn written(emitted: impl FnOnce(&mut Vec<u8>) -> io::Result<Answers>) -> Vec<u8> {
    let mut bytes = Vec::new();
    match emitted(&mut bytes) {
        Ok(_) => bytes,
        Err(_) => Vec::new(),
    }
}

/// Steps over the records by the documented format; the number of records when
/// the last one ends with the stream.
fn records(stream: &[u8], kind: &[u8], skip_record: fn(&mut &[u8]) -> Option<()>) -> Option<u64> {
    let mut left = stream.strip_prefix(kind)?;
    let count = take(&mut left, 8)?;
    for _ in 0..count {
        skip_record(&mut left)?;
    }
    left.is_empty().then_some(count)
}

/// Steps over what is lent; the number of the holding's bytes.
fn skip_lent(left: &mut &[u8]) -> Option<usize> {
    skip_counted(left, 1)?;
    let holding = skip_counted(left, 2)?;
    skip_counted(left, 4)?;
    skip(left, 8 + 8 + 4 + 8)?;
    Some(holding)
}

fn skip_readings(left: &mut &[u8]) -> Option<()> {
    let holding = skip_lent(left)?;
    for _ in 0..take(left, 4)? {
        let answer = take(left, 1)?;
        skip(left, 8)?;
        skip_missing(left, answer)?;
        skip(left, 32)?;
        let rows = take(left, 4)?;
        if !matches!(answer, 0..=13 | 255) || rows > 256 {
            return None;
        }
        skip(left, 8 + 8 + 32 * rows as usize + holding)?;
    }
    Some(())
}

/// Steps over the missing bits: 1 or more with 3, none with all else.
fn skip_missing(left: &mut &[u8], answer: u64) -> Option<()> {
    let missing = take(left, 8)?;
    ((answer == 3) == (missing > 0)).then_some(())
}

fn skip_walk(left: &mut &[u8]) -> Option<()> {
    let holding = skip_lent(left)?;
    let stop = take(left, 1)?;
    skip(left, 8)?;
    skip_missing(left, stop)?;
    skip(left, 8 + 8 + holding)?;
    let changed = take(left, 4)? as usize;
    skip(left, 4 * changed)
}

fn skip_text(left: &mut &[u8]) -> Option<()> {
    skip_counted(left, 1)?;
    skip_counted(left, 2)?;
    skip_counted(left, 4)?;
    skip(left, 4 + 8)?;
    let answer = take(left, 1)?;
    skip(left, 8)?;
    skip_counted(left, 4)?;
    matches!(answer, 1 | 12 | 255).then_some(())
}

/// Steps over a write; its start.
fn skip_writing(left: &mut &[u8]) -> Option<u64> {
    skip_counted(left, 1)?;
    skip(left, 2)?;
    skip_counted(left, 2)?;
    skip(left, 2)?;
    skip_numbers(left, 2)?;
    skip(left, 4)?;
    skip_numbers(left, 4)?;
    skip(left, 8 + 4 + 8)?;
    let start = take(left, 8)?;
    skip_written(left, start)?;
    Some(start)
}

fn skip_written(left: &mut &[u8], start: u64) -> Option<()> {
    let answer = take(left, 1)?;
    let (place, count) = (take(left, 8)?, take(left, 8)?);
    match answer {
        255 if place == start + count => skip(left, ((place + 7) / 8 - start / 8) as usize),
        1 | 2 | 5 | 6 | 7 | 11 | 12 if place == start && count == 0 => Some(()),
        _ => None,
    }
}

fn skip_changes(left: &mut &[u8]) -> Option<()> {
    let start = skip_writing(left)?;
    for _ in 0..take(left, 4)? {
        skip_counted(left, 1)?;
        skip(left, 1 + 2 + 2)?;
        skip_numbers(left, 2)?;
        skip(left, 8)?;
        skip_written(left, start)?;
    }
    Some(())
}

fn skip_round(left: &mut &[u8]) -> Option<()> {
    skip_readings(left)?;
    skip(left, 8 + 4 + 8)
}

fn skip_numbers(left: &mut &[u8], width: usize) -> Option<()> {
    let count = take(left, width)? as usize;
    skip(left, 4 * count)
}

fn skip_counted(left: &mut &[u8], width: usize) -> Option<usize> {
    let count = take(left, width)? as usize;
    skip(left, count)?;
    Some(count)
}

fn take(left: &mut &[u8], width: usize) -> Option<u64> {
    let number = left.get(..width)?;
    *left = &left[width..];
    Some(number.iter().rev().fold(0, |sum, &byte| sum << 8 | u64::from(byte)))
}

fn skip(left: &mut &[u8], width: usize) -> Option<()> {
    *left = left.get(width..)?;
    Some(())
}
