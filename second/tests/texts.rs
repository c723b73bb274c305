//! Saving, loading and lines of input as a host in C gets them (docs/HOST.md),
//! and the generator's own lines against the saved form and the listing.

use std::collections::BTreeSet;

use super::tools::{adopted, listing_bits, LISTING_BITS, LISTING_HEX};
use super::Group;
use crate::codec::bits::pack;
use crate::codec::generate::edits::EDITS;
use crate::codec::generate::inputs::{put_input, Kinds};
use crate::codec::generate::strays::STRAYS;
use crate::codec::generate::texts::{self, Text, LINE_ROOM, STRETCH_ROOM};
use crate::codec::generate::{holdings, input_lines, saved_lines};
use crate::codec::host::{encode, put, HOLDING_BYTES};
use crate::codec::host_lines::{line, load, save, Done, DONE};
use crate::codec::listing::{listing, parse};
use crate::codec::random::Random;

const CASES: usize = 20_000;
const SAVED: &[u8] = b"S\t3\t0\tA000000000\t8100\t1\tB\n";

const fn done(count: usize) -> Done {
    Done { number: DONE, count }
}

const fn refused(number: u8) -> Done {
    Done { number, count: 0 }
}

/// The worked listing's mask and stretch, in just enough room and in less.
pub fn by_hand(group: &mut Group) {
    let mut holding = vec![0; HOLDING_BYTES];
    put(&adopted(&listing_bits()), &mut holding);
    let mut buffer = [b'?'; SAVED.len() + 3];
    group.same("saved", save(&holding, &mut buffer[..SAVED.len()]), done(SAVED.len()));
    group.check("its line", buffer.strip_prefix(SAVED) == Some(b"???"));
    group.same("1 of saving", save(&holding, &mut buffer[1..SAVED.len()]), refused(1));
    group.same("12 before 1", save(&holding[1..], &mut []), refused(12));
    group.same("loaded", load(SAVED), (DONE, holding));
    group.same("12 of loading", load(&SAVED[1..]), (12, vec![0; HOLDING_BYTES]));

    let input = format!("{LISTING_BITS}\t{LISTING_HEX}\n").into_bytes();
    let stretch = pack(&listing_bits());
    let mut buffer = [7; 25];
    group.same("a stretch", line(&input, &mut buffer[..23]), done(LISTING_BITS));
    group.check("its bytes", buffer.strip_prefix(&stretch[..]) == Some(&[7, 7]));
    group.same("1 of a line", line(&input, &mut buffer[..22]), refused(1));
    group.same("12 before 1", line(&input[1..], &mut []), refused(12));
    group.same("no bits", line(b"0\t\n", &mut []), done(0));
}

/// Good lines are good in both descriptions; every kind of case occurs.
pub fn lines(group: &mut Group) {
    let mut random = Random::new(13);
    let mut longest = 0;
    for (name, _, good) in holdings::GOOD {
        for _ in 0..CASES / 20 {
            let holding = good(&mut random);
            let mut bytes = vec![0; HOLDING_BYTES];
            put(&holding, &mut bytes);
            let mut buffer = [0; LINE_ROOM];
            let saved = save(&bytes, &mut buffer);
            longest = longest.max(saved.count);
            group.check(name, saved_lines::good(&holding) == buffer[..saved.count]);
        }
    }
    group.check(&format!("long lines, {longest}"), longest > 300);
    for (name, _, length) in input_lines::LENGTHS {
        let length = length(&mut random);
        let bits = input_lines::stretch(&mut random, length);
        group.same(name, parse(&input_lines::good(&bits)), Some((pack(&bits), length)));
    }
    kinds(group, texts::saving, names(&STRAYS), names_of(&holdings::GOOD));
    kinds(group, texts::loading, names(&EDITS), names_of(&saved_lines::BAD));
    kinds(group, texts::input, names(&EDITS), names_of(&input_lines::BAD));
    group.same("room for all stretches", STRETCH_ROOM, 6_357);
    let wide = encode(&crate::codec::generate::masks::wide(&mut random));
    group.same("a wide mask is good", save(&wide, &mut [0; LINE_ROOM]).number, DONE);
}

fn names<T>(kinds: &[(&'static str, T)]) -> Vec<&'static str> {
    kinds.iter().map(|kind| kind.0).collect()
}

fn names_of<T>(kinds: &[(&'static str, usize, T)]) -> Vec<&'static str> {
    kinds.iter().map(|kind| kind.0).collect()
}

/// Each of these is the family of a case.
fn kinds(
    group: &mut Group,
    case: fn(&mut Random) -> Text,
    some: Vec<&'static str>,
    others: Vec<&'static str>,
) {
    let mut random = Random::new(14);
    let mut seen = BTreeSet::new();
    for _ in 0..CASES {
        seen.extend(case(&mut random).family.split(',').map(str::to_string));
    }
    for name in some.into_iter().chain(others) {
        group.check(name, seen.contains(name));
    }
}

/// As many lines as asked for, the last without its line feed after an odd seed;
/// all of them are listed.
pub fn inputs(group: &mut Group) {
    for seed in 1..5 {
        let (input, kinds) = input(seed);
        group.same("lines counted", kinds.values().sum::<usize>(), 500);
        let feeds = input.iter().filter(|&&byte| byte == b'\n').count();
        group.same("line feeds", feeds, if seed % 2 == 1 { 499 } else { 500 });
        let mut output = Vec::new();
        group.check("it is listed", listing(&mut &input[..], &mut output).is_ok());
        let output = String::from_utf8_lossy(&output).into_owned();
        let ends = output.lines().filter(|line| line.starts_with('E') || line.starts_with('B'));
        group.same("an E or a B for each", ends.clone().count(), 500);
        group.check("each of its form", ends.clone().all(is_end));
        let short = ends.filter(|line| line.starts_with("E\t3\t")).count();
        group.check("some with missing bits", short >= 10);
        let changed = output.lines().filter(|line| line.starts_with("E\t13\t")).count();
        group.check("some with a changed mask", changed >= 10);
        group.check("and more after one", after_changed(&output) >= 2);
        group.check("the same seed", input == self::input(seed).0);
    }
}

/// How often the stretch after one that stopped with 13 opens with a mask that is
/// taken (document 02, Ask 2).
fn after_changed(output: &str) -> usize {
    let lines: Vec<&str> = output.lines().collect();
    let mask = |line: &str| line.split('\t').nth(3) == Some("1") && line.starts_with("M\t0\t");
    let taken = |pair: &&[&str]| pair[0].starts_with("E\t13\t") && mask(pair[1]);
    lines.windows(2).filter(taken).count()
}

/// The last field of an E line is a number with stop 3, and `-` with all else
/// (document 02, Ask 7); a B line has no such field.
fn is_end(line: &str) -> bool {
    let fields: Vec<&str> = line.split('\t').collect();
    match fields[..] {
        ["E", "3", _, _, _, missing] => missing.parse::<usize>().map_or(false, |bits| bits > 0),
        ["E", _, _, _, _, "-"] | ["B", _] => true,
        _ => false,
    }
}

fn input(seed: u64) -> (Vec<u8>, Kinds) {
    let mut bytes = Vec::new();
    let kinds = put_input(&mut bytes, seed, 500).unwrap_or_default();
    (bytes, kinds)
}
