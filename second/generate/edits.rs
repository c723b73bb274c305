//! What can happen to a line of text: characters changed, lost and added, and
//! other endings than one line feed.

use super::super::random::Random;

/// An edit of a line that isn't empty, by its name. What it leaves may well be
/// another good line.
pub type Edit = (&'static str, fn(&mut Random, &mut Vec<u8>));

pub const EDITS: [Edit; 17] = [
    ("another character", |random, line| change(random, line, CHARACTERS)),
    ("two other characters", |random, line| {
        change(random, line, CHARACTERS);
        change(random, line, CHARACTERS);
    }),
    ("any byte", |random, line| {
        let at = random.below(line.len());
        line[at] = random.next() as u8;
    }),
    ("one bit of a character", |random, line| {
        let at = random.below(line.len());
        line[at] ^= 1 << random.below(8);
    }),
    ("character dropped", |random, line| {
        line.remove(random.below(line.len()));
    }),
    ("character doubled", |random, line| {
        let at = random.below(line.len());
        line.insert(at, line[at]);
    }),
    ("character put in", |random, line| {
        let at = random.below(line.len() + 1);
        line.insert(at, random.pick(CHARACTERS));
    }),
    ("neighbours swapped", |random, line| {
        let at = random.below(line.len() - 1);
        line.swap(at, at + 1);
    }),
    ("lower case", lower_case),
    ("space for a tab", |random, line| {
        let tabs = places(line, |byte| byte == b'\t');
        put_at(random, line, &tabs, b' ');
    }),
    ("NUL", nul),
    ("cut short", |random, line| line.truncate(random.below(line.len()))),
    ("no line feed", |_, line| line.truncate(line.len() - 1)),
    ("CR for the line feed", |_, line| ending(line, b"\r")),
    ("CR LF", |_, line| ending(line, b"\r\n")),
    ("behind the line feed", behind),
    ("in front", |random, line| {
        line.splice(0..0, random.pick(&FRONTS).iter().copied());
    }),
];

/// Those that a line can have, and those that it can't but that are near.
pub const CHARACTERS: &[u8] = b"0123456789ABCDEFGabcdf-+S \t\n\r\0/:@`x.\x80\xFF";

/// What may stand in front of a line; the last is a mark of its encoding.
const FRONTS: [&[u8]; 6] = [b" ", b"\t", b"\n", b"\0", b"0", b"\xEF\xBB\xBF"];

fn change(random: &mut Random, line: &mut [u8], to: &[u8]) {
    let at = random.below(line.len());
    line[at] = random.pick(to);
}

/// Where such bytes are.
fn places(line: &[u8], such: impl Fn(u8) -> bool) -> Vec<usize> {
    (0..line.len()).filter(|&at| such(line[at])).collect()
}

fn put_at(random: &mut Random, line: &mut [u8], places: &[usize], byte: u8) {
    if !places.is_empty() {
        line[random.pick(places)] = byte;
    }
}

/// One of the capitals, or all of them; a line without any stays.
fn lower_case(random: &mut Random, line: &mut Vec<u8>) {
    let capitals = places(line, |byte| byte.is_ascii_uppercase());
    if random.chance(20) || capitals.is_empty() {
        line.make_ascii_lowercase();
    } else {
        line[random.pick(&capitals)].make_ascii_lowercase();
    }
}

/// For the line feed, before it, after it, or anywhere.
fn nul(random: &mut Random, line: &mut Vec<u8>) {
    match random.below(4) {
        0 => ending(line, b"\0"),
        1 => ending(line, b"\0\n"),
        2 => ending(line, b"\n\0"),
        _ => change(random, line, b"\0"),
    }
}

/// Another character, another line feed, or the same line once more.
fn behind(random: &mut Random, line: &mut Vec<u8>) {
    match random.below(3) {
        0 => line.push(random.pick(CHARACTERS)),
        1 => line.push(b'\n'),
        _ => line.extend(line.clone()),
    }
}

/// Another ending in the place of the line feed.
fn ending(line: &mut Vec<u8>, ending: &[u8]) {
    line.pop();
    line.extend(ending);
}

/// Fewer than so many bytes, in half of all cases with a line feed after them.
pub fn any_line(random: &mut Random, below: usize, byte: fn(&mut Random) -> u8) -> Vec<u8> {
    let mut line = Vec::new();
    for _ in 0..random.below(below) {
        line.push(byte(random));
    }
    if random.chance(50) {
        line.push(b'\n');
    }
    line
}
