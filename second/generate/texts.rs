//! Cases of saving, of loading, and of lines of the listing's input, good and of
//! each bad kind, with buffers around the length that they need.

use super::super::bits::bytes_for;
use super::super::holding::Holding;
use super::super::host::{put, HOLDING_BYTES};
use super::super::random::Random;
use super::super::STRETCH_BITS;
use super::edits::EDITS;
use super::strays::STRAYS;
use super::{holdings, input_lines, masks, saved_lines, weighted};

/// One case: everything that is lent.
#[derive(Clone)]
pub struct Text {
    /// What the case is made for: names parted by commas, for counts and reports.
    pub family: String,
    /// The holding's bytes that are saved.
    pub holding: Vec<u8>,
    /// The line that is loaded, or that says a stretch.
    pub line: Vec<u8>,
    /// The length of the buffer for the saved line, or for the stretch.
    pub room: usize,
    /// The seed of the buffer's first content.
    pub fill: u64,
}

/// Bytes that are room for every saved line, and for every stretch (docs/HOST.md).
pub const LINE_ROOM: usize = 512;
pub const STRETCH_ROOM: usize = (STRETCH_BITS + 7) / 8;

/// A kind of buffer: its name, how often it comes, and its length for what is
/// needed now and for what is the most that can be.
type Room = (&'static str, usize, fn(&mut Random, usize, usize) -> usize);

const ROOMS: [Room; 7] = [
    ("exact room", 5, |_, now, _| now),
    ("one byte less", 2, |_, now, _| now.saturating_sub(1)),
    ("less room", 1, |random, now, _| random.below(now.max(1))),
    ("no room", 1, |_, _, _| 0),
    ("one byte more", 2, |_, now, _| now + 1),
    ("more room", 2, |random, now, _| now + random.below(600)),
    ("room for all", 2, |_, _, most| most),
];

/// The buffer's first content, by the rule of the row buffer's (`filled`), but
/// each byte is the upper 8 bits of x.
pub fn filled_bytes(seed: u64, room: usize) -> Vec<u8> {
    let mut x = seed;
    let mut next = || {
        x = x.wrapping_mul(6_364_136_223_846_793_005).wrapping_add(1_442_695_040_888_963_407);
        (x >> 56) as u8
    };
    (0..room).map(|_| next()).collect()
}

/// The next case of saving: of a good holding, or of bytes that are none.
pub fn saving(random: &mut Random) -> Text {
    let mut lent = vec![0; HOLDING_BYTES];
    let (name, length) = if random.chance(55) {
        let (name, good) = weighted(random, &holdings::GOOD);
        let holding = good(random);
        put(&holding, &mut lent);
        (name, saved_lines::good(&holding).len())
    } else {
        let (name, stray) = random.pick(&STRAYS);
        let named = Holding::Held(masks::named(random));
        put(&named, &mut lent);
        stray(random, &mut lent);
        (name, saved_lines::good(&named).len())
    };
    if lent.len() >= HOLDING_BYTES {
        holdings::lengthen(random, &mut lent);
    }
    let (room_name, room) = room(random, length, LINE_ROOM);
    let family = format!("{name},{room_name}");
    Text { family, holding: lent, line: Vec::new(), room, fill: random.next() }
}

/// The next case of loading: half of them good lines.
pub fn loading(random: &mut Random) -> Text {
    let (kind, good) = weighted(random, &holdings::GOOD);
    let mut line = saved_lines::good(&good(random));
    let family = match random.below(10) {
        0..=4 => format!("good line,{kind}"),
        5 | 6 => {
            let (name, edit) = random.pick(&EDITS);
            edit(random, &mut line);
            name.to_string()
        }
        _ => {
            let (name, bad) = weighted(random, &saved_lines::BAD);
            line = bad(random);
            name.to_string()
        }
    };
    Text { family, holding: Vec::new(), line, room: 0, fill: 0 }
}

/// The next line of the listing's input: nearly half of them good.
pub fn input(random: &mut Random) -> Text {
    let (kind, length) = weighted(random, &input_lines::LENGTHS);
    let length = length(random);
    let bits = input_lines::stretch(random, length);
    let (room_name, room) = room(random, bytes_for(length), STRETCH_ROOM);
    let mut line = input_lines::good(&bits);
    let name = match random.below(20) {
        0..=8 => format!("good line,{kind}"),
        9..=12 => {
            let (name, edit) = random.pick(&EDITS);
            edit(random, &mut line);
            name.to_string()
        }
        _ => {
            let (name, bad) = weighted(random, &input_lines::BAD);
            line = bad(random, bits);
            name.to_string()
        }
    };
    let family = format!("{name},{room_name}");
    Text { family, holding: Vec::new(), line, room, fill: random.next() }
}

fn room(random: &mut Random, now: usize, most: usize) -> (&'static str, usize) {
    let (name, room) = weighted(random, &ROOMS);
    (name, room(random, now, most))
}
