//! Cases of one write: what a good message means, one or more things wrong with
//! it or with what is lent, and buffers around the length that it needs.

use super::super::bits::bytes_for;
use super::super::holding::{Holding, Mask};
use super::super::host::{put, HOLDING_BYTES};
use super::super::random::Random;
use super::super::{COLUMNS, STRETCH_BITS};
use super::messages::{self, Drawn};
use super::spoils::{Spoil, SPOILS};
use super::{far, holdings, masks, weighted};

/// One case: everything that a write is lent.
#[derive(Clone)]
pub struct Writing {
    /// What the case is made for: names parted by commas, for counts and reports.
    pub family: String,
    pub holding: Vec<u8>,
    pub head: Vec<i32>,
    pub numbers: Vec<i32>,
    /// Rows counted.
    pub rows: usize,
    /// Bytes to write into: how many, and the seed of their first content.
    pub room: usize,
    pub fill: u64,
    pub start: usize,
    pub behind: Behind,
}

/// What lies in memory right behind the holding, head and numbers lent: the rest
/// of what was cut, so that whoever goes on there finds something good.
#[derive(Clone, Default)]
pub struct Behind {
    pub holding: Vec<u8>,
    pub head: Vec<i32>,
    pub numbers: Vec<i32>,
}

/// A kind of buffer: its name, how often it comes, and its bytes and the start
/// for a message of so many bits.
pub type Room = (&'static str, usize, fn(&mut Random, usize) -> (usize, usize));

/// Bytes with which 50,850 is the limit, and not their end.
const LONG: usize = (STRETCH_BITS + 7) / 8;

pub const ROOMS: [Room; 13] = [
    ("room to spare", 50, |random, length| {
        let start = random.below(64);
        (bytes_for(start + length) + random.below(9), start)
    }),
    ("exactly fitting", 12, |random, length| {
        let room = bytes_for(length) + random.below(4);
        (room, 8 * room - length)
    }),
    ("one bit too small", 8, |random, length| {
        let room = bytes_for(length) + random.below(4);
        (room, 8 * room + 1 - length)
    }),
    ("too small", 3, |random, length| {
        let room = random.below(bytes_for(length));
        (room, random.below(8 * room + 1))
    }),
    ("no bytes", 1, |_, _| (0, 0)),
    ("start at the end", 3, |random, length| {
        let room = random.below(bytes_for(length) + 4);
        (room, 8 * room)
    }),
    ("start past the end", 3, |random, length| {
        let room = random.below(bytes_for(length) + 4);
        (room, 8 * room + 1 + random.pick(&[0, 0, 1, 6, 7, 8, 1_000]))
    }),
    ("far start", 3, |random, length| {
        let start = random.below(64);
        (bytes_for(start + length) + random.below(9), far(random, start))
    }),
    ("ends at 50850", 2, |random, length| (long(random), STRETCH_BITS - length)),
    ("ends past 50850", 1, |random, length| (long(random), STRETCH_BITS + 1 - length)),
    ("start at 50850", 1, |random, _| (long(random), STRETCH_BITS)),
    ("start past 50850", 1, |random, _| (long(random), STRETCH_BITS + 1 + random.below(6))),
    ("long bytes", 1, |random, length| (long(random), random.below(STRETCH_BITS - length))),
];

fn long(random: &mut Random) -> usize {
    LONG + random.pick(&[0, 0, 1, 40])
}

/// The next case of one write.
pub fn case(random: &mut Random) -> Writing {
    let (family, spoil) = weighted(random, &SPOILS);
    let (mask, drawn) = scene(random, &spoil);
    let mut case = good(random, &mask, &drawn);
    case.family = format!("{family},{}", case.family);
    (spoil.edit)(random, &mut case);
    if random.chance(8) {
        let (_, other) = weighted(random, &SPOILS);
        (other.edit)(random, &mut case);
        case.family.push_str(",something else");
    }
    case
}

/// A mask, and a message of the sub type that the spoil calls for under it.
fn scene(random: &mut Random, spoil: &Spoil) -> (Mask, Drawn) {
    let mask = mask(random);
    let sub_type = random.pick(spoil.sub_types);
    let drawn = messages::of_sub_type(random, &mask, sub_type);
    (mask, drawn)
}

/// Any good mask, most of them small.
fn mask(random: &mut Random) -> Mask {
    match random.below(40) {
        0 => masks::at_limit(random, 0),
        1 => masks::wide(random),
        2 => masks::bare(random),
        _ => masks::good(random),
    }
}

/// The message's own head and rows under its mask, or what is sent without one
/// under none; numbers lent past the rows now and then; any buffer.
pub fn good(random: &mut Random, mask: &Mask, drawn: &Drawn) -> Writing {
    let (family, room) = weighted(random, &ROOMS);
    let (room, start) = room(random, drawn.bits.len());
    let mut case = plain(mask, drawn, room, start);
    case.family = family.to_string();
    case.fill = random.next();
    if drawn.head[0] == 10 && random.chance(50) {
        put(&Holding::Empty, &mut case.holding);
    }
    holdings::lengthen(random, &mut case.holding);
    if random.chance(30) {
        let further = random.below(20);
        case.numbers.extend((0..further).map(|_| random.next() as i32));
    }
    case
}

/// A message's head and rows under its mask.
pub fn plain(mask: &Mask, drawn: &Drawn, room: usize, start: usize) -> Writing {
    let mut holding = vec![0; HOLDING_BYTES];
    put(&Holding::Held(mask.clone()), &mut holding);
    Writing {
        family: String::new(),
        holding,
        head: drawn.head.to_vec(),
        numbers: drawn.rows.concat(),
        rows: drawn.rows.len(),
        room,
        fill: 1,
        start,
        behind: Behind::default(),
    }
}

/// What is cut lies right behind what is left.
fn cut(lent: &mut Vec<i32>, behind: &mut Vec<i32>, count: usize) {
    if count < lent.len() {
        let rest = lent.split_off(count);
        behind.splice(0..0, rest);
    }
}

impl Writing {
    /// The numbers of the rows counted, as many as are lent.
    pub fn counted(&self) -> usize {
        self.numbers.len().min(self.rows.saturating_mul(COLUMNS))
    }

    /// Lends only so many numbers of the head, or of the rows.
    pub fn cut_head(&mut self, count: usize) {
        cut(&mut self.head, &mut self.behind.head, count);
    }

    pub fn cut_numbers(&mut self, count: usize) {
        cut(&mut self.numbers, &mut self.behind.numbers, count);
    }
}
