//! What passes between a host in C and the reader, made from docs/HOST.md: the
//! holding as 194 bytes, and the numbers of an answer.

use std::iter::repeat;
use std::ops::Range;

use super::answer::Stop;
use super::holding::{Holding, Mask, System, MAX_SATELLITES, SIGNAL_BITS};
use super::reader::{self, held_after, raw};
use super::{ABSENT, COLUMNS};

/// Bytes of a holding. A slice may be longer; later bytes are left alone.
pub const HOLDING_BYTES: usize = 194;
/// The answer number of a message that was read: past all that document 02
/// gives to later refusals, so that it stays when they come.
pub const MESSAGE: u8 = 255;

/// Systems that a holding has room for: the five of document 01's table.
const SYSTEMS: usize = 5;

/// The answer to a reading, as the host gets it.
#[derive(Clone, Debug, PartialEq, Eq)]
pub struct Answer {
    /// 0 to 13, or `MESSAGE`.
    pub number: u8,
    /// After the message; else the start asked for.
    pub place: usize,
    /// With answer 3, how many bits were missing; else 0.
    pub missing: usize,
    pub rows: usize,
    pub raw: Range<usize>,
    pub head: [i32; COLUMNS],
}

/// Reads one message under the lent holding, and puts what is held from then
/// on into its place.
pub fn read(
    lent: &mut [u8],
    bytes: &[u8],
    bit_length: usize,
    start: usize,
    rows: &mut [i32],
) -> Answer {
    let held = decode(lent);
    let reading = reader::read(&held, bytes, bit_length, start, rows);
    put(&held_after(&reading, &held), lent);
    let raw = raw(&reading);
    match reading {
        Ok(message) => {
            let (place, rows, head) = (message.next, message.rows, message.head);
            Answer { number: MESSAGE, place, missing: 0, rows, raw, head }
        }
        Err(Stop { number, place, missing }) => {
            Answer { number, place, missing, rows: 0, raw, head: [ABSENT; COLUMNS] }
        }
    }
}

/// What the lent bytes say. The mask is taken out loosely; whatever the loose
/// look missed shows as a difference when the mask is encoded again.
pub fn decode(lent: &[u8]) -> Holding {
    let encoding = match lent.get(..HOLDING_BYTES) {
        Some(encoding) => encoding,
        None => return Holding::Nonsense,
    };
    if encoding.iter().all(|&byte| byte == 0) {
        return Holding::Empty;
    }
    let mask = loose_mask(encoding);
    if mask.is_good() && encode(&mask) == encoding {
        Holding::Held(mask)
    } else {
        Holding::Nonsense
    }
}

/// Puts the holding into the lent bytes; nonsense stays there as it came.
pub fn put(holding: &Holding, lent: &mut [u8]) {
    let encoding = match holding {
        Holding::Empty => vec![0; HOLDING_BYTES],
        Holding::Held(mask) => encode(mask),
        Holding::Nonsense => return,
    };
    lent[..HOLDING_BYTES].copy_from_slice(&encoding);
}

/// The 194 bytes of a mask; of a bad one, as much of it as they have room for.
pub fn encode(mask: &Mask) -> Vec<u8> {
    let systems = &mask.systems;
    let (satellites, cells) = (mask.satellites().len(), mask.cells().len());
    let mut bytes = vec![1, mask.iod, systems.len() as u8, satellites as u8];
    put_numbers(&mut bytes, 2, 1, [cells as u64]);
    put_numbers(&mut bytes, 1, SYSTEMS, systems.iter().map(|system| u64::from(system.id)));
    let flag = |system: &System| u64::from(system.cells.is_some());
    put_numbers(&mut bytes, 1, SYSTEMS, systems.iter().map(flag));
    put_numbers(&mut bytes, 2, SYSTEMS, systems.iter().map(|system| u64::from(system.signals)));
    put_numbers(&mut bytes, 8, SYSTEMS, systems.iter().map(|system| system.satellites));
    put_numbers(&mut bytes, 2, MAX_SATELLITES, systems.iter().flat_map(counting));
    bytes
}

/// For each satellite of the system the signals that count for it.
fn counting(system: &System) -> Vec<u64> {
    let cells = system.cells();
    let of = |&satellite: &usize| {
        let own = cells.iter().filter(|cell| cell.0 == satellite);
        own.fold(0, |signals, cell| signals | signal_bit(cell.1))
    };
    system.satellite_places().iter().map(of).collect()
}

fn signal_bit(place: usize) -> u64 {
    1 << (SIGNAL_BITS - 1 - place)
}

/// So many numbers of so many bytes, least byte first; those that the mask
/// doesn't use are zero.
fn put_numbers(
    bytes: &mut Vec<u8>,
    width: usize,
    count: usize,
    numbers: impl IntoIterator<Item = u64>,
) {
    for number in numbers.into_iter().chain(repeat(0)).take(count) {
        bytes.extend(&number.to_le_bytes()[..width]);
    }
}

fn take_numbers(left: &mut &[u8], width: usize, count: usize) -> Vec<u64> {
    let (numbers, rest) = left.split_at(width * count);
    *left = rest;
    let number = |bytes: &[u8]| bytes.iter().rev().fold(0, |sum, &byte| sum << 8 | u64::from(byte));
    numbers.chunks(width).map(number).collect()
}

/// The mask that 194 bytes speak of, if they speak of one.
fn loose_mask(encoding: &[u8]) -> Mask {
    let (iod, count) = (encoding[1], usize::from(encoding[2]));
    let mut left = &encoding[6..];
    let ids = take_numbers(&mut left, 1, SYSTEMS);
    let flags = take_numbers(&mut left, 1, SYSTEMS);
    let signals = take_numbers(&mut left, 2, SYSTEMS);
    let satellites = take_numbers(&mut left, 8, SYSTEMS);
    let mut counting = take_numbers(&mut left, 2, MAX_SATELLITES).into_iter().chain(repeat(0));
    let mut system = |slot: usize| {
        let (id, satellites, signals) = (ids[slot] as u8, satellites[slot], signals[slot] as u16);
        let mut system = System { id, satellites, signals, cells: None };
        let own: Vec<u64> = counting.by_ref().take(system.satellite_places().len()).collect();
        if flags[slot] == 1 {
            system.cells = Some(cell_mask(&system, &own));
        }
        system
    };
    Mask { iod, systems: (0..count.min(SYSTEMS)).map(&mut system).collect() }
}

/// The cell mask as it is sent, satellite by satellite.
fn cell_mask(system: &System, counting: &[u64]) -> Vec<bool> {
    let places = system.signal_places();
    let of = |&signals: &u64| -> Vec<bool> {
        places.iter().map(|&place| signals & signal_bit(place) != 0).collect()
    };
    counting.iter().flat_map(of).collect()
}
