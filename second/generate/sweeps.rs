//! Sweeps: messages, good and refused ones, cut and damaged at every bit; a few
//! holdings damaged at every bit and lent in every length; everything else that
//! is lent around its limits, and several things wrong at once.

use super::super::bits::{bytes_for, pack};
use super::super::holding::{Holding, Mask, System, GALILEO};
use super::super::host::HOLDING_BYTES;
use super::super::random::Random;
use super::super::{ROW_ROOM, STRETCH_BITS};
use super::hand::{listing_bits, place};
use super::messages::Drawn;
use super::{dirty_bytes, masks, messages, plain, Case};

pub fn cases() -> Vec<Case> {
    let mut random = Random::new(1);
    let mask = five_systems();
    let held = Holding::Held(mask.clone());
    let mut all = Vec::new();
    for (holding, drawn) in scenes(&mut random, &mask) {
        all.extend(cut(&mut random, &holding, &drawn));
        all.extend(flipped(&mut random, &holding, &drawn));
    }
    let biases = messages::of_sub_type(&mut random, &mask, 4);
    let limit = Holding::Held(masks::at_limit(&mut random, 0));
    for holding in [Holding::Empty, held.clone(), limit] {
        all.extend(damaged_holdings(&plain("sweep: holding", &holding, &biases.bits)));
    }
    let case = plain("sweep: lent", &held, &biases.bits);
    all.extend(holding_lengths(&case));
    all.extend(rooms(&case));
    all.extend(ends());
    all.extend(orders(&case));
    all
}

/// All five systems, not in the order of their IDs, with and without cell mask,
/// one without satellites, one without signals, at first and last places; one
/// satellite with no bit of its cell mask set.
pub fn five_systems() -> Mask {
    let field = |places: &[usize], width| places.iter().map(|&at| place(at, width)).sum::<i64>();
    let system = |id, satellites: &[usize], signals: &[usize], cells: Option<&[bool]>| System {
        id,
        satellites: field(satellites, 40) as u64,
        signals: field(signals, 16) as u16,
        cells: cells.map(<[bool]>::to_vec),
    };
    let systems = vec![
        system(GALILEO, &[0, 36], &[0, 14], Some(&[true, false, false, true])),
        system(0, &[0, 39], &[13], None),
        system(4, &[9], &[], Some(&[])),
        system(1, &[], &[12], None),
        system(3, &[0, 39], &[0, 8], Some(&[false, false, true, true])),
    ];
    Mask { iod: 9, systems }
}

/// One message of each sub type, then refused ones and masks at the limits,
/// each with what is held.
fn scenes(random: &mut Random, mask: &Mask) -> Vec<(Holding, Drawn)> {
    let mut drawn = vec![messages::mask(random, mask), messages::service(random)];
    let sub_types = [2, 3, 4, 5, 6, 6, 7, 11];
    drawn.extend(sub_types.map(|sub_type| messages::of_sub_type(random, mask, sub_type)));
    drawn.push(messages::other_number(random));
    drawn.push(messages::other_sub_type(random));
    drawn.extend([6, 11].map(|sub_type| messages::network_zero(random, mask, sub_type)));
    drawn.push(messages::without_cell(random, mask));
    let other_issue = Mask { iod: mask.iod + 1, ..mask.clone() };
    drawn.push(messages::correction(random, &other_issue));
    let faults = [masks::with_bad_system(random), masks::with_reserved_place(random)];
    let (met, passed) = (masks::limits(random, 0), masks::limits(random, 1));
    for sent in faults.iter().chain(&met).chain(&passed) {
        drawn.push(messages::mask(random, sent));
    }
    let held = Holding::Held(mask.clone());
    let mut scenes: Vec<_> = drawn.into_iter().map(|drawn| (held.clone(), drawn)).collect();
    scenes.push((Holding::Empty, messages::correction(random, mask)));
    scenes
}

/// The message after so many other bits.
pub fn shifted(random: &mut Random, holding: &Holding, bits: &[bool], start: usize) -> Case {
    let all = [&random.bits(start)[..], bits].concat();
    let bytes = dirty_bytes(random, &all);
    Case { bytes, start, ..plain("sweep: message", holding, &all) }
}

/// The stretch ends after each number of the message's bits, at each alignment
/// in turn; what was after that becomes dirt.
pub fn cut(random: &mut Random, holding: &Holding, drawn: &Drawn) -> Vec<Case> {
    let mut cut = |kept: usize| {
        let start = kept % 8;
        let case = shifted(random, holding, &drawn.bits, start);
        Case { bit_length: start + kept, ..case }
    };
    (0..=drawn.bits.len()).map(&mut cut).collect()
}

/// Each single bit of the message is damaged, at each alignment in turn.
fn flipped(random: &mut Random, holding: &Holding, drawn: &Drawn) -> Vec<Case> {
    let mut flipped = |at: usize| {
        let mut bits = drawn.bits.clone();
        bits[at] = !bits[at];
        shifted(random, holding, &bits, at % 8)
    };
    (0..drawn.bits.len()).map(&mut flipped).collect()
}

/// Each single bit of the holding is damaged.
fn damaged_holdings(case: &Case) -> Vec<Case> {
    let damaged = |bit: usize| {
        let mut case = case.clone();
        case.holding[bit / 8] ^= 1 << (bit % 8);
        case
    };
    (0..8 * HOLDING_BYTES).map(damaged).collect()
}

/// The holding is lent with fewer bytes than it has, and with others after them.
fn holding_lengths(case: &Case) -> Vec<Case> {
    let lent = |length: usize| {
        let mut case = case.clone();
        case.holding.resize(length, 0xFF);
        case
    };
    (0..HOLDING_BYTES + 66).map(lent).collect()
}

fn rooms(case: &Case) -> Vec<Case> {
    let around = |room: usize| (room.saturating_sub(9)..room + 9).collect::<Vec<usize>>();
    let rooms = [around(0), around(ROW_ROOM), around(2 * ROW_ROOM)].concat();
    rooms.into_iter().map(|room| Case { room, ..case.clone() }).collect()
}

/// Bit lengths and starts around the end of few bytes and of the longest stretch.
fn ends() -> Vec<Case> {
    let short = pack(&listing_bits());
    let long = vec![0; bytes_for(STRETCH_BITS) + 1];
    let case = plain("sweep: ends", &Holding::Empty, &[]);
    let mut all = Vec::new();
    for (bytes, end) in [(short.clone(), short.len() * 8), (long, STRETCH_BITS)] {
        for bit_length in end - 9..end + 9 {
            for start in bit_length - 3..bit_length + 4 {
                all.push(Case { bytes: bytes.clone(), bit_length, start, ..case.clone() });
            }
            all.push(Case { bytes: bytes.clone(), bit_length, ..case.clone() });
        }
    }
    all
}

/// Row buffer, bit length and holding each good or bad, over a message or zeros:
/// "reader's order: 1, 2, 12, 0".
fn orders(case: &Case) -> Vec<Case> {
    let zeros = vec![0; case.bytes.len()];
    let stray = [&case.holding[..HOLDING_BYTES - 1], &[1]].concat();
    let short = case.holding[..HOLDING_BYTES - 1].to_vec();
    let mut all = Vec::new();
    for room in [ROW_ROOM - 1, ROW_ROOM] {
        for bit_length in [case.bytes.len() * 8 + 1, case.bit_length] {
            for holding in [&stray, &short, &case.holding] {
                for bytes in [&zeros, &case.bytes] {
                    let (holding, bytes) = (holding.clone(), bytes.clone());
                    all.push(Case { holding, bytes, bit_length, room, ..case.clone() });
                }
            }
        }
    }
    all
}
