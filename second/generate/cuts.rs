//! Good messages of every sub type, cut at every length, so that each field, and
//! each body, is the one that runs past the end, with each number of its bits
//! missing (document 02, Ask 7). What was cut off stays in the bytes as dirt.

use super::super::holding::{Holding, Mask};
use super::super::random::Random;
use super::super::ABSENT;
use super::messages::Drawn;
use super::sweeps::{cut, five_systems};
use super::{masks, messages, plain, Case};

/// In a long body, so many bits from one cut to the next: no multiple of a
/// field's width or of a byte.
const STEP: usize = 61;

/// Single readings, at each alignment in turn; of the longest bodies, under masks
/// at the house limits, few cuts, whose missing bits need more than a byte.
pub fn readings() -> Vec<Case> {
    let mut random = Random::new(2);
    let mut all = Vec::new();
    let mask = five_systems();
    for drawn in messages_of(&mut random, &mask) {
        all.extend(cut(&mut random, &Holding::Held(mask.clone()), &drawn));
    }
    for mask in masks::limits(&mut random, 0) {
        let held = Holding::Held(mask.clone());
        for sub_type in [2, 3, 4, 5, 6, 7, 11] {
            let drawn = messages::of_sub_type(&mut random, &mask, sub_type);
            let cuts = cut(&mut random, &held, &drawn).into_iter().enumerate();
            let few = |kept: usize| kept % STEP == 0 || kept <= drawn.body + 1;
            all.extend(cuts.filter(|&(kept, _)| few(kept)).map(|(_, case)| case));
        }
    }
    all
}

/// A mask and one message of every other sub type under it, as one stretch for
/// a fresh receiver: cut after each number of bits.
pub fn stretches() -> Vec<Case> {
    let mut random = Random::new(4);
    let mask = five_systems();
    let mut bits = messages::mask(&mut random, &mask).bits;
    for sub_type in [2, 3, 4, 5, 7, 10] {
        bits.extend(messages::of_sub_type(&mut random, &mask, sub_type).bits);
    }
    for sub_type in [6, 11] {
        bits.extend(selected(&mut random, &mask, sub_type, [1, 1], true).bits);
    }
    let whole = plain("sweep: cut stretch", &Holding::Empty, &bits);
    (0..=bits.len()).map(|bit_length| Case { bit_length, ..whole.clone() }).collect()
}

/// A mask message, each sub type of satellites and cells, service information of
/// each size, and sub types 6 and 11 with all their flags.
fn messages_of(random: &mut Random, mask: &Mask) -> Vec<Drawn> {
    let mut all: Vec<Drawn> =
        [1, 2, 3, 4, 5, 7].map(|sub_type| messages::of_sub_type(random, mask, sub_type)).into();
    for size in 0..4 {
        all.push(until(|| messages::service(random), |drawn| drawn.head[6] == size));
    }
    for sub_type in [6, 11] {
        for flags in [[0, 0], [0, 1], [1, 0], [1, 1]] {
            let drawn = |network| selected(random, mask, sub_type, flags, network);
            all.extend([false, true].map(drawn));
        }
    }
    all
}

/// Sub type 6 or 11 with these flags, and with a network or without; with one some
/// rows are selected, and some are not.
fn selected(
    random: &mut Random,
    mask: &Mask,
    sub_type: u64,
    flags: [i32; 2],
    network: bool,
) -> Drawn {
    let all = if sub_type == 6 { mask.cells().len() } else { mask.satellites().len() };
    let wanted = |drawn: &Drawn| {
        let part = (1..all).contains(&drawn.rows.len());
        drawn.head[5..7] == flags && (drawn.head[7] != ABSENT) == network && part == network
    };
    until(|| messages::of_sub_type(random, mask, sub_type), wanted)
}

/// Draws until it is one that is wanted.
fn until(mut draw: impl FnMut() -> Drawn, wanted: impl Fn(&Drawn) -> bool) -> Drawn {
    loop {
        let drawn = draw();
        if wanted(&drawn) {
            return drawn;
        }
    }
}
