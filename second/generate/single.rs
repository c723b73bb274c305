//! Cases of one reading: a message in the middle of other bits, one or more
//! things wrong with it or with what is lent.

use super::super::bits::bytes_for;
use super::super::holding::{Holding, Mask};
use super::super::random::Random;
use super::super::STRETCH_BITS;
use super::messages::Drawn;
use super::{bad_room, flip, lend, mislength, misstart, weighted};
use super::{holdings, masks, messages, reissues, shorts, Case};

/// The mask held, if any, and the message read under it.
type Scene = (Option<Mask>, Drawn);

/// What a case is made for: its name, how often it comes, and its scene, made
/// with a good mask. The answer is always the reader's own.
type Family = (&'static str, usize, fn(&mut Random, Mask) -> Scene);

const FAMILIES: [Family; 28] = [
    ("good mask", 8, |random, _| fresh(random, masks::good)),
    ("good correction", 27, correction),
    ("good service", 4, service),
    (IDLE, 4, service),
    ("number", 3, |random, held| (Some(held), messages::other_number(random))),
    ("sub type", 3, |random, held| (Some(held), messages::other_sub_type(random))),
    ("no mask", 4, |random, held| (None, messages::correction(random, &held))),
    ("other issue", 4, other_issue),
    ("system", 4, |random, _| fresh(random, masks::with_bad_system)),
    ("reserved place", 4, |random, _| fresh(random, masks::with_reserved_place)),
    ("limit met", 4, |random, _| fresh(random, |random| masks::at_limit(random, 0))),
    ("limit passed", 4, |random, _| fresh(random, |random| masks::at_limit(random, 1))),
    ("network 0", 4, |random, held| {
        let sub_type = random.pick(&[6, 11]);
        with(held, |mask| messages::network_zero(random, mask, sub_type))
    }),
    (WITHOUT_CELL, 4, |random, _| {
        let held = masks::with_bare_satellite(random);
        with(held, |mask| messages::without_cell(random, mask))
    }),
    (DAMAGED_HOLDING, 8, correction),
    (ROOM, 2, correction),
    (PLACE, 3, correction),
    (TRUNCATED, 7, any_message),
    (SHORT, 15, |random, _| {
        let (held, drawn) = shorts::scene(random);
        (Some(held), drawn)
    }),
    (FLIPPED, 9, any_message),
    ("wrong count of systems", 3, |random, _| wrong_count(random)),
    (LONG, 1, correction),
    ("changed mask", 6, changed_mask),
    (CHANGED_SHORT, 2, changed_mask),
    ("changed mask with a fault", 2, |random, held| {
        with(held, |mask| {
            let sent = reissues::faulty(random, mask);
            messages::mask(random, &sent)
        })
    }),
    ("changed mask, other issue", 1, |random, _| {
        let (held, sent) = reissues::scene(random);
        let sent = masks::of_other_issue(random, sent, held.iod);
        (Some(held), messages::mask(random, &sent))
    }),
    ("changed mask, nothing held", 1, |random, held| (None, changed_mask(random, held).1)),
    ("same mask", 2, same_mask),
];

const IDLE: &str = "idle";
const WITHOUT_CELL: &str = "satellite without a cell";
const DAMAGED_HOLDING: &str = "damaged holding";
const ROOM: &str = "room";
const PLACE: &str = "place";
const TRUNCATED: &str = "truncated";
const SHORT: &str = "short field";
const FLIPPED: &str = "one bit flipped";
const LONG: &str = "long stretch";
const CHANGED_SHORT: &str = "changed mask, short";

/// The next case of one reading.
pub fn case(random: &mut Random) -> Case {
    let (family, scene) = weighted(random, &FAMILIES);
    let held = if random.chance(6) { masks::at_limit(random, 0) } else { masks::good(random) };
    let (mask, drawn) = scene(random, held);
    let holding = holding(random, mask);
    let mut case = place(random, family, &holding, &drawn);
    spoil(random, &mut case, &drawn);
    case
}

fn with(mask: Mask, draw: impl FnOnce(&Mask) -> Drawn) -> Scene {
    let drawn = draw(&mask);
    (Some(mask), drawn)
}

/// A mask message of its own, read while any mask of another number or none is held.
fn fresh(random: &mut Random, make: impl FnOnce(&mut Random) -> Mask) -> Scene {
    let sent = make(random);
    let drawn = messages::mask(random, &sent);
    let held = random.chance(70).then(|| {
        let held = masks::good(random);
        masks::of_other_issue(random, held, sent.iod)
    });
    (held, drawn)
}

/// Another mask under the held number: mostly each sort of change as often as it
/// says, else whatever the mask can have.
fn changed_mask(random: &mut Random, held: Mask) -> Scene {
    let (held, sent) = if random.chance(20) {
        let sent = reissues::changed(random, &held);
        (held, sent)
    } else {
        reissues::scene(random)
    };
    (Some(held), messages::mask(random, &sent))
}

/// The held mask itself.
fn same_mask(random: &mut Random, held: Mask) -> Scene {
    with(held, |mask| messages::mask(random, mask))
}

fn correction(random: &mut Random, held: Mask) -> Scene {
    with(held, |mask| messages::correction(random, mask))
}

fn service(random: &mut Random, held: Mask) -> Scene {
    (Some(held), messages::service(random))
}

fn other_issue(random: &mut Random, held: Mask) -> Scene {
    let sent = masks::of_other_issue(random, held.clone(), held.iod);
    (Some(held), messages::correction(random, &sent))
}

/// A mask message whose number of systems isn't that of the systems sent.
fn wrong_count(random: &mut Random) -> Scene {
    let sent = masks::good(random);
    let count = random.below(16) as u64;
    (None, messages::mask_of(random, &sent, count))
}

fn any_message(random: &mut Random, held: Mask) -> Scene {
    match random.below(10) {
        0 => service(random, held),
        1 | 2 => fresh(random, masks::good),
        3 => same_mask(random, held),
        4 => fresh(random, |random| masks::at_limit(random, 0)),
        _ => correction(random, held),
    }
}

fn holding(random: &mut Random, mask: Option<Mask>) -> Holding {
    match mask {
        Some(mask) if !random.chance(2) => Holding::Held(mask),
        _ => Holding::Empty,
    }
}

/// The message after up to 40 other bits, at any alignment, and before nothing,
/// zeros or other bits; dirt after the bit length.
fn place(random: &mut Random, family: &'static str, holding: &Holding, drawn: &Drawn) -> Case {
    let start = if random.chance(20) { 0 } else { random.below(41) };
    let mut bits = random.bits(start);
    if family == IDLE {
        let zeros = random.pick(&[0, 1, 7, 8, 11, 12, 100]);
        bits.resize(start + zeros, false);
    } else {
        bits.extend(&drawn.bits);
        let tail = tail(random);
        bits.extend(tail);
    }
    Case { start, ..lend(random, family, holding, &bits) }
}

fn tail(random: &mut Random) -> Vec<bool> {
    let length = random.below(80);
    match random.below(3) {
        0 => Vec::new(),
        1 => vec![false; length],
        _ => random.bits(length),
    }
}

/// What the family calls for, and rarely one more thing so that the order of
/// the refusals shows.
fn spoil(random: &mut Random, case: &mut Case, drawn: &Drawn) {
    let family = case.family;
    match family {
        SHORT => keep(case, shorts::kept(random, drawn)),
        CHANGED_SHORT => keep(case, shorts::kept_nearly(random, drawn)),
        WITHOUT_CELL if random.chance(50) => keep(case, shorts::kept_to_body(random, drawn)),
        _ if family == TRUNCATED || random.chance(2) => truncate(random, case, drawn),
        _ => {}
    }
    if family == FLIPPED || random.chance(2) {
        damage(random, case, drawn);
    }
    if family == LONG {
        lengthen(random, case);
    }
    if family == DAMAGED_HOLDING || random.chance(1) {
        holdings::damage(random, &mut case.holding);
    }
    if family == PLACE || random.chance(1) {
        if random.chance(50) {
            mislength(random, case);
        } else {
            misstart(random, case);
        }
    }
    if family == ROOM || random.chance(1) {
        case.room = bad_room(random);
    }
}

/// Ends the stretch after so many bits of the message. What was after that becomes
/// dirt.
fn keep(case: &mut Case, kept: usize) {
    case.bit_length = case.bit_length.min(case.start + kept);
}

/// Ends the stretch at the end of a field, one bit before it, or anywhere in
/// the message. A body has many fields, so half of the ends are of those that are
/// tested for 3 by themselves.
fn truncate(random: &mut Random, case: &mut Case, drawn: &Drawn) {
    let end = random.pick(&drawn.ends());
    let bound = random.pick(&drawn.bounds);
    let any = random.below(drawn.bits.len());
    let kept = random.pick(&[end, end - 1, bound, bound - 1, any]);
    keep(case, kept);
}

fn damage(random: &mut Random, case: &mut Case, drawn: &Drawn) {
    let place = case.start + random.below(drawn.bits.len());
    flip(&mut case.bytes, place);
}

/// The longest stretch there is, once with the message first and once with it
/// at the very end.
fn lengthen(random: &mut Random, case: &mut Case) {
    let short = case.bytes.len();
    let before = (STRETCH_BITS - case.bit_length) / 8;
    if random.chance(50) {
        case.bytes.splice(0..0, std::iter::repeat(0).take(before));
        case.start += before * 8;
        case.bit_length += before * 8;
    } else {
        case.bytes.resize(short.max(bytes_for(STRETCH_BITS)), 0);
        case.bit_length = STRETCH_BITS;
    }
}
