//! How many bits were missing (document 02, Ask 7) inside every field and every
//! body: of messages laid down by hand, and of messages drawn with the ends of
//! their fields.

use super::tools::*;
use super::Group;
use crate::codec::answer::{Reason, Stop, SHORT};
use crate::codec::bits::pack;
use crate::codec::generate::masks;
use crate::codec::generate::messages::of_sub_type;
use crate::codec::holding::Holding;
use crate::codec::random::Random;
use crate::codec::walk::walk;

/// Messages drawn of each sub type.
const DRAWN: usize = 40;

/// GPS satellites 1 and 3 by signal places 0 and 7 with the cells 1011, and
/// Galileo satellite 37 by signal place 14 without a cell mask.
fn mask_message() -> Vec<bool> {
    let cells = [true, false, true, true];
    mask_bits(&[
        (0, place(0, 40) | place(2, 40), 0x8100, 1, &cells),
        (2, place(36, 40), place(14, 16), 0, &[]),
    ])
}

/// Each length of a message is short up to the end of the field that it ends in.
fn check_ends(group: &mut Group, what: &str, holding: &Holding, bits: &[bool], ends: &[usize]) {
    group.same(what, length(holding, bits), ends.last().copied());
    let mut start = 0;
    for &end in ends {
        for kept in start.max(1)..end {
            let found = reading(holding, &bits[..kept]).err();
            let expected = Reason::Short(end - kept).at(0);
            group.same(&format!("{what}, {kept} bits"), found, Some(expected));
        }
        start = end;
    }
}

pub fn by_hand(group: &mut Group) {
    let mask = mask_message();
    let opening = [12, 16, 36, 40, 41, 45, 49];
    let systems = [53, 93, 109, 110, 114, 118, 158, 174, 175];
    let ends = [&opening[..], &systems[..]].concat();
    check_ends(group, "mask", &Holding::Empty, &mask, &ends);
    let holding = adopted(&mask);
    let head = [12, 16, 28, 32, 33, 37];
    for (sub_type, body) in [(2, 49 + 49 + 51), (3, 3 * 15), (4, 4 * 11), (5, 4 * 17), (7, 3 * 6)] {
        let bits = [head_bits(sub_type, 3), vec![true; body]].concat();
        let ends = [&head[..], &[37 + body]].concat();
        check_ends(group, &format!("sub type {sub_type}"), &holding, &bits, &ends);
    }
    selected(group, &holding, &head);
    for (size, whole) in [(0, 62), (1, 102), (2, 142), (3, 182)] {
        let head = fields(&[(4073, 12), (10, 4), (0, 1), (0, 3), (size, 2)]);
        let bits = [head, vec![false; whole - 22]].concat();
        check_ends(group, "service", &Holding::Empty, &bits, &[12, 16, 17, 20, 22, whole]);
    }
    nothing_missing(group, &holding);
    by_number(group);
}

/// Sub types 6 and 11: with each flag, and with GPS satellite 3 and Galileo's
/// selected, which have three of the four cells.
fn selected(group: &mut Group, holding: &Holding, head: &[usize]) {
    let biases = [(0, 0, 0, 0), (0, 1, 68, 51), (1, 0, 44, 33), (1, 1, 112, 84)];
    let corrections = [(0, 0, 0, 0), (0, 1, 45, 30), (1, 0, 149, 100), (1, 1, 194, 130)];
    for (sub_type, bodies) in [(6, biases), (11, corrections)] {
        for (a, b, all, two) in bodies {
            let flags = [head_bits(sub_type, 3), fields(&[(a, 1), (b, 1)])].concat();
            let bits = [&flags[..], &fields(&[(0, 1)]), &vec![true; all]].concat();
            let ends = [head, &[38, 39, 40, 40 + all]].concat();
            check_ends(group, &format!("{sub_type} without a network"), holding, &bits, &ends);
            let network = fields(&[(1, 1), (31, 5), (0b011, 3)]);
            let bits = [&flags[..], &network, &vec![true; two]].concat();
            let ends = [head, &[38, 39, 40, 45, 48, 48 + two]].concat();
            check_ends(group, &format!("{sub_type} with a network"), holding, &bits, &ends);
        }
    }
}

/// A field of no bits is never short, and what is refused first lacks nothing.
fn nothing_missing(group: &mut Group, holding: &Holding) {
    let found = |holding: &Holding, bits: &[bool]| reading(holding, bits).err();
    let bare = mask_bits(&[(4, place(9, 40), 0, 1, &[])]);
    group.same("a cell mask of no bits", found(&Holding::Empty, &bare), None);
    let network = [head_bits(11, 3), fields(&[(1, 1), (1, 1), (1, 1), (1, 5)])].concat();
    group.same("a selection of no bits", found(&held(&[]), &network), None);
    group.same("a body of no bits", found(&held(&[]), &head_bits(2, 3)), None);
    let other_issue = head_bits(3, 4);
    group.same("7 before the body", found(holding, &other_issue), Some(Stop::plain(7, 0)));
    let no_mask = found(&Holding::Empty, &other_issue);
    group.same("6 before the body", no_mask, Some(Stop::plain(6, 0)));
    let other_number = fields(&[(4072, 12), (1, 1)]);
    group.same("4 before the sub type", found(holding, &other_number), Some(Stop::plain(4, 0)));
    let reserved = [mask_opening(1), fields(&[(4, 4), (1, 40)])].concat();
    group.same("9 before the signals", found(holding, &reserved), Some(Stop::plain(9, 0)));
    let far = Stop { number: SHORT, place: 0, missing: 256 * 28 };
    let many = held(&[(0, first(32, 40), first(8, 16))]);
    let biases = [head_bits(6, 3), fields(&[(1, 1), (1, 1), (0, 1)])].concat();
    group.same("the longest body", found(&many, &biases), Some(far));
    let wide = [mask_opening(1), fields(&[(0, 4), (first(40, 40), 40), (first(14, 16), 16)])];
    let wide = [&wide.concat()[..], &[true]].concat();
    let far = Stop { number: SHORT, place: 0, missing: 40 * 14 };
    group.same("the longest cell mask", found(&Holding::Empty, &wide), Some(far));
}

/// The listing's stretch, cut: place of the stop and bits missing, number for
/// number.
fn by_number(group: &mut Group) {
    let cuts = [
        (1, 0, 11),
        (11, 0, 1),
        (12, 0, 4),
        (15, 0, 1),
        (16, 0, 20),
        (35, 0, 1),
        (36, 0, 4),
        (40, 0, 1),
        (41, 0, 4),
        (45, 0, 4),
        (49, 0, 4),
        (53, 0, 40),
        (93, 0, 16),
        (109, 0, 1),
        (110, 0, 4),
        (113, 0, 1),
        (115, 114, 11),
        (126, 114, 4),
        (130, 114, 12),
        (142, 114, 4),
        (146, 114, 1),
        (147, 114, 4),
        (150, 114, 1),
        (151, 114, 30),
        (180, 114, 1),
    ];
    let bits = listing_bits();
    for (kept, place, missing) in cuts {
        let bytes = pack(&bits[..kept]);
        let walk = walk(&Holding::Empty, &bytes, kept, &mut row_buffer(), |_, _, _| {});
        group.same("cut", walk.stop, Stop { number: SHORT, place, missing });
    }
}

/// Messages drawn with the ends of their fields, cut at every length.
pub fn drawn(group: &mut Group) {
    let mut random = Random::new(19);
    for sub_type in [1, 2, 3, 4, 5, 6, 7, 10, 11] {
        for _ in 0..DRAWN {
            let mask = masks::good(&mut random);
            let drawn = of_sub_type(&mut random, &mask, sub_type);
            check_ends(group, "drawn", &Holding::Held(mask), &drawn.bits, &drawn.ends());
        }
    }
}
