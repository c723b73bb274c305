//! Walks against the single readings that they are made of (document 01, "The
//! walk reads from place 0 until idle or a refusal").

use super::tools::{adopted, head_bits, listing_bits, mask_bits, of_issue, row_buffer};
use super::Group;
use crate::codec::answer::{Stop, CHANGED_MASK, STOPS};
use crate::codec::bits::pack;
use crate::codec::generate::{filled, stretches, Case};
use crate::codec::holding::Holding;
use crate::codec::host::decode;
use crate::codec::reader::{read, Message};
use crate::codec::walk::{walk, Walk};

const CASES: usize = 6_000;

/// The walk told again: reading after reading, kept in a list. What is held after it
/// is what the last of them left, and nothing after 13 (document 02, Ask 2).
fn retold(case: &Case, holding: &Holding, rows: &mut [i32]) -> (Walk, usize) {
    let mut list = Vec::new();
    let mut place = 0;
    loop {
        let held = list.last().map_or(holding, |last: &Message| &last.holding);
        match read(held, &case.bytes, case.bit_length, place, rows) {
            Ok(message) => {
                place = message.next;
                list.push(message);
            }
            Err(stop) => {
                let rows = list.iter().map(|message| message.rows).sum();
                let dropped = stop.number == CHANGED_MASK;
                let holding = if dropped { Holding::Empty } else { held.clone() };
                return (Walk { stop, messages: list.len(), rows, holding }, place);
            }
        }
    }
}

pub fn generated(group: &mut Group) {
    by_hand(group);
    let mut run = stretches::Run::new(9);
    let mut after_messages = [0; STOPS];
    let (mut changed, mut kept) = (0, 0);
    for _ in 0..CASES {
        let case = run.case();
        let holding = decode(&case.holding);
        let mut rows = filled(case.fill, case.room);
        let mut again = rows.clone();
        let mut shown = 0;
        let walk = walk(&holding, &case.bytes, case.bit_length, &mut rows, |place, message, _| {
            shown += message.next - place;
            match (place, message.head[0]) {
                (0, 2..=7 | 11) => kept += 1,
                (1.., 1) => changed += 1,
                _ => {}
            }
        });
        let (expected, place) = retold(&case, &holding, &mut again);
        group.check(case.family, walk == expected && rows == again);
        group.check("messages without a gap", shown == place && walk.stop.place == place);
        group.check("at most a 37th", walk.messages * 37 <= walk.stop.place);
        if walk.messages > 1 {
            after_messages[usize::from(walk.stop.number)] += 1;
        }
        run.keep(&walk.holding);
    }
    group.check("masks adopted inside a stretch", changed >= 1_000);
    group.check("corrections under a mask of an earlier stretch", kept >= 500);
    for number in [0, 3, 4, 5, 7, 8, 9, 10, 11, 13] {
        let often = after_messages[number] >= 5;
        group.check(&format!("stop {number} in the middle occurred"), often);
    }
}

fn walked(holding: &Holding, bits: &[bool], room: usize) -> Walk {
    let mut rows = row_buffer();
    walk(holding, &pack(bits), bits.len(), &mut rows[..room], |_, _, _| {})
}

fn by_hand(group: &mut Group) {
    let empty = Holding::Empty;
    let walk = walked(&empty, &listing_bits(), 2_047);
    group.same("1 at place 0", walk.stop, Stop::plain(1, 0));
    let walk = walked(&empty, &vec![true; 50_851], 2_048);
    group.same("2 at place 0", walk.stop, Stop::plain(2, 0));

    let mut bits = listing_bits();
    bits.resize(181 + 30, false);
    let walk = walked(&empty, &bits, 2_048);
    group.same("idle before the padding", walk.stop, Stop::plain(0, 181));

    let mut bits = listing_bits();
    let mask = of_issue(4, mask_bits(&[]));
    bits.extend(&mask);
    bits.extend(head_bits(3, 9));
    bits.extend(mask_bits(&[(0, 1, 0, 0, &[])]));
    let walk = walked(&empty, &bits, 2_048);
    group.same("nothing after a refusal", walk.stop, Stop::plain(7, 230));
    group.same("messages and rows", (walk.messages, walk.rows), (3, 2));
    group.same("the last mask before it", walk.holding, adopted(&mask));
}
