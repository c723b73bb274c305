//! Round trips on seeded random messages (document 00, demand 2), and what a
//! refusal leaves alone (demand 1).

use super::tools::row_buffer;
use super::Group;
use crate::codec::answer::{CHANGED_MASK, STOPS};
use crate::codec::bits::bit;
use crate::codec::generate::messages::Drawn;
use crate::codec::generate::rounds::{scene, Scene};
use crate::codec::generate::{filled, masks, single, Case};
use crate::codec::holding::Holding;
use crate::codec::host::decode;
use crate::codec::random::Random;
use crate::codec::reader::{held_after, raw, read, Message};
use crate::codec::writer::write;
use crate::codec::{COLUMNS, STRETCH_BITS};

const DRAWN: usize = 12_000;
const GENERATED: usize = 30_000;

/// Messages drawn with their records: read they give the records, and written
/// the records give the message's very bits.
pub fn drawn(group: &mut Group) {
    let mut random = Random::new(7);
    for _ in 0..DRAWN {
        let mask = masks::good(&mut random);
        let Scene { drawn, held, after } = scene(&mut random, mask);
        let start = random.below(24);
        let after_it = random.below(20);
        let before = random.bits(start + drawn.bits.len() + after_it);
        check_write(group, &drawn, &after, &before, start);
        check_read(group, &drawn, &held, &after, &before, start);
    }
}

/// The bits with the message over them, as bytes.
fn overlaid(drawn: &Drawn, before: &[bool], start: usize) -> Vec<u8> {
    let mut bits = before.to_vec();
    bits[start..start + drawn.bits.len()].copy_from_slice(&drawn.bits);
    crate::codec::bits::pack(&bits)
}

fn check_write(group: &mut Group, drawn: &Drawn, mask: &Holding, before: &[bool], start: usize) {
    let mut bytes = crate::codec::bits::pack(before);
    let rows = drawn.rows.concat();
    let answer = write(mask, &drawn.head, &rows, drawn.rows.len(), &mut bytes, start);
    group.same("written to", answer, Ok(start + drawn.bits.len()));
    group.check("written bits", bytes == overlaid(drawn, before, start));
}

fn check_read(
    group: &mut Group,
    drawn: &Drawn,
    held: &Holding,
    after: &Holding,
    before: &[bool],
    start: usize,
) {
    let mut rows = row_buffer();
    let mut expected = drawn.rows.concat();
    expected.extend(&rows[expected.len()..]);
    let next = start + drawn.bits.len();
    let message = Message {
        head: drawn.head,
        next,
        rows: drawn.rows.len(),
        raw: start / 8..(next - 1) / 8 + 1,
        holding: after.clone(),
    };
    let bytes = overlaid(drawn, before, start);
    let reading = read(held, &bytes, before.len(), start, &mut rows);
    group.same("read", reading, Ok(message));
    group.check("rows first, then the old numbers", rows == expected);
}

/// Every kind of generated case: an accepted one writes back to its very bits,
/// and any other changes nothing, but for what 13 drops (document 02, Ask 2).
pub fn generated(group: &mut Group) {
    let mut random = Random::new(8);
    let mut seen = [0; STOPS];
    for _ in 0..GENERATED {
        let case = single::case(&mut random);
        let holding = decode(&case.holding);
        let old = filled(case.fill, case.room);
        let mut rows = old.clone();
        let reading = read(&holding, &case.bytes, case.bit_length, case.start, &mut rows);
        match &reading {
            Ok(message) => check_back(group, &case, message, &rows, &old, &mut random),
            Err(stop) => {
                group.check(case.family, rows == old && stop.place == case.start);
                group.check("no raw part", raw(&reading) == (0..0));
                let dropped = stop.number == CHANGED_MASK;
                let expected = if dropped { Holding::Empty } else { holding.clone() };
                group.check("what is held", held_after(&reading, &holding) == expected);
                seen[usize::from(stop.number)] += 1;
            }
        }
    }
    for (number, &count) in seen.iter().enumerate() {
        group.check(&format!("answer {number} occurred often"), count >= 100);
    }
}

/// Writes an accepted message's records over other bits.
fn check_back(
    group: &mut Group,
    case: &Case,
    message: &Message,
    rows: &[i32],
    old: &[i32],
    random: &mut Random,
) {
    let used = message.rows * COLUMNS;
    group.check("old numbers after the rows", rows[used..] == old[used..]);
    let mut bytes: Vec<u8> = case.bytes.iter().map(|_| random.next() as u8).collect();
    let before = bytes.clone();
    let answer = write(&message.holding, &message.head, rows, message.rows, &mut bytes, case.start);
    group.same("written to", answer, Ok(message.next));
    let inside = |place: &usize| (case.start..message.next).contains(place);
    let mut all = 0..(bytes.len() * 8).min(STRETCH_BITS + 8);
    let same = all.all(|place| {
        let expected = if inside(&place) { &case.bytes } else { &before };
        bit(&bytes, place) == bit(expected, place)
    });
    group.check("the very bits, the others left", same);
}
