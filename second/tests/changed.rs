//! Masks that change under one issue (document 02, Ask 2), as readings, host's bytes,
//! walks and listings. The messages are written out in hex, with their saved lines.

use super::host::{bytes, listing_bytes};
use super::listing::{listed, CLOCK};
use super::saved::saved;
use super::tools::*;
use super::Group;
use crate::codec::answer::{Reason, Stop};
use crate::codec::bits::pack;
use crate::codec::difference::kind;
use crate::codec::holding::{Holding, Mask};
use crate::codec::host::{self, Answer};
use crate::codec::listing::listing;
use crate::codec::reader::{held_after, raw, read};
use crate::codec::text::{hex, hex_bits};
use crate::codec::walk::walk;

/// A mask message of IOD 3: in what it differs from the listing's, its bits as a line
/// of the listing's input says them, and what is saved of its mask.
type Written = (&'static str, &'static str, &'static str);

/// The listing's mask: GPS 1 and 3 by signal places 0 and 7, cells 1011.
const LISTED: Written =
    ("", "114\tFE91000645188500000000040806C\n", "S\t3\t0\tA000000000\t8100\t1\tB\n");
/// GPS as listed, then GLONASS with nothing; and the other way round.
const TWO: Written = (
    "number of systems",
    "175\tFE91000645190500000000040806C400000000000000\n",
    "S\t3\t0\tA000000000\t8100\t1\tB\t1\t0000000000\t0000\t0\t-\n",
);
const TURNED: Written = (
    "number of systems",
    "175\tFE910006451908000000000000002800000000204036\n",
    "S\t3\t1\t0000000000\t0000\t0\t-\t0\tA000000000\t8100\t1\tB\n",
);
const FLAG_0: Written =
    ("cell flag", "110\tFE91000645188500000000040800\n", "S\t3\t0\tA000000000\t8100\t0\t-\n");

/// All of them: satellite 4 for 3, place 8 for 7, the cells 1010 and 1111, flag 0, BeiDou
/// for GPS, a system more, and none. Flag 0 says the same cells as 1111.
const WRITTEN: [Written; 10] = [
    LISTED,
    (
        "satellite mask",
        "114\tFE91000645188480000000040806C\n",
        "S\t3\t0\t9000000000\t8100\t1\tB\n",
    ),
    (
        "signal mask",
        "114\tFE91000645188500000000040406C\n",
        "S\t3\t0\tA000000000\t8080\t1\tB\n",
    ),
    ("cell mask", "114\tFE910006451885000000000408068\n", "S\t3\t0\tA000000000\t8100\t1\tA\n"),
    ("cell mask", "114\tFE91000645188500000000040807C\n", "S\t3\t0\tA000000000\t8100\t1\tF\n"),
    FLAG_0,
    (
        "system ID",
        "114\tFE91000645189D00000000040806C\n",
        "S\t3\t3\tA000000000\t8100\t1\tB\n",
    ),
    TWO,
    TURNED,
    ("number of systems", "49\tFE91000645180\n", "S\t3\n"),
];

/// The bits that a line says, taken without the listing's own reading of lines.
fn bits_of(written: &Written) -> Vec<bool> {
    let (count, digits) = written.1.trim_end().split_once('\t').unwrap_or(("", ""));
    let mut bits = hex_bits(digits.as_bytes()).unwrap_or_default();
    bits.truncate(count.parse().unwrap_or(0));
    bits
}

fn mask_of(written: &Written) -> Option<Mask> {
    match adopted(&bits_of(written)) {
        Holding::Held(mask) => Some(mask),
        _ => None,
    }
}

/// Each mask under each: the same is adopted, any other refused and then taken; under
/// another number, or where nothing is held, each is adopted.
pub fn readings(group: &mut Group) {
    for written in &WRITTEN {
        let bits = bits_of(written);
        let fresh = adopted(&bits);
        group.same("saved", saved(&fresh).as_str(), written.2);
        let masks = (mask_of(&LISTED), mask_of(written));
        let found = masks.0.zip(masks.1).and_then(|(held, sent)| kind(&held, &sent));
        group.same("its kind", found.unwrap_or(""), written.0);
        for held in &WRITTEN {
            let holding = adopted(&bits_of(held));
            let found = reading(&holding, &bits).map(|message| message.holding);
            let same = held.2 == written.2;
            let expected = if same { Ok(fresh.clone()) } else { Err(Stop::plain(13, 0)) };
            group.same("under one number", found, expected);
            let other = of_issue(4, bits.clone());
            let found = message(&holding, &other).map(|found| found.0.holding);
            group.same("under another", found, Some(adopted(&other)));
            refused_before(group, &holding, &bits);
        }
    }
    let turned = mask_of(&TWO).zip(mask_of(&TURNED));
    let found = turned.and_then(|(held, sent)| kind(&held, &sent));
    group.same("order", found, Some("order of systems"));
    at_a_place(group);
}

/// With a bit less, or with a fault after all else, 13 is not reached.
fn refused_before(group: &mut Group, holding: &Holding, bits: &[bool]) {
    for end in 1..bits.len() {
        group.same("3 before 13", stop(holding, &bits[..end]), Some(3));
    }
    let more = |system: &[(i64, usize)]| {
        let count = bits[45..49].iter().fold(0, |sum, &one| 2 * sum + i64::from(one)) + 1;
        let mut bits = [bits, &fields(system)].concat();
        bits.splice(45..49, fields(&[(count, 4)]));
        stop(holding, &bits)
    };
    let galileo = [(2, 4), (0, 40), (1, 16), (0, 1)];
    group.same("8 before 13", more(&[(5, 4), (0, 57)]), Some(8));
    group.same("9 before 13", more(&galileo), Some(9));
    let many = [(2, 4), (first(37, 40), 40), (first(7, 16), 16), (0, 1)];
    group.same("10 before 13", more(&many), Some(10));
}

/// The answer at a place of a stretch: the place, nothing missing, no raw part, no
/// row changed, and the empty holding; once more, and the message is taken.
fn at_a_place(group: &mut Group) {
    let bits = [vec![true; 21], bits_of(&FLAG_0)].concat();
    let mut rows = row_buffer();
    let held = adopted(&bits_of(&LISTED));
    let refused = read(&held, &pack(&bits), bits.len(), 21, &mut rows);
    group.same("13 at 21", &refused, &Err(Stop { number: 13, place: 21, missing: 0 }));
    group.same("no raw part", raw(&refused), 0..0);
    group.check("no row changed", rows == row_buffer());
    let left = held_after(&refused, &held);
    group.same("nothing held", &left, &Holding::Empty);
    let taken = read(&left, &pack(&bits), bits.len(), 21, &mut rows);
    group.same("then it is taken", held_after(&taken, &left), adopted(&bits_of(&FLAG_0)));
    let short = read(&held, &pack(&bits), bits.len() - 1, 21, &mut rows);
    group.same("a bit less", &short, &Err(Reason::Short(1).at(21)));
    group.same("the mask stays", held_after(&short, &held), held);
}

/// The 194 bytes, and others after them: those of the listing's mask, then zeros,
/// then those of the mask with flag 0.
pub fn host_bytes(group: &mut Group) {
    let numbers = [(0, 1), (1, 3), (2, 1), (3, 2), (4, 4)];
    let masks = [(17, 0x81), (30, 0xA0), (67, 0x81), (69, 0x81)];
    let flag_0 = bytes(&[&numbers[..], &masks[..]].concat());
    let bits = bits_of(&FLAG_0);
    let lent = |bytes: &[u8]| [bytes, &[7; 6]].concat();
    let mut holding = lent(&listing_bytes());
    let mut rows = row_buffer();
    let mut at = |bit_length| {
        let answer = host::read(&mut holding, &pack(&bits), bit_length, 0, &mut rows);
        (answer, holding.clone())
    };
    let nothing = |number, missing| {
        Answer { number, place: 0, missing, rows: 0, raw: 0..0, head: [NO; 8] }
    };
    let head = [1, 100, 5, 0, 3, 1, NO, NO];
    let taken = Answer { number: 255, place: 110, missing: 0, rows: 0, raw: 0..14, head };
    group.same("a bit less", at(109), (nothing(3, 1), lent(&listing_bytes())));
    group.same("changed", at(110), (nothing(13, 0), lent(&[0; 194])));
    group.same("taken then", at(110), (taken.clone(), lent(&flag_0)));
    group.same("and again", at(110), (taken, lent(&flag_0)));
    group.check("no row changed", rows == row_buffer());
}

/// Masks and clocks of one stretch: where it stops, and what is held then.
pub fn walks(group: &mut Group) {
    let [listed, flag_0] = [&LISTED, &FLAG_0].map(bits_of);
    let clock = [head_bits(3, 3), fields(&[(5, 15), (6, 15)])].concat();
    let walked = |holding: &Holding, parts: &[&[bool]]| {
        let bits = parts.concat();
        let mut rows = row_buffer();
        let walk = walk(holding, &pack(&bits), bits.len(), &mut rows, |_, _, _| {});
        let read = (walk.stop, walk.messages, walk.rows, walk.holding);
        (read, rows[3])
    };
    let (empty, held) = (Holding::Empty, adopted(&listed));
    let changed = |place, messages, rows| (Stop::plain(13, place), messages, rows, Holding::Empty);
    let (walk, row) = walked(&empty, &[&listed, &clock, &flag_0, &flag_0, &clock]);
    group.same("adopted in this stretch", walk, changed(181, 2, 2));
    group.same("the clock's rows stay", row, 5);
    let (walk, row) = walked(&held, &[&flag_0, &flag_0]);
    group.same("no rows", row, row_buffer()[3]);
    let (after, _) = walked(&walk.3, &[&flag_0, &clock]);
    group.same("held before it", walk, changed(0, 0, 0));
    let taken = (Stop::plain(0, 177), 2, 2, adopted(&flag_0));
    group.same("taken in the next stretch", after, taken);
    let (same, _) = walked(&held, &[&listed, &clock, &listed]);
    group.same("the same mask", same, (Stop::plain(0, 295), 3, 2, held.clone()));
    let apart = of_issue(4, flag_0.clone());
    let (between, _) = walked(&held, &[&apart, &flag_0, &flag_0, &listed]);
    group.same("another number between", between, changed(330, 3, 0));
    let (short, _) = walked(&empty, &[&listed, &clock, &flag_0[..109]]);
    group.same("3 leaves the mask", short, (Reason::Short(1).at(181), 2, 2, held));
}

/// Line by line: the E line says 13 with `-` last, and the next mask is taken.
pub fn listings(group: &mut Group) {
    let refused = "E\t13\t0\t0\t0\t-\n";
    let idle = |bits: usize| format!("E\t0\t{bits}\t1\t0\t-\n");
    let taken = |bits: usize, systems: usize| {
        format!("M\t0\t{bits}\t1\t100\t5\t0\t3\t{systems}\t-\t-\t0\n{}", idle(bits))
    };
    let mask_after = |input: &str| {
        let holding = listing(&mut input.as_bytes(), &mut std::io::sink());
        holding.map_or(String::new(), |holding| saved(&holding))
    };
    for (_, line, line_saved) in &WRITTEN[1..] {
        let (bits, systems) = (bits_of(&("", line, "")).len(), line_saved.split('\t').count() / 5);
        let two = format!("{}{line}", LISTED.1);
        group.same("changed", listed(two.as_bytes()), format!("{}{refused}", taken(114, 1)));
        group.same("the saved mask after it", mask_after(&two).as_str(), "S\t-\n");
        let more = format!("{two}bad\n{CLOCK}{line}{line}");
        let expected = format!("B\t3\nE\t6\t0\t0\t0\t-\n{}", taken(bits, systems).repeat(2));
        group.check("the next mask is taken", listed(more.as_bytes()).ends_with(&expected));
        group.same("and saved", mask_after(&more).as_str(), line_saved);
    }
    let bits = [bits_of(&LISTED), bits_of(&FLAG_0)].concat();
    let one = format!("224\t{}\n", hex(&bits));
    let mask = "M\t0\t114\t1\t100\t5\t0\t3\t1\t-\t-\t0\n";
    let expected = format!("{mask}E\t13\t114\t1\t0\t-\n");
    group.same("in one line", listed(one.as_bytes()), expected);
    group.same("and its saved mask", mask_after(&one).as_str(), "S\t-\n");
}
