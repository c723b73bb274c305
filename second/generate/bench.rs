//! Document 01's bench cases: 1 to 4 as whole stretches, the others as single
//! readings, each with what the document says of it, and with how many bits are
//! missing where that is 3 (document 02, Ask 7). And the like for sub types 6 and 7
//! (Ask 1), and for masks that change under one issue (Ask 2).

use super::super::answer::Reason::{self, Plain, Short};
use super::super::answer::Stop;
use super::super::holding::{Holding, Mask, System};
use super::hand::{fields, first, head_bits, held, listing_bits, listing_mask, mask_bits};
use super::hand::{of_issue, place};

const GPS: i64 = 0;
const GALILEO: i64 = 2;
const BEIDOU: i64 = 3;
const QZSS: i64 = 4;

/// A system as it is sent: ID, satellite and signal mask, flag, cells.
type Sent = (i64, i64, i64, i64, &'static [bool]);

/// The listing's satellites, 1 and 3.
const LISTED: i64 = 0xA0_0000_0000;

/// A stretch for a fresh receiver, and where and why its walk stops.
pub struct Stretch {
    pub name: &'static str,
    pub bits: Vec<bool>,
    pub stop: Stop,
}

/// A reading at place 0, and the place after the message or why there is none.
pub struct Reading {
    pub name: &'static str,
    pub holding: Holding,
    pub bits: Vec<bool>,
    pub expected: Result<usize, Reason>,
}

pub fn stretches() -> Vec<Stretch> {
    let listing = listing_bits();
    let stretch = |name, bits: &[bool], reason: Reason, place| Stretch {
        name,
        bits: bits.to_vec(),
        stop: reason.at(place),
    };
    let mut other_issue = listing.clone();
    let iod = 114 + 33;
    other_issue.splice(iod..iod + 4, fields(&[(4, 4)]));
    let same = [&listing[..], &listing[..114]].concat();
    let changed = mask_bits(&[(GPS, LISTED, 0x8100, 1, &[true, false, true, false])]);
    let twice = [&listing[..], &changed, &changed].concat();
    let next = [listing.clone(), of_issue(4, changed.clone()), changed].concat();
    vec![
        stretch("bench 1: the listing's stretch", &listing, Plain(0), 181),
        stretch("bench 2: its first 180 bits", &listing[..180], Short(1), 114),
        stretch("bench 3: its last 67 bits", &listing[114..], Plain(6), 0),
        stretch("bench 4: its clock with IOD 4", &other_issue, Plain(7), 114),
        stretch("Ask 2: the same mask again", &same, Plain(0), 181 + 114),
        stretch("Ask 2: another cell, sent twice", &twice, Plain(13), 181),
        stretch("Ask 2: another cell, a bit less", &twice[..181 + 113], Short(1), 181),
        stretch("Ask 2: another cell, under number 4 and back", &next, Plain(0), 181 + 2 * 114),
    ]
}

pub fn readings() -> Vec<Reading> {
    let base = [masks(), short_ones(), under_a_mask(), services()];
    let asked = [biases(), accuracy(), changed_masks(), changed_twice(), faulty_masks()];
    base.into_iter().chain(asked).flatten().collect()
}

fn reading(
    name: &'static str,
    holding: &Holding,
    bits: &[bool],
    expected: Result<usize, Reason>,
) -> Reading {
    Reading { name, holding: holding.clone(), bits: bits.to_vec(), expected }
}

/// Cases 5 to 9.
fn masks() -> Vec<Reading> {
    let fresh = |name, systems: &[(i64, i64, i64, i64, &[bool])], expected| {
        reading(name, &Holding::Empty, &mask_bits(systems), expected)
    };
    let system = |id, satellites, signals| (id, satellites, signals, 0, &[][..]);
    let gps = system(GPS, first(40, 40), 0);
    let beidou = |satellites| system(BEIDOU, first(satellites, 40), 0);
    let cells = |signals| system(GPS, first(32, 40), first(signals, 16));
    vec![
        fresh("bench 5: no systems", &[], Ok(49)),
        reading("bench 5: a clock under it", &held(&[]), &head_bits(3, 3), Ok(37)),
        fresh("bench 6: QZSS place 9", &[system(QZSS, place(9, 40), 0)], Ok(110)),
        fresh("bench 6: QZSS place 10", &[system(QZSS, place(10, 40), 0)], Err(Plain(9))),
        fresh("bench 7: ID 5", &[system(5, 0, 0)], Err(Plain(8))),
        fresh("bench 7: GPS twice", &[system(GPS, 0, 0), system(GPS, 0, 0)], Err(Plain(8))),
        fresh("bench 8: 40 GPS and 24 BeiDou", &[gps, beidou(24)], Ok(49 + 2 * 61)),
        fresh("bench 8: 40 GPS and 25 BeiDou", &[gps, beidou(25)], Err(Plain(10))),
        fresh("bench 9: 32 GPS by 8 signals", &[cells(8)], Ok(110)),
        fresh("bench 9: 32 GPS by 9 signals", &[cells(9)], Err(Plain(10))),
    ]
}

/// Case 10.
fn short_ones() -> Vec<Reading> {
    let fresh = |name, bits: &[bool], reason| reading(name, &Holding::Empty, bits, Err(reason));
    let mut all = vec![
        fresh("bench 10: 11 zero bits", &[false; 11], Plain(0)),
        fresh("bench 10: 12 bits of 4072", &fields(&[(4072, 12)]), Plain(4)),
    ];
    all.extend((0..11).map(|one| {
        let bits = fields(&[(place(one, 11), 11)]);
        fresh("bench 10: 11 bits with a one", &bits, Short(1))
    }));
    all
}

/// Cases 11, 12 and 14.
fn under_a_mask() -> Vec<Reading> {
    let one = |id: i64| held(&[(id as u8, first(1, 40), 0)]);
    let network = |network| {
        let rest = fields(&[(0, 1), (0, 1), (1, 1), (network, 5), (1, 1)]);
        [head_bits(11, 3), rest].concat()
    };
    let orbit = |id, bits| {
        let fields = vec![true; bits];
        (one(id), [head_bits(2, 3), fields].concat())
    };
    let (gps, gps_orbit) = orbit(GPS, 49);
    let (galileo, galileo_orbit) = orbit(GALILEO, 51);
    let other = head_bits(12, 3);
    vec![
        reading("bench 11: network 0", &one(GPS), &network(0), Err(Plain(11))),
        reading("bench 11: network 31", &one(GPS), &network(31), Ok(46)),
        reading("bench 12: one GPS orbit", &gps, &gps_orbit, Ok(86)),
        reading("bench 12: a bit less", &gps, &gps_orbit[..85], Err(Short(1))),
        reading("bench 12: one Galileo orbit", &galileo, &galileo_orbit, Ok(88)),
        reading("bench 12: a bit less", &galileo, &galileo_orbit[..87], Err(Short(1))),
        reading("bench 14: sub type 12", &Holding::Empty, &other, Err(Plain(5))),
        reading("bench 14: sub type 12 under a mask", &held(&[]), &other, Err(Plain(5))),
    ]
}

/// Case 13.
fn services() -> Vec<Reading> {
    let service = |size, data| {
        let head = fields(&[(4073, 12), (10, 4), (0, 1), (0, 3), (size, 2)]);
        [head, vec![true; data]].concat()
    };
    let fresh = |name, bits: &[bool], expected| reading(name, &Holding::Empty, bits, expected);
    vec![
        fresh("bench 13: size 0", &service(0, 40), Ok(62)),
        fresh("bench 13: size 0, a bit less", &service(0, 39), Err(Short(1))),
        fresh("bench 13: size 3", &service(3, 160), Ok(182)),
        fresh("bench 13: size 3, a bit less", &service(3, 159), Err(Short(1))),
    ]
}

/// Sub type 6 for two satellites, the second of which has no cell.
fn biases() -> Vec<Reading> {
    let system = System {
        id: GPS as u8,
        satellites: first(2, 40) as u64,
        signals: first(1, 16) as u16,
        cells: Some(vec![true, false]),
    };
    let held = Holding::Held(Mask { iod: 3, systems: vec![system] });
    let message = |name, flags: &[(i64, usize)], body, expected| {
        let bits = [head_bits(6, 3), fields(flags), vec![true; body]].concat();
        reading(name, &held, &bits, expected)
    };
    let network = |network, selection| [(7, 3), (network, 5), (selection, 2)];
    vec![
        message("Ask 1: network 0", &network(0, 2), 28, Err(Plain(11))),
        message("Ask 1: network 31", &network(31, 2), 28, Ok(75)),
        message("Ask 1: a bit less", &network(31, 2), 27, Err(Short(1))),
        message("Ask 1: none selected", &network(1, 0), 0, Ok(47)),
        message("Ask 1: no cell", &network(1, 1), 28, Err(Plain(11))),
        message("Ask 1: no cell, no body", &network(1, 3), 0, Err(Plain(11))),
        message("Ask 1: no network", &[(6, 3)], 28, Ok(68)),
        message("Ask 1: code bias", &[(4, 3)], 11, Ok(51)),
        message("Ask 1: phase bias", &[(2, 3)], 17, Ok(57)),
        message("Ask 1: neither bias", &[(0, 3)], 0, Ok(40)),
    ]
}

/// Sub type 7 for one satellite.
fn accuracy() -> Vec<Reading> {
    let one = held(&[(GALILEO as u8, first(1, 40), 0)]);
    let message = |body| [head_bits(7, 3), vec![true; body]].concat();
    vec![
        reading("Ask 1: one URA", &one, &message(6), Ok(43)),
        reading("Ask 1: one URA, a bit less", &one, &message(5), Err(Short(1))),
        reading("Ask 1: URA without a mask", &Holding::Empty, &message(6), Err(Plain(6))),
    ]
}

/// Masks of issue 3 under the listing's, which has GPS with two satellites by two
/// signals: the same, one with a single difference, and where that is no change.
fn changed_masks() -> Vec<Reading> {
    let listed = Holding::Held(listing_mask());
    let cells = &[true, false, true, true];
    let gps: Sent = (GPS, LISTED, 0x8100, 1, cells);
    let under = |name, systems: &[Sent], expected| {
        reading(name, &listed, &mask_bits(systems), expected)
    };
    let changed = |name, system: Sent| under(name, &[system], Err(Plain(13)));
    let bits = mask_bits(&[(GPS, LISTED, 0x8100, 0, &[])]);
    vec![
        under("Ask 2: the same mask", &[gps], Ok(114)),
        changed("Ask 2: a satellite fewer", (GPS, place(0, 40), 0x8100, 1, &[true, false])),
        changed("Ask 2: another satellite", (GPS, 0x90_0000_0000, 0x8100, 1, cells)),
        changed(
            "Ask 2: a satellite more without a cell",
            (GPS, first(3, 40), 0x8100, 1, &[true, false, false, false, true, true]),
        ),
        changed("Ask 2: another signal", (GPS, LISTED, 0x8080, 1, cells)),
        changed(
            "Ask 2: a signal more without a cell",
            (GPS, LISTED, 0x8180, 1, &[true, false, false, true, true, false]),
        ),
        changed("Ask 2: another cell", (GPS, LISTED, 0x8100, 1, &[true, false, true, false])),
        changed("Ask 2: no cell mask", (GPS, LISTED, 0x8100, 0, &[])),
        changed("Ask 2: another ID", (BEIDOU, LISTED, 0x8100, 1, cells)),
        under("Ask 2: a system more", &[gps, (GALILEO, 0, 0, 0, &[])], Err(Plain(13))),
        under("Ask 2: no systems", &[], Err(Plain(13))),
        reading("Ask 2: changed, number 4", &listed, &of_issue(4, bits.clone()), Ok(110)),
        reading("Ask 2: changed, nothing held", &Holding::Empty, &bits, Ok(110)),
    ]
}

/// The same between two masks, both ways: cell flag, order, and no systems.
fn changed_twice() -> Vec<Reading> {
    let plain: Sent = (GPS, first(2, 40), first(1, 16), 0, &[]);
    let full: Sent = (GPS, first(2, 40), first(1, 16), 1, &[true, true]);
    let (empty, flagged): (Sent, Sent) = ((QZSS, 0, 0, 0, &[]), (QZSS, 0, 0, 1, &[]));
    let pairs = [
        ("Ask 2: flag 0, flag 1 with all cells", vec![plain], vec![full]),
        ("Ask 2: flag 0, flag 1 with no bits", vec![empty], vec![flagged]),
        ("Ask 2: order", vec![plain, empty], vec![empty, plain]),
        ("Ask 2: none, a system", vec![], vec![empty]),
    ];
    let mut all = Vec::new();
    for (name, one, other) in pairs {
        for (held, sent) in [(&one, &other), (&other, &one), (&one, &one), (&other, &other)] {
            let bits = mask_bits(sent);
            let expected = if held == sent { Ok(bits.len()) } else { Err(Plain(13)) };
            all.push(reading(name, &held_of(held), &bits, expected));
        }
    }
    all
}

/// The holding of issue 3 with these systems and their cell masks.
fn held_of(systems: &[Sent]) -> Holding {
    let system = |&(id, satellites, signals, flag, cells): &Sent| System {
        id: id as u8,
        satellites: satellites as u64,
        signals: signals as u16,
        cells: (flag == 1).then(|| cells.to_vec()),
    };
    Holding::Held(Mask { iod: 3, systems: systems.iter().map(system).collect() })
}

/// Masks that change under the listing's number and are refused for something else:
/// 13 comes last.
fn faulty_masks() -> Vec<Reading> {
    let listed = Holding::Held(listing_mask());
    let changed = (GPS, LISTED, 0x8100, 0, &[][..]);
    let after = |name, system, number| {
        reading(name, &listed, &mask_bits(&[changed, system]), Err(Plain(number)))
    };
    let short = mask_bits(&[changed]);
    vec![
        reading("Ask 2: changed, a bit less", &listed, &short[..109], Err(Short(1))),
        after("Ask 2: changed, then ID 5", (5, 0, 0, 0, &[]), 8),
        after("Ask 2: changed, then GPS twice", (GPS, 0, 0, 0, &[]), 8),
        after("Ask 2: changed, then QZSS place 10", (QZSS, place(10, 40), 0, 0, &[]), 9),
        after("Ask 2: changed, then signal place 15", (QZSS, 0, 1, 0, &[]), 9),
        after("Ask 2: changed, then 260 cells", (BEIDOU, first(32, 40), 0xFF00, 0, &[]), 10),
    ]
}
