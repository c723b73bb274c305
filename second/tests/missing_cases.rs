//! How many bits were missing in every case that the streams can hold: held
//! against the pencil's count, and against the same stretch with more bits. Each
//! field and each body must be the short one often enough.

use std::collections::BTreeMap;

use super::Group;
use crate::codec::answer::{Reason, Stop, SHORT};
use crate::codec::bits::{bit, pack};
use crate::codec::emit::{fixed_readings, fixed_stretches};
use crate::codec::generate::{filled, single, stretches, Case};
use crate::codec::holding::Holding;
use crate::codec::host::{self, decode};
use crate::codec::pencil::{names, short, Short};
use crate::codec::random::Random;
use crate::codec::walk::walk;
use crate::codec::STRETCH_BITS;

const READINGS: usize = 30_000;
const WALKS: usize = 6_000;
const OFTEN: usize = 10;

/// The fields that were short, and the missing bits of each.
type Seen = BTreeMap<String, Vec<usize>>;

/// The fixed cases, as readings and as walks: each field is there with each number
/// of its bits missing.
pub fn fixed(group: &mut Group) {
    let (readings, whole) = (fixed_readings(), fixed_stretches());
    let mut seen = Seen::new();
    for case in &readings {
        check_reading(group, &mut seen, case);
    }
    check_every(group, "fixed", &seen);
    let mut seen = Seen::new();
    for case in readings.iter().chain(&whole).filter(|case| case.start == 0) {
        check_walk(group, &mut seen, case);
    }
    check_every(group, "bench", &seen);
}

/// Random readings, in which each field comes again and again, and random walks,
/// which meet the narrow ones by chance alone.
pub fn random(group: &mut Group) {
    let mut random = Random::new(17);
    let mut seen = Seen::new();
    for _ in 0..READINGS {
        let case = single::case(&mut random);
        let stop = check_reading(group, &mut seen, &case);
        if stop.number == SHORT && case.bit_length + stop.missing <= STRETCH_BITS {
            check_longer(group, &mut random, &case, stop.missing);
        }
    }
    check_often(group, "read", &seen);
    let mut run = stretches::Run::new(18);
    for _ in 0..WALKS {
        let holding = check_walk(group, &mut seen, &run.case());
        run.keep(&holding);
    }
}

/// What is missing is what the pencil finds, and nothing without 3.
fn check(group: &mut Group, seen: &mut Seen, stop: Stop, found: impl FnOnce() -> Option<Short>) {
    if stop.number != SHORT {
        group.check("nothing is missing without 3", stop.missing == 0);
        return;
    }
    let (name, missing) = found().unwrap_or_default();
    group.same(&name, stop.missing, missing);
    group.check("1 or more", missing > 0);
    seen.entry(name).or_default().push(missing);
}

/// What a reading answers, as the host gets it.
fn answered(case: &Case) -> Stop {
    let mut rows = filled(case.fill, case.room);
    let mut holding = case.holding.clone();
    let answer = host::read(&mut holding, &case.bytes, case.bit_length, case.start, &mut rows);
    Stop { number: answer.number, place: answer.place, missing: answer.missing }
}

fn check_reading(group: &mut Group, seen: &mut Seen, case: &Case) -> Stop {
    let stop = answered(case);
    check(group, seen, stop, || short(case, case.start, &decode(&case.holding)));
    stop
}

/// The walk's stop is that of the reading there, under what is held then.
fn check_walk(group: &mut Group, seen: &mut Seen, case: &Case) -> Holding {
    let mut rows = filled(case.fill, case.room);
    let holding = decode(&case.holding);
    let walk = walk(&holding, &case.bytes, case.bit_length, &mut rows, |_, _, _| {});
    check(group, seen, walk.stop, || short(case, walk.stop.place, &walk.holding));
    walk.holding
}

/// "With fewer bits more than that, whatever they are, the stretch is short at
/// the same field still; with that many it is not" (docs/HOST.md).
fn check_longer(group: &mut Group, random: &mut Random, case: &Case, missing: usize) {
    let mut bits: Vec<bool> = (0..case.bit_length).map(|at| bit(&case.bytes, at)).collect();
    bits.extend(random.bits(missing));
    let longer = |more: usize| Case {
        bytes: pack(&bits),
        bit_length: case.bit_length + more,
        ..case.clone()
    };
    for more in [random.below(missing), missing - 1] {
        let expected = Reason::Short(missing - more).at(case.start);
        group.same("fewer bits more", answered(&longer(more)), expected);
    }
    check_reading(group, &mut Seen::new(), &longer(missing));
}

fn check_every(group: &mut Group, kind: &str, seen: &Seen) {
    for (name, width) in names() {
        let seen = seen.get(&name).map_or(&[][..], Vec::as_slice);
        let every = (1..=width).all(|missing| seen.contains(&missing));
        group.check(&format!("{kind}: {name}, each number of bits missing"), every);
    }
}

fn check_often(group: &mut Group, kind: &str, seen: &Seen) {
    for (name, _) in names() {
        let often = seen.get(&name).map_or(0, Vec::len);
        group.check(&format!("{kind}: {name} short, {often} times"), often >= OFTEN);
    }
}
