//! Masks that change under one issue (document 02, Ask 2) among the cases that the
//! streams hold: each answer against the saved lines ("masks are the same when their
//! `S` lines are", here as the generator writes them), and how often what is there.

use super::tools::Seen;
use super::Group;
use crate::codec::answer::{CHANGED_MASK, SHORT};
use crate::codec::difference::kind;
use crate::codec::generate::reissues::{after, SORTS};
use crate::codec::generate::saved_lines::good;
use crate::codec::generate::{filled, masks, single, stretches, Case};
use crate::codec::holding::{Holding, Mask, System};
use crate::codec::host::{decode, put};
use crate::codec::random::Random;
use crate::codec::reader::{held_after, read, Reading};
use crate::codec::walk::walk;

const READINGS: usize = 30_000;
const WALKS: usize = 10_000;
const OFTEN: usize = 20;
const MASKS: usize = 60;

/// The kinds of difference, in the order of the sorts of change that make them.
const KINDS_OF_SORTS: [&str; 13] = [
    "satellite mask",
    "satellite mask",
    "satellite mask",
    "signal mask",
    "signal mask",
    "signal mask",
    "cell mask",
    "cell flag",
    "order of systems",
    "system ID",
    "number of systems",
    "number of systems",
    "number of systems",
];

fn same_lines(held: &Mask, sent: &Mask) -> bool {
    let line = |mask: &Mask| good(&Holding::Held(mask.clone()));
    line(held) == line(sent)
}

/// Every single change makes another mask, of the kind that its sort is for.
pub fn single_changes(group: &mut Group) {
    let mut random = Random::new(21);
    for _ in 0..MASKS {
        let mask = masks::good(&mut random);
        group.check("the same mask", same_lines(&mask, &mask) && kind(&mask, &mask).is_none());
        for ((name, _, changes), expected) in SORTS.iter().zip(KINDS_OF_SORTS) {
            for change in changes(&mask) {
                let sent = after(&mask, change);
                group.same(name, kind(&mask, &sent), Some(expected));
                group.check(name, !same_lines(&mask, &sent) && sent.iod == mask.iod);
                let cells = sent.systems.iter().all(fits);
                group.check("a cell mask as its system asks for", cells);
            }
        }
    }
}

fn fits(system: &System) -> bool {
    system.cells.as_ref().map_or(true, |cells| cells.len() == system.cell_bits())
}

pub fn random(group: &mut Group) {
    let mut random = Random::new(22);
    let mut seen = Seen::default();
    for _ in 0..READINGS {
        check_reading(group, &mut seen, &single::case(&mut random));
    }
    seen.check_often(group, &WANTED, OFTEN);
    check_walks(group);
}

/// What must be among the readings.
const WANTED: [&str; 23] = [
    "one bit of a satellite mask",
    "one bit of a signal mask",
    "one bit of a cell mask",
    "flag 0 to 1 with all cells",
    "flag 1 with all cells to 0",
    "as many satellites at other places",
    "as many signals at other places",
    "a satellite more, cells the same",
    "a signal more, cells the same",
    "order of systems",
    "system ID",
    "one system more",
    "one system fewer",
    "to no systems",
    "from no systems",
    "the same mask",
    "another mask under another number",
    "nothing held",
    "bytes after the 194",
    "the held number, refused with 3",
    "the held number, refused with 8",
    "the held number, refused with 9",
    "the held number, refused with 10",
];

fn read_under(holding: &Holding, case: &Case) -> Reading {
    let mut rows = filled(case.fill, case.room);
    read(holding, &case.bytes, case.bit_length, case.start, &mut rows)
}

/// A good mask message, which a receiver that holds nothing takes, is refused with 13
/// exactly where its number is held with another saved line. Nothing else is.
fn check_reading(group: &mut Group, seen: &mut Seen, case: &Case) {
    let holding = decode(&case.holding);
    let found = read_under(&holding, case);
    let fresh = match &holding {
        Holding::Nonsense => found.clone(),
        _ => read_under(&Holding::Empty, case),
    };
    let sent = match &fresh {
        Ok(message) if message.head[0] == 1 => message.holding.clone(),
        _ => {
            group.check("13 only of a good mask message", number(&found) != Some(CHANGED_MASK));
            note_refused(seen, case, &holding, &found);
            return;
        }
    };
    match (&holding, &sent) {
        (Holding::Held(held), Holding::Held(mask))
            if held.iod == mask.iod && !same_lines(held, mask) =>
        {
            group.same(case.family, number(&found), Some(CHANGED_MASK));
            check_bytes(group, case, &found, &holding);
            note_change(seen, held, mask);
            seen.note_if(case.holding.len() > 194, "bytes after the 194");
        }
        _ => {
            group.same(case.family, &found, &fresh);
            note_adopted(seen, &holding, &sent);
        }
    }
}

fn number(reading: &Reading) -> Option<u8> {
    reading.as_ref().err().map(|stop| stop.number)
}

/// "All 194 bytes" of the empty holding are zero, "the bytes after the 194th are
/// neither looked at nor changed" (docs/HOST.md).
fn check_bytes(group: &mut Group, case: &Case, found: &Reading, holding: &Holding) {
    let mut lent = case.holding.clone();
    put(&held_after(found, holding), &mut lent);
    let zeros = lent[..194].iter().all(|&byte| byte == 0);
    group.check("the empty holding", zeros && lent[194..] == case.holding[194..]);
}

fn note_adopted(seen: &mut Seen, holding: &Holding, sent: &Holding) {
    let what = match (holding, sent) {
        (Holding::Held(held), Holding::Held(sent)) if held.iod == sent.iod => "the same mask",
        (Holding::Held(_), _) => "another mask under another number",
        _ => "nothing held",
    };
    seen.note(what.to_string());
}

/// A refused mask message whose IOD SSR is there, and is the held one.
fn note_refused(seen: &mut Seen, case: &Case, holding: &Holding, found: &Reading) {
    let bit = |at: usize| case.bytes[(case.start + at) / 8] >> (7 - (case.start + at) % 8) & 1;
    let number = number(found);
    if !matches!(number, Some(SHORT | 8 | 9 | 10)) || case.bit_length < case.start + 45 {
        return;
    }
    let field = |from: usize, to: usize| (from..to).fold(0, |sum, at| sum << 1 | bit(at));
    if let Holding::Held(held) = holding {
        let under = field(12, 16) == 1 && field(41, 45) == held.iod;
        seen.note_if(under, &format!("the held number, refused with {}", number.unwrap_or(0)));
    }
}

/// How small the difference between two masks is, where it is of one kind alone.
fn note_change(seen: &mut Seen, held: &Mask, sent: &Mask) {
    let (before, now) = (held.systems.len(), sent.systems.len());
    seen.note_if(now == before + 1, "one system more");
    seen.note_if(now + 1 == before, "one system fewer");
    seen.note_if(now == 0, "to no systems");
    seen.note_if(before == 0, "from no systems");
    for name in ["order of systems", "system ID"] {
        seen.note_if(kind(held, sent) == Some(name), name);
    }
    let changed = |pair: &(&System, &System)| pair.0 != pair.1;
    let pairs: Vec<_> = held.systems.iter().zip(&sent.systems).filter(changed).collect();
    match pairs[..] {
        [(one, other)] if before == now && one.id == other.id => note_system(seen, one, other),
        _ => {}
    }
}

/// The same of the only system that differs.
fn note_system(seen: &mut Seen, held: &System, sent: &System) {
    let satellites = (held.satellites ^ sent.satellites).count_ones();
    let signals = (held.signals ^ sent.signals).count_ones();
    let same_cells = held.cells() == sent.cells();
    match (satellites, signals) {
        (1, 0) => {
            seen.note("one bit of a satellite mask".to_string());
            let more = sent.satellites > held.satellites && same_cells;
            seen.note_if(more, "a satellite more, cells the same");
        }
        (0, 1) => {
            seen.note("one bit of a signal mask".to_string());
            let more = sent.signals > held.signals && same_cells;
            seen.note_if(more, "a signal more, cells the same");
        }
        (2, 0) => {
            let as_many = sent.satellites.count_ones() == held.satellites.count_ones();
            seen.note_if(as_many, "as many satellites at other places");
        }
        (0, 2) => {
            let as_many = sent.signals.count_ones() == held.signals.count_ones();
            seen.note_if(as_many, "as many signals at other places");
        }
        (0, 0) => note_cells(seen, held, sent, same_cells),
        _ => {}
    }
}

fn note_cells(seen: &mut Seen, held: &System, sent: &System, same_cells: bool) {
    match (&held.cells, &sent.cells) {
        (None, Some(_)) => seen.note_if(same_cells, "flag 0 to 1 with all cells"),
        (Some(_), None) => seen.note_if(same_cells, "flag 1 with all cells to 0"),
        (Some(one), Some(other)) => {
            let bits = one.iter().zip(other).filter(|(one, other)| one != other).count();
            seen.note_if(bits == 1, "one bit of a cell mask");
        }
        _ => {}
    }
}

/// Walks that 13 stops at their first message, or later, also where the mask that it
/// drops was adopted in the same stretch; and those after it that take a mask first.
fn check_walks(group: &mut Group) {
    let mut run = stretches::Run::new(23);
    let mut seen = Seen::default();
    let mut dropped = false;
    for _ in 0..WALKS {
        let case = run.case();
        let holding = decode(&case.holding);
        let mut rows = filled(case.fill, case.room);
        let (mut adopted, mut first) = (false, 0);
        let walk = walk(&holding, &case.bytes, case.bit_length, &mut rows, |place, message, _| {
            adopted |= message.head[0] == 1;
            first = if place == 0 { message.head[0] } else { first };
        });
        seen.note_if(dropped && holding == Holding::Empty && first == 1, "taken after 13");
        dropped = walk.stop.number == CHANGED_MASK;
        if dropped {
            group.same("nothing held after 13", &walk.holding, &Holding::Empty);
            seen.note_if(walk.messages == 0, "13 at once");
            seen.note_if(walk.messages > 0 && !adopted, "13 after messages");
            seen.note_if(adopted, "13 of a mask of this stretch");
        }
        run.keep(&walk.holding);
    }
    let places = ["13 at once", "13 after messages", "13 of a mask of this stretch"];
    seen.check_often(group, &places, OFTEN);
    seen.check_often(group, &["taken after 13"], OFTEN);
}
