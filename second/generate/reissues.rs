//! Masks that change under one issue (document 02, Ask 2): every single change that
//! a mask can have. Some of them leave all satellites or all cells as they are, so
//! that whoever compares only these takes the mask for the same.

use super::super::holding::{Mask, System, SATELLITE_BITS, SATELLITE_PLACES, SIGNAL_BITS};
use super::super::random::Random;
use super::{masks, weighted};

/// The two fields of a system that have places.
#[derive(Clone, Copy)]
pub enum Field {
    Satellites,
    Signals,
}

use Field::{Satellites, Signals};

impl Field {
    fn width(self) -> usize {
        match self {
            Satellites => SATELLITE_BITS,
            Signals => SIGNAL_BITS,
        }
    }

    fn has(self, system: &System, place: usize) -> bool {
        match self {
            Satellites => system.satellite_places().contains(&place),
            Signals => system.signal_places().contains(&place),
        }
    }

    fn flip(self, system: &mut System, place: usize) {
        let one = 1 << (self.width() - 1 - place);
        match self {
            Satellites => system.satellites ^= one,
            Signals => system.signals ^= one as u16,
        }
    }
}

/// One change, in the system at an index or in the list of systems.
#[derive(Clone, Copy)]
pub enum Change {
    /// The place is set from then on, or not any more. Where that brings bits of a
    /// cell mask, these are all set, or all not.
    Place(Field, usize, usize, bool),
    /// Of the place and the next the other one is set, and the cell mask is as it was.
    Next(Field, usize, usize),
    Cell(usize, usize),
    /// Flag 1 with all cells instead of flag 0, or flag 0 instead of 1.
    Flag(usize),
    Order(usize, usize),
    Id(usize, u8),
    /// A system more, before the one at the index: without satellites and signals.
    More(usize, u8),
    Fewer(usize),
    NoSystems,
}

/// A sort of change: its name, how often it comes, and all that a mask can have of
/// it. What they make of the mask may be bad.
pub type Sort = (&'static str, usize, fn(&Mask) -> Vec<Change>);

pub const SORTS: [Sort; 13] = [
    ("a satellite more", 3, |mask| set_places(mask, Satellites)),
    ("a satellite fewer", 2, |mask| cleared_places(mask, Satellites)),
    ("a satellite at the next place", 2, |mask| next_places(mask, Satellites)),
    ("a signal more", 3, |mask| set_places(mask, Signals)),
    ("a signal fewer", 2, |mask| cleared_places(mask, Signals)),
    ("a signal at the next place", 2, |mask| next_places(mask, Signals)),
    ("a cell", 6, cells),
    ("a cell flag", 6, |mask| indexes(mask).map(Change::Flag).collect()),
    ("the order", 6, orders),
    ("an ID", 6, |mask| {
        let of = |at| unnamed(mask).into_iter().map(move |id| Change::Id(at, id));
        indexes(mask).flat_map(of).collect()
    }),
    ("a system more", 3, |mask| {
        let of = |at| unnamed(mask).into_iter().map(move |id| Change::More(at, id));
        (0..=mask.systems.len()).flat_map(of).collect()
    }),
    ("a system fewer", 2, |mask| indexes(mask).map(Change::Fewer).collect()),
    ("no systems", 2, |mask| indexes(mask).take(1).map(|_| Change::NoSystems).collect()),
];

fn indexes(mask: &Mask) -> std::ops::Range<usize> {
    0..mask.systems.len()
}

/// Index of the system, and the place, wherever the field has this bit there.
fn places(mask: &Mask, field: Field, set: bool) -> Vec<(usize, usize)> {
    let mut all = Vec::new();
    for (at, system) in mask.systems.iter().enumerate() {
        let here = |place: &usize| field.has(system, *place) == set;
        all.extend((0..field.width()).filter(here).map(|place| (at, place)));
    }
    all
}

fn set_places(mask: &Mask, field: Field) -> Vec<Change> {
    let of = |(at, place)| [false, true].map(|cells| Change::Place(field, at, place, cells));
    places(mask, field, false).into_iter().flat_map(of).collect()
}

fn cleared_places(mask: &Mask, field: Field) -> Vec<Change> {
    let of = |(at, place)| Change::Place(field, at, place, false);
    places(mask, field, true).into_iter().map(of).collect()
}

fn next_places(mask: &Mask, field: Field) -> Vec<Change> {
    let mut all = Vec::new();
    for (at, system) in mask.systems.iter().enumerate() {
        let differs = |place: &usize| field.has(system, *place) != field.has(system, place + 1);
        let places = (0..field.width() - 1).filter(differs);
        all.extend(places.map(|place| Change::Next(field, at, place)));
    }
    all
}

fn cells(mask: &Mask) -> Vec<Change> {
    let of = |(at, system): (usize, &System)| {
        let bits = system.cells.as_ref().map_or(0, Vec::len);
        (0..bits).map(move |bit| Change::Cell(at, bit))
    };
    mask.systems.iter().enumerate().flat_map(of).collect()
}

fn orders(mask: &Mask) -> Vec<Change> {
    let of = |one| (0..one).map(move |other| Change::Order(other, one));
    indexes(mask).flat_map(of).collect()
}

/// The IDs that no system of the mask has.
fn unnamed(mask: &Mask) -> Vec<u8> {
    (0..SATELLITE_PLACES.len() as u8).filter(|&id| !mask.names(id)).collect()
}

/// The mask after the change, under the same number.
pub fn after(mask: &Mask, change: Change) -> Mask {
    let mut after = mask.clone();
    let systems = &mut after.systems;
    match change {
        Change::Place(field, at, place, cells) => {
            systems[at] = with_place(&systems[at], field, place, cells);
        }
        Change::Next(field, at, place) => {
            field.flip(&mut systems[at], place);
            field.flip(&mut systems[at], place + 1);
        }
        Change::Cell(at, bit) => {
            systems[at].cells.iter_mut().for_each(|cells| cells[bit] = !cells[bit]);
        }
        Change::Flag(at) => {
            let all = vec![true; systems[at].cell_bits()];
            systems[at].cells = if systems[at].cells.is_some() { None } else { Some(all) };
        }
        Change::Order(one, other) => systems.swap(one, other),
        Change::Id(at, id) => systems[at].id = id,
        Change::More(at, id) => systems.insert(at, nothing(id)),
        Change::Fewer(at) => drop(systems.remove(at)),
        Change::NoSystems => systems.clear(),
    }
    after
}

fn nothing(id: u8) -> System {
    System { id, satellites: 0, signals: 0, cells: None }
}

/// The system with the other bit at the place.
fn with_place(system: &System, field: Field, place: usize, cells: bool) -> System {
    let mut after = system.clone();
    field.flip(&mut after, place);
    if system.cells.is_some() {
        after.cells = Some(refitted(system, &after, cells));
    }
    after
}

/// A cell mask for the system after a change: satellites with signals that were
/// there before keep their bits, the others get this one.
fn refitted(before: &System, after: &System, other: bool) -> Vec<bool> {
    let (satellites, signals) = (before.satellite_places(), before.signal_places());
    let set = before.cells();
    let mut bits = Vec::new();
    for satellite in after.satellite_places() {
        for signal in after.signal_places() {
            let kept = satellites.contains(&satellite) && signals.contains(&signal);
            bits.push(if kept { set.contains(&(satellite, signal)) } else { other });
        }
    }
    bits
}

/// A good mask, and another good one that a single change makes of it: each sort as
/// often as it says.
pub fn scene(random: &mut Random) -> (Mask, Mask) {
    let (_, changes) = weighted(random, &SORTS);
    loop {
        let held = masks::good(random);
        if let Some(sent) = single(random, &held, &changes(&held)) {
            return (held, sent);
        }
    }
}

/// Another good mask under the number of this one: mostly after a single change.
pub fn changed(random: &mut Random, mask: &Mask) -> Mask {
    loop {
        let (_, changes) = weighted(random, &SORTS);
        let sent = if random.chance(15) {
            Some(Mask { iod: mask.iod, ..masks::good(random) })
        } else {
            single(random, mask, &changes(mask))
        };
        match sent {
            Some(sent) if sent != *mask => return sent,
            _ => {}
        }
    }
}

/// The mask after one of the changes, if there is one and it makes a good mask.
fn single(random: &mut Random, mask: &Mask, changes: &[Change]) -> Option<Mask> {
    if changes.is_empty() {
        return None;
    }
    let sent = after(mask, random.pick(changes));
    sent.is_good().then_some(sent)
}

/// A changed mask that is bad besides, mostly in what it says last: a system that
/// there isn't or that it has named (8), a signal place that no system has (9), more
/// satellites or cells than there may be (10).
pub fn faulty(random: &mut Random, mask: &Mask) -> Mask {
    let mut sent = changed(random, mask);
    match (random.below(4), sent.systems.pop()) {
        (0, last) => {
            let id = random.pick(&[5, 6, 7, 15]);
            sent.systems.extend(last);
            sent.systems.push(nothing(id));
        }
        (1, Some(last)) => sent.systems.extend([last.clone(), last]),
        (2, Some(last)) => {
            sent.systems.push(with_place(&last, Signals, SIGNAL_BITS - 1, false));
        }
        _ => sent.systems = masks::at_limit(random, 1).systems,
    }
    sent
}
