//! Masks for the generator: good ones, ones at and past the house limits, and
//! ones with a single fault (document 01, "Held mask and assigned places").

use super::super::holding::{
    Mask, System, GALILEO, MAX_CELLS, MAX_SATELLITES, SATELLITE_BITS, SATELLITE_PLACES,
    SIGNAL_BITS, SIGNAL_PLACES,
};
use super::super::random::Random;
use super::reissues;

const IDS: [u8; 5] = [0, 1, 2, 3, 4];
const GPS: u8 = 0;
const GLONASS: u8 = 1;
const BEIDOU: u8 = 3;
const QZSS: u8 = 4;

/// A good mask of 0 to 5 systems in any order, some of them without
/// satellites or signals, with and without cell masks.
pub fn good(random: &mut Random) -> Mask {
    loop {
        let count = random.below(IDS.len() + 1);
        let ids = random.draw(&IDS, count);
        let mask = of_systems(random, &ids);
        if mask.is_good() {
            return mask;
        }
    }
}

/// A good mask with at least one system.
pub fn named(random: &mut Random) -> Mask {
    loop {
        let mask = good(random);
        if !mask.systems.is_empty() {
            return mask;
        }
    }
}

/// A good mask with a satellite that has no cell.
pub fn with_bare_satellite(random: &mut Random) -> Mask {
    loop {
        let mask = good(random);
        if !mask.bare_satellites().is_empty() {
            return mask;
        }
    }
}

/// The next issue of the mask, sometimes with the same systems or with one change.
pub fn successor(random: &mut Random, mask: &Mask) -> Mask {
    let next = match random.below(10) {
        0 | 1 => mask.clone(),
        2 | 3 => reissues::changed(random, mask),
        _ => good(random),
    };
    Mask { iod: (mask.iod + 1) % 16, ..next }
}

/// The mask under any number but this one, so that it is no changed mask to who
/// holds one of this number (document 02, Ask 2).
pub fn of_other_issue(random: &mut Random, mask: Mask, iod: u8) -> Mask {
    Mask { iod: (iod + 1 + random.below(15) as u8) % 16, ..mask }
}

fn of_systems(random: &mut Random, ids: &[u8]) -> Mask {
    let iod = random.below(16) as u8;
    let systems = ids.iter().map(|&id| system(random, id)).collect();
    Mask { iod, systems }
}

fn system(random: &mut Random, id: u8) -> System {
    let satellites = amount(random, SATELLITE_PLACES[usize::from(id)]);
    let signals = amount(random, SIGNAL_PLACES[usize::from(id)]);
    sized_system(random, id, satellites, signals)
}

/// None, one, few, or up to all of so many places.
fn amount(random: &mut Random, places: usize) -> usize {
    match random.below(10) {
        0 => 0,
        1 => 1,
        2 => places,
        3 => random.below(places + 1),
        _ => 1 + random.below(4),
    }
}

/// A system with so many satellites and signals at random assigned places.
fn sized_system(random: &mut Random, id: u8, satellites: usize, signals: usize) -> System {
    let index = usize::from(id);
    let satellites = places(random, SATELLITE_PLACES[index], satellites, SATELLITE_BITS);
    let signals = places(random, SIGNAL_PLACES[index], signals, SIGNAL_BITS) as u16;
    let mut system = System { id, satellites, signals, cells: None };
    if random.chance(60) {
        system.cells = Some(cell_mask(random, &system));
    }
    system
}

/// A mask field with so many set places among the assigned ones.
fn places(random: &mut Random, assigned: usize, count: usize, width: usize) -> u64 {
    let all: Vec<usize> = (0..assigned).collect();
    random.draw(&all, count).iter().fold(0, |mask, place| mask | 1 << (width - 1 - place))
}

/// Any cell mask, in half of all cases with some satellites that have no cell.
fn cell_mask(random: &mut Random, system: &System) -> Vec<bool> {
    let percent = random.pick(&[0, 20, 50, 90, 100]);
    let bare = random.pick(&[0, 0, 30, 60]);
    let signals = system.signal_places().len();
    let mut cells = Vec::new();
    for _ in system.satellite_places() {
        let percent = if random.chance(bare) { 0 } else { percent };
        cells.extend((0..signals).map(|_| random.chance(percent)));
    }
    cells
}

/// So many cells of a cell mask set, all others zero.
fn counted_cells(random: &mut Random, bits: usize, count: usize) -> Vec<bool> {
    let all: Vec<usize> = (0..bits).collect();
    let mut cells = vec![false; bits];
    for cell in random.draw(&all, count) {
        cells[cell] = true;
    }
    cells
}

/// The limit of 64 satellites or of 256 cells, met (`over` 0) or passed by one.
pub fn at_limit(random: &mut Random, over: usize) -> Mask {
    let [satellites, set_cells, full_cells] = limits(random, over);
    random.pick(&[&satellites, &satellites, &set_cells, &full_cells]).clone()
}

/// The same, one mask for each way to count so many.
pub fn limits(random: &mut Random, over: usize) -> [Mask; 3] {
    let mut masks = [
        satellites_at(random, MAX_SATELLITES + over),
        set_cells_at(random, MAX_CELLS + over),
        full_cells_at(random, over),
    ];
    for mask in &mut masks {
        mask.iod = random.below(16) as u8;
    }
    masks
}

/// So many satellites over two or more systems, with few signals.
fn satellites_at(random: &mut Random, total: usize) -> Mask {
    let ids = random.draw(&IDS, IDS.len());
    let mut left = total;
    let mut systems = Vec::new();
    for id in ids {
        let satellites = left.min(SATELLITE_PLACES[usize::from(id)]);
        left -= satellites;
        let signals = random.below(4);
        systems.push(sized_system(random, id, satellites, signals));
    }
    Mask { iod: 0, systems }
}

/// So many cells, most of them as set bits of a cell mask: two systems have
/// few, and GPS fills up to the total.
fn set_cells_at(random: &mut Random, total: usize) -> Mask {
    let ids = random.draw(&[GLONASS, GALILEO, BEIDOU, QZSS], 2);
    let mut systems: Vec<System> = ids.iter().map(|&id| sized_system(random, id, 4, 5)).collect();
    let before: usize = systems.iter().map(|system| system.cells().len()).sum();
    let mut gps = sized_system(random, GPS, 36, 9);
    gps.cells = Some(counted_cells(random, gps.cell_bits(), total - before));
    systems.insert(random.below(systems.len() + 1), gps);
    Mask { iod: 0, systems }
}

/// 256 cells with flag 0 everywhere; over that, one cell in a system more.
fn full_cells_at(random: &mut Random, over: usize) -> Mask {
    let sizes: [(usize, &[u8]); 3] = [
        (32, &[GPS, GALILEO, BEIDOU]),
        (16, &[GPS, GALILEO, BEIDOU]),
        (8, &[GPS, GALILEO, BEIDOU, QZSS]),
    ];
    let (satellites, ids) = random.pick(&sizes);
    let mut systems = Vec::new();
    for id in random.draw(ids, MAX_CELLS / (satellites * 8)) {
        systems.push(sized_system(random, id, satellites, 8));
    }
    if over > 0 {
        systems.push(sized_system(random, GLONASS, over, 1));
    }
    for system in &mut systems {
        system.cells = None;
    }
    Mask { iod: 0, systems }
}

/// The longest cell masks, few of their bits set: as many satellites as there
/// may be, or a few less, by nearly all signals.
pub fn wide(random: &mut Random) -> Mask {
    let count = 1 + random.below(IDS.len());
    let mut left = MAX_SATELLITES;
    let mut systems = Vec::new();
    for id in random.draw(&IDS, count) {
        let satellites = left.min(SATELLITE_PLACES[usize::from(id)]);
        left -= satellites;
        let satellites = satellites.saturating_sub(random.below(3));
        let signals = SIGNAL_PLACES[usize::from(id)] - random.below(4);
        let mut system = sized_system(random, id, satellites, signals);
        let cells = random.below(MAX_CELLS / IDS.len()).min(system.cell_bits());
        system.cells = Some(counted_cells(random, system.cell_bits(), cells));
        systems.push(system);
    }
    Mask { iod: random.below(16) as u8, systems }
}

/// One to five systems with cell masks of no bits: no satellite, or no signal.
pub fn bare(random: &mut Random) -> Mask {
    let count = 1 + random.below(IDS.len());
    let ids = random.draw(&IDS, count);
    let mut mask = of_systems(random, &[]);
    for id in ids {
        let (satellites, signals) = random.pick(&[(0, 0), (0, 3), (3, 0)]);
        let cells = Some(Vec::new());
        mask.systems.push(System { cells, ..sized_system(random, id, satellites, signals) });
    }
    mask
}

/// A good mask in which one system got an ID over 4 or one named already.
pub fn with_bad_system(random: &mut Random) -> Mask {
    let mut mask = named(random);
    let at = random.below(mask.systems.len());
    let id = match random.below(3) {
        0 => 5,
        1 => 6 + random.below(10) as u8,
        _ => mask.systems[0].id,
    };
    let system = System { id, ..mask.systems[at].clone() };
    if id == mask.systems[0].id {
        mask.systems.push(system);
    } else {
        mask.systems[at] = system;
    }
    mask
}

/// A good mask in which one system got one place without assignment: the first
/// such, the last, or any. A cell mask keeps the bits that its system asks for.
pub fn with_reserved_place(random: &mut Random) -> Mask {
    let mut mask = named(random);
    let at = random.below(mask.systems.len());
    let system = &mut mask.systems[at];
    let assigned = SATELLITE_PLACES[usize::from(system.id)];
    if assigned < SATELLITE_BITS && random.chance(50) {
        let place = edge(random, assigned, SATELLITE_BITS);
        system.satellites |= 1 << (SATELLITE_BITS - 1 - place);
    } else {
        let place = edge(random, SIGNAL_PLACES[usize::from(system.id)], SIGNAL_BITS);
        system.signals |= 1 << (SIGNAL_BITS - 1 - place);
    }
    if system.cells.is_some() {
        system.cells = Some(cell_mask(random, system));
    }
    mask
}

fn edge(random: &mut Random, first: usize, end: usize) -> usize {
    let any = first + random.below(end - first);
    random.pick(&[first, end - 1, any])
}
