//! Whole messages for the generator, with the head and the rows that they
//! stand for under their mask. The fields are laid down here from document 01,
//! "Message layouts", those of sub types 6 and 7 from Tables 4.1.2-19 to 4.1.2-22 of
//! source document 002, and not from the reader's and writer's own description.

use super::super::bits::push;
use super::super::holding::{Mask, GALILEO};
use super::super::random::Random;
use super::super::{ABSENT, COLUMNS, MESSAGE_NUMBER};

/// The bits of a message, the ends of its fields, and what it means.
pub struct Drawn {
    pub bits: Vec<bool>,
    /// The place after each field.
    pub bounds: Vec<usize>,
    /// The place where the body begins; the message's end where it has none.
    pub body: usize,
    pub head: [i32; COLUMNS],
    pub rows: Vec<[i32; COLUMNS]>,
}

impl Drawn {
    fn new(sub_type: u64) -> Self {
        let mut drawn = Drawn {
            bits: Vec::new(),
            bounds: Vec::new(),
            body: 0,
            head: [ABSENT; COLUMNS],
            rows: Vec::new(),
        };
        drawn.put(MESSAGE_NUMBER, 12);
        drawn.head[0] = drawn.put(sub_type, 4);
        drawn
    }

    /// The ends of all that is tested for 3 by itself: of each field before the
    /// body, and of the whole body, which is one (document 01, "Reader's order").
    pub fn ends(&self) -> Vec<usize> {
        let mut ends = self.bounds.clone();
        ends.retain(|&end| end <= self.body);
        ends.push(self.bits.len());
        ends
    }

    /// What is put from now on is the body.
    fn begin_body(&mut self) {
        self.body = self.bits.len();
    }

    /// Appends a field and gives its value back as a column.
    fn put(&mut self, value: u64, width: usize) -> i32 {
        push(&mut self.bits, value, width);
        self.bounds.push(self.bits.len());
        value as i32
    }

    fn put_flags(&mut self, flags: &[bool]) {
        self.bits.extend(flags);
        self.bounds.push(self.bits.len());
    }

    fn put_any(&mut self, random: &mut Random, width: usize) -> i32 {
        self.put(unsigned(random, width), width)
    }

    fn put_signed(&mut self, random: &mut Random, width: usize) -> i32 {
        self.put(signed(random, width) as u64, width)
    }

    /// Epoch, interval, indicator and IOD SSR.
    fn put_opening(&mut self, random: &mut Random, epoch: usize, iod: u8) {
        self.head[1] = self.put(epoch_value(random, epoch), epoch);
        self.head[2] = self.put_any(random, 4);
        self.head[3] = self.put_any(random, 1);
        self.head[4] = self.put(u64::from(iod), 4);
    }
}

/// A field's value: often its least or greatest.
fn unsigned(random: &mut Random, width: usize) -> u64 {
    let all = (1 << width) - 1;
    let any = random.next() & all;
    random.pick(&[0, all, any, any])
}

/// An epoch of this width: often the last or the first that is none, after the
/// seconds of an hour or of a week.
fn epoch_value(random: &mut Random, width: usize) -> u64 {
    let none = if width == 12 { 3_600 } else { 604_800 };
    let any = unsigned(random, width);
    random.pick(&[none - 1, none, any, any, any])
}

/// A signed field's value: often most negative, greatest, -1, 0 or next to the
/// most negative.
fn signed(random: &mut Random, width: usize) -> i64 {
    let half = 1 << (width - 1);
    let any = (random.next() % (2 * half)) as i64;
    let half = half as i64;
    random.pick(&[-half, 1 - half, half - 1, -1, 0, any - half, any - half, any - half])
}

/// Sub type 1 for any mask, also a bad one, with the number of systems given.
pub fn mask_of(random: &mut Random, mask: &Mask, count: u64) -> Drawn {
    let mut drawn = Drawn::new(1);
    drawn.put_opening(random, 20, mask.iod);
    drawn.head[5] = drawn.put(count, 4);
    for system in &mask.systems {
        drawn.put(u64::from(system.id), 4);
        drawn.put(system.satellites, 40);
        drawn.put(u64::from(system.signals), 16);
        drawn.put(u64::from(system.cells.is_some()), 1);
        if let Some(cells) = &system.cells {
            drawn.put_flags(cells);
        }
    }
    drawn.begin_body();
    drawn
}

/// Sub type 1 for a mask with its own number of systems.
pub fn mask(random: &mut Random, mask: &Mask) -> Drawn {
    mask_of(random, mask, mask.systems.len() as u64)
}

/// Sub type 10 of any size.
pub fn service(random: &mut Random) -> Drawn {
    let mut drawn = Drawn::new(10);
    drawn.head[3] = drawn.put_any(random, 1);
    drawn.head[5] = drawn.put_any(random, 3);
    drawn.head[6] = drawn.put_any(random, 2);
    drawn.begin_body();
    for number in 1..=drawn.head[6] + 1 {
        let mut row = [ABSENT; COLUMNS];
        row[2] = number;
        for byte in &mut row[3..] {
            *byte = drawn.put_any(random, 8);
        }
        drawn.rows.push(row);
    }
    drawn
}

/// Sub type 2 to 7 or 11 under the mask; those with flags most often.
pub fn correction(random: &mut Random, mask: &Mask) -> Drawn {
    let sub_type = random.pick(&[2, 3, 4, 5, 7, 6, 6, 6, 11, 11, 11]);
    of_sub_type(random, mask, sub_type)
}

/// A message of this sub type under the mask: any of the nine.
pub fn of_sub_type(random: &mut Random, held: &Mask, sub_type: u64) -> Drawn {
    match sub_type {
        1 => mask(random, held),
        10 => service(random),
        2 | 3 | 7 => per_satellite(random, held, sub_type),
        4 | 5 => per_cell(random, held, sub_type),
        _ => selected(random, held, sub_type),
    }
}

fn per_satellite(random: &mut Random, mask: &Mask, sub_type: u64) -> Drawn {
    let mut drawn = Drawn::new(sub_type);
    drawn.put_opening(random, 12, mask.iod);
    drawn.begin_body();
    for (id, place) in mask.satellites() {
        let mut row = keyed(id, place);
        match sub_type {
            2 => put_orbit(random, &mut drawn, id, &mut row),
            3 => row[3] = drawn.put_signed(random, 15),
            _ => row[3] = drawn.put_any(random, 6),
        }
        drawn.rows.push(row);
    }
    drawn
}

fn per_cell(random: &mut Random, mask: &Mask, sub_type: u64) -> Drawn {
    let mut drawn = Drawn::new(sub_type);
    drawn.put_opening(random, 12, mask.iod);
    drawn.begin_body();
    for (id, place, signal) in mask.cells() {
        let mut row = keyed(id, place);
        row[2] = signal as i32;
        if sub_type == 4 {
            row[3] = drawn.put_signed(random, 11);
        } else {
            row[3] = drawn.put_signed(random, 15);
            row[4] = drawn.put_any(random, 2);
        }
        drawn.rows.push(row);
    }
    drawn
}

/// Sub type 6 or 11 with any flags, and with a network in more than half of all
/// cases.
fn selected(random: &mut Random, mask: &Mask, sub_type: u64) -> Drawn {
    let network = if random.chance(60) { 1 + random.below(31) as u64 } else { 0 };
    let network = if random.chance(10) { 31 } else { network };
    let selection = selection(random, mask, sub_type);
    selected_for(random, mask, sub_type, network, &selection)
}

/// Sub type 6 or 11 with network 0 in its network field, which is refused.
pub fn network_zero(random: &mut Random, mask: &Mask, sub_type: u64) -> Drawn {
    let selection = selection(random, mask, sub_type);
    let mut drawn = selected_for(random, mask, sub_type, 1, &selection);
    drawn.bits[44] = false;
    drawn
}

/// Sub type 6 whose selection names a satellite without a cell, or several, which
/// is refused (document 02, Ask 1); a good one where the mask has no such satellite.
pub fn without_cell(random: &mut Random, mask: &Mask) -> Drawn {
    let bare = mask.bare_satellites();
    let count = random.pick(&[1, 1, 2, bare.len()]);
    let named = random.draw(&bare, count);
    let mut selection = selection(random, mask, 6);
    for (satellite, selected) in mask.satellites().iter().zip(&mut selection) {
        *selected |= named.contains(satellite);
    }
    let network = 1 + random.below(31) as u64;
    selected_for(random, mask, 6, network, &selection)
}

/// What a network selects: none, some or all of the satellites that it may, in sub
/// type 6 of those with a cell.
fn selection(random: &mut Random, mask: &Mask, sub_type: u64) -> Vec<bool> {
    let percent = random.pick(&[0, 20, 50, 80, 100]);
    let never = if sub_type == 6 { mask.bare_satellites() } else { Vec::new() };
    let mut selected = |satellite| random.chance(percent) && !never.contains(satellite);
    mask.satellites().iter().map(&mut selected).collect()
}

/// Sub type 6 or 11 with any flags; network 0 stands for a network flag of 0, and
/// without a network the selection is not sent.
fn selected_for(
    random: &mut Random,
    mask: &Mask,
    sub_type: u64,
    network: u64,
    selection: &[bool],
) -> Drawn {
    let mut drawn = Drawn::new(sub_type);
    drawn.put_opening(random, 12, mask.iod);
    drawn.head[5] = drawn.put_any(random, 1);
    drawn.head[6] = drawn.put_any(random, 1);
    drawn.put(u64::from(network > 0), 1);
    if network > 0 {
        drawn.head[7] = drawn.put(network, 5);
        drawn.put_flags(selection);
    }
    drawn.begin_body();
    let cells = mask.cells();
    for ((id, place), &selected) in mask.satellites().into_iter().zip(selection) {
        match (selected || network == 0, sub_type) {
            (true, 6) => put_biases(random, &mut drawn, &cells, (id, place)),
            (true, _) => put_combined(random, &mut drawn, id, place),
            _ => {}
        }
    }
    drawn
}

/// A row for each cell of the satellite: code bias, phase bias and indicator.
fn put_biases(
    random: &mut Random,
    drawn: &mut Drawn,
    cells: &[(u8, usize, usize)],
    satellite: (u8, usize),
) {
    for &(id, place, signal) in cells.iter().filter(|cell| (cell.0, cell.1) == satellite) {
        let mut row = keyed(id, place);
        row[2] = signal as i32;
        if drawn.head[5] == 1 {
            row[3] = drawn.put_signed(random, 11);
        }
        if drawn.head[6] == 1 {
            row[4] = drawn.put_signed(random, 15);
            row[5] = drawn.put_any(random, 2);
        }
        drawn.rows.push(row);
    }
}

fn put_combined(random: &mut Random, drawn: &mut Drawn, id: u8, place: usize) {
    let mut row = keyed(id, place);
    if drawn.head[5] == 1 {
        put_orbit(random, drawn, id, &mut row);
    }
    if drawn.head[6] == 1 {
        row[7] = drawn.put_signed(random, 15);
    }
    drawn.rows.push(row);
}

/// A row that names a satellite and nothing else yet.
fn keyed(id: u8, place: usize) -> [i32; COLUMNS] {
    let mut row = [ABSENT; COLUMNS];
    row[0] = i32::from(id);
    row[1] = place as i32 + 1;
    row
}

fn put_orbit(random: &mut Random, drawn: &mut Drawn, id: u8, row: &mut [i32; COLUMNS]) {
    row[3] = drawn.put_any(random, if id == GALILEO { 10 } else { 8 });
    row[4] = drawn.put_signed(random, 15);
    row[5] = drawn.put_signed(random, 13);
    row[6] = drawn.put_signed(random, 13);
}

/// A message whose number isn't 4073.
pub fn other_number(random: &mut Random) -> Drawn {
    let mut drawn = service(random);
    let near = [4_072, 4_074, 4_095, 1, 2_025];
    let number = if random.chance(50) { random.pick(&near) } else { random.next() % 4_073 };
    replace(&mut drawn.bits, 0, number, 12);
    drawn
}

/// A message whose sub type isn't one of the nine.
pub fn other_sub_type(random: &mut Random) -> Drawn {
    let mut drawn = service(random);
    let sub_type = random.pick(&[0, 8, 9, 12, 13, 14, 15]);
    replace(&mut drawn.bits, 12, sub_type, 4);
    drawn
}

fn replace(bits: &mut [bool], place: usize, value: u64, width: usize) {
    let mut field = Vec::new();
    push(&mut field, value, width);
    bits[place..place + width].copy_from_slice(&field);
}
