//! Saved lines for the generator, good ones and each kind that the form can't
//! produce (document 01, "Saved mask and listing"). The fields are laid down
//! here, and not by the saved form's own description.

use super::super::holding::{Holding, Mask, MAX_CELLS};
use super::super::random::Random;
use super::edits::{any_line, CHARACTERS};
use super::{digits, masks};

/// Fields of a system: ID, satellite mask, signal mask, flag, cell mask.
const SYSTEM: usize = 5;
/// The first system's ID, after `S` and the IOD.
const FIRST: usize = 2;
const SATELLITES: usize = 1;
const SIGNALS: usize = 2;
const FLAG: usize = 3;
const CELLS: usize = 4;

/// A kind of bad line: its name, how often it comes, and one of it. Some of
/// what a kind makes may be another good line.
pub type Bad = (&'static str, usize, fn(&mut Random) -> Vec<u8>);

pub const BAD: [Bad; 27] = [
    ("leading zero", 2, |random| edited_number(random, |_, number| format!("0{number}"))),
    ("wrapping number", 2, |random| edited_number(random, wrapping)),
    ("sign or space", 2, |random| edited_number(random, signed)),
    ("IOD over 15", 2, |random| with_field(random, |_, _| 1, &["16", "17", "31", "99", "255"])),
    ("ID over 4", 2, |random| with_field(random, id, &["5", "6", "7", "9", "10", "15", "44"])),
    ("ID doubled", 2, id_doubled),
    ("place without assignment", 2, |random| bad(masks::with_reserved_place(random))),
    ("limit passed", 3, |random| bad(masks::at_limit(random, 1))),
    ("another flag", 3, |random| with_field(random, flag, &["0", "1", "2", "9", "-", "", "1 "])),
    ("spare bits set", 3, spare_bits),
    ("cells padded in front", 3, padded_in_front),
    ("zero digit at the cells", 2, |random| {
        edited(random, cells, |random, digits| beside(random, digits, "0"))
    }),
    ("cell digit missing", 2, |random| edited(random, cells, shortened)),
    ("other cells for none", 2, |random| edited(random, cells, none_or_some)),
    ("mask with a digit more", 2, |random| {
        edited(random, mask_field, |random, digits| beside(random, digits, "0"))
    }),
    ("mask with a digit less", 2, |random| edited(random, mask_field, shortened)),
    ("field dropped", 2, |random| with_fields(random, |_, fields, at| drop(fields.remove(at)))),
    ("field doubled", 2, |random| {
        with_fields(random, |_, fields, at| fields.insert(at, fields[at].clone()))
    }),
    ("field put in", 2, |random| {
        with_fields(random, |random, fields, at| {
            fields.insert(at, random.pick(&["", "-", "0", "1", "S"]).to_string());
        })
    }),
    ("field emptied", 2, |random| with_fields(random, |_, fields, at| fields[at].clear())),
    ("fields swapped", 2, |random| {
        with_fields(random, |random, fields, at| {
            let other = random.below(fields.len());
            fields.swap(at, other);
        })
    }),
    ("fields cut", 2, |random| with_fields(random, |_, fields, at| fields.truncate(at))),
    ("near the empty one", 3, |random| random.pick(&NEAR_EMPTY).to_vec()),
    ("no bytes", 1, |_| Vec::new()),
    ("random bytes", 1, |random| any_line(random, 80, |random| random.next() as u8)),
    ("random characters", 2, |random| any_line(random, 40, |random| random.pick(CHARACTERS))),
    ("long line", 1, long_line),
];

/// Lines like `S`, tab, `-`, line feed; a mask of issue 0 without systems is good.
const NEAR_EMPTY: [&[u8]; 24] = [
    b"S\t-",
    b"S\t-\n\n",
    b"S\t-\r\n",
    b"S\t-\r",
    b"S\t-\0",
    b"S\t-\0\n",
    b"S\t-\n\0",
    b"S-\n",
    b"S -\n",
    b"S\t\t-\n",
    b"s\t-\n",
    b"T\t-\n",
    b"T\t3\t-\t-\n",
    b"S\t--\n",
    b"S\t-\t\n",
    b"S\t-\t-\n",
    b"S\t-0\n",
    b"S\t-1\n",
    b"S\t0\n",
    b"S\t\n",
    b"S\n",
    b"\tS\t-\n",
    b" S\t-\n",
    b"S\t-\t0\t0000000000\t0000\t0\t-\n",
];

/// The line of a holding; of nonsense, none.
pub fn good(holding: &Holding) -> Vec<u8> {
    match holding {
        Holding::Empty => b"S\t-\n".to_vec(),
        Holding::Held(mask) => joined(&fields(mask)),
        Holding::Nonsense => Vec::new(),
    }
}

fn bad(mask: Mask) -> Vec<u8> {
    joined(&fields(&mask))
}

fn joined(fields: &[String]) -> Vec<u8> {
    [fields.join("\t").as_bytes(), b"\n"].concat()
}

fn fields(mask: &Mask) -> Vec<String> {
    let mut fields = vec!["S".to_string(), mask.iod.to_string()];
    for system in &mask.systems {
        fields.push(system.id.to_string());
        fields.push(format!("{:010X}", system.satellites));
        fields.push(format!("{:04X}", system.signals));
        fields.push(if system.cells.is_some() { "1" } else { "0" }.to_string());
        fields.push(match &system.cells {
            Some(cells) if !cells.is_empty() => digits(cells),
            _ => "-".to_string(),
        });
    }
    fields
}

/// A good mask with a system, of any kind.
fn with_systems(random: &mut Random) -> Mask {
    match random.below(10) {
        0 => masks::at_limit(random, 0),
        1 => masks::wide(random),
        2 => masks::bare(random),
        _ => masks::named(random),
    }
}

/// A place among the fields: of any system the same one.
fn of_system(random: &mut Random, fields: &[String], which: usize) -> usize {
    FIRST + SYSTEM * random.below((fields.len() - FIRST) / SYSTEM) + which
}

fn id(random: &mut Random, fields: &[String]) -> usize {
    of_system(random, fields, 0)
}

fn flag(random: &mut Random, fields: &[String]) -> usize {
    of_system(random, fields, FLAG)
}

fn cells(random: &mut Random, fields: &[String]) -> usize {
    of_system(random, fields, CELLS)
}

fn mask_field(random: &mut Random, fields: &[String]) -> usize {
    let which = random.pick(&[SATELLITES, SIGNALS]);
    of_system(random, fields, which)
}

/// The IOD, an ID or a flag.
fn number(random: &mut Random, fields: &[String]) -> usize {
    match random.below(3) {
        0 => 1,
        1 => id(random, fields),
        _ => flag(random, fields),
    }
}

/// A good line with one field edited.
fn edited(
    random: &mut Random,
    which: fn(&mut Random, &[String]) -> usize,
    edit: impl FnOnce(&mut Random, &str) -> String,
) -> Vec<u8> {
    let mut fields = fields(&with_systems(random));
    let at = which(random, &fields);
    fields[at] = edit(random, &fields[at]);
    joined(&fields)
}

fn edited_number(random: &mut Random, edit: fn(&mut Random, &str) -> String) -> Vec<u8> {
    edited(random, number, edit)
}

/// A good line with one of these in a field.
fn with_field(
    random: &mut Random,
    which: fn(&mut Random, &[String]) -> usize,
    others: &[&str],
) -> Vec<u8> {
    edited(random, which, |random, _| random.pick(others).to_string())
}

/// A good line with its fields edited at some place.
fn with_fields(random: &mut Random, edit: fn(&mut Random, &mut Vec<String>, usize)) -> Vec<u8> {
    let mut fields = fields(&with_systems(random));
    let at = random.below(fields.len());
    edit(random, &mut fields, at);
    joined(&fields)
}

/// A number that looks like the one given to whoever drops its upper bits.
fn wrapping(random: &mut Random, number: &str) -> String {
    let number: u128 = number.parse().unwrap_or(0);
    let more = 1_u128 << random.pick(&[4, 8, 16, 32, 64]);
    (number + more * random.pick(&[1, 1, 3, 10])).to_string()
}

fn signed(random: &mut Random, number: &str) -> String {
    match random.below(5) {
        0 => format!("+{number}"),
        1 => format!("-{number}"),
        2 => format!(" {number}"),
        3 => format!("{number} "),
        _ => format!("{number}."),
    }
}

fn beside(random: &mut Random, digits: &str, other: &str) -> String {
    if random.chance(50) {
        format!("{other}{digits}")
    } else {
        format!("{digits}{other}")
    }
}

/// Without the first or the last character.
fn shortened(random: &mut Random, text: &str) -> String {
    let (from, to) = random.pick(&[(1, text.len()), (0, text.len() - 1)]);
    text[from..to].to_string()
}

/// `-` where there are cells, cells where there is `-`, or nothing.
fn none_or_some(random: &mut Random, cells: &str) -> String {
    let other = if cells == "-" { random.pick(&["0", "8", "00", "--"]) } else { "-" };
    random.pick(&[other, other, ""]).to_string()
}

fn id_doubled(random: &mut Random) -> Vec<u8> {
    let mut fields = fields(&with_systems(random));
    let (one, other) = (id(random, &fields), id(random, &fields));
    if one == other {
        fields.extend_from_within(one..one + SYSTEM);
    } else {
        fields[one] = fields[other].clone();
    }
    joined(&fields)
}

/// A mask whose first system has a cell mask that doesn't fill its last digit.
fn with_spare_bits(random: &mut Random) -> (Mask, Vec<bool>) {
    loop {
        let mask = with_systems(random);
        if let Some(cells) = mask.systems[0].cells.clone() {
            if cells.len() % 4 != 0 {
                return (mask, cells);
            }
        }
    }
}

fn spare_bits(random: &mut Random) -> Vec<u8> {
    let (mask, mut cells) = with_spare_bits(random);
    let spare = 4 - cells.len() % 4;
    let set = random.below(spare);
    cells.extend((0..spare).map(|at| at == set));
    let mut fields = fields(&mask);
    fields[FIRST + CELLS] = digits(&cells);
    joined(&fields)
}

fn padded_in_front(random: &mut Random) -> Vec<u8> {
    let (mask, cells) = with_spare_bits(random);
    let spare = vec![false; 4 - cells.len() % 4];
    let mut fields = fields(&mask);
    fields[FIRST + CELLS] = digits(&[spare, cells].concat());
    joined(&fields)
}

/// Far longer than any line of the form: a number, a cell mask, or system after
/// system.
fn long_line(random: &mut Random) -> Vec<u8> {
    let mut fields = fields(&with_systems(random));
    let length = MAX_CELLS + random.below(20_000);
    let systems = fields[FIRST..].to_vec();
    match random.below(3) {
        0 => fields[1] = "1".repeat(length),
        1 => fields[FIRST + CELLS] = "0".repeat(length),
        _ => (0..length / 100).for_each(|_| fields.extend_from_slice(&systems)),
    }
    joined(&fields)
}
