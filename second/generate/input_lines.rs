//! Lines of the listing's input for the generator: good ones of all lengths, and
//! each kind of bad one (document 01, "Saved mask and listing").

use super::super::random::Random;
use super::super::STRETCH_BITS;
use super::digits;
use super::edits::{any_line, CHARACTERS};

/// A kind of length of a stretch: its name, how often it comes, and one of it.
pub type Length = (&'static str, usize, fn(&mut Random) -> usize);

pub const LENGTHS: [Length; 6] = [
    ("no bits", 5, |_| 0),
    ("up to 16 bits", 35, |random| 1 + random.below(16)),
    ("up to 600 bits", 50, |random| 17 + random.below(584)),
    ("up to 6000 bits", 5, |random| 601 + random.below(5_400)),
    ("up to 50840 bits", 2, |random| 6_001 + random.below(STRETCH_BITS - 6_010)),
    ("up to 50850 bits", 3, |random| STRETCH_BITS - random.below(10)),
];

/// A kind of bad line: its name, how often it comes, and one of it, made of a
/// stretch. Some of what a kind makes may be another good line.
pub type Bad = (&'static str, usize, fn(&mut Random, Vec<bool>) -> Vec<u8>);

pub const BAD: [Bad; 20] = [
    ("another count", 3, |random, bits| {
        let more = 1 + random.below(8);
        let count = random.pick(&[bits.len() + more, bits.len().saturating_sub(more)]);
        with_count(&bits, &count.to_string())
    }),
    ("leading zero", 3, |_, bits| with_count(&bits, &format!("0{}", bits.len()))),
    ("wrapping count", 3, |random, bits| {
        let more = 1_u128 << random.pick(&[8, 16, 32, 64]);
        let count = bits.len() as u128 + more * random.pick(&[1, 1, 3, 10]);
        with_count(&bits, &count.to_string())
    }),
    ("sign or space", 3, |random, bits| {
        let count = bits.len();
        let forms =
            [format!("+{count}"), format!("-{count}"), format!(" {count}"), format!("{count} ")];
        with_count(&bits, &forms[random.below(forms.len())])
    }),
    ("count in hex", 1, |_, bits| with_count(&bits, &format!("{:X}", bits.len()))),
    ("no count", 2, |_, bits| with_count(&bits, "")),
    ("no tab", 3, no_tab),
    ("two tabs", 3, two_tabs),
    ("digits before the count", 1, |_, bits| {
        format!("{}\t{}\n", digits(&bits), bits.len()).into_bytes()
    }),
    ("digit missing", 3, |random, bits| {
        let bits = some(bits);
        let mut line = good(&bits);
        let digits = line.len() - 1 - digits(&bits).len()..line.len() - 1;
        line.remove(digits.start + random.below(digits.len()));
        line
    }),
    ("digit too many", 3, |random, bits| {
        let digits = digits(&bits);
        let other = random.pick(&["0", "F", "00"]);
        let digits = if random.chance(50) { digits + other } else { other.to_string() + &digits };
        format!("{}\t{digits}\n", bits.len()).into_bytes()
    }),
    ("spare bits set", 4, spare_bits),
    ("lower case digit", 4, lower_case_digit),
    ("over 50850 bits", 2, |random, _| {
        let more = random.pick(&[1, 2, 3, 4, 5, 6, 7, 8, 100, 65_536 - STRETCH_BITS]);
        good(&stretch(random, STRETCH_BITS + more))
    }),
    ("count over 50850", 2, |random, bits| {
        let counts =
            ["50851", "50852", "50856", "99999", "100000", "4294967295", "18446744073709551615"];
        with_count(&bits, random.pick(&counts))
    }),
    ("empty line", 1, |_, _| b"\n".to_vec()),
    ("no bytes", 1, |_, _| Vec::new()),
    ("random bytes", 1, |random, _| any_line(random, 40, |random| random.next() as u8)),
    ("random characters", 2, |random, _| any_line(random, 40, |random| random.pick(CHARACTERS))),
    ("long line", 1, |random, bits| {
        let length = STRETCH_BITS / 4 + random.below(20_000);
        let digits = random.pick(&["0", "A", "1\t"]).repeat(length);
        format!("{}\t{digits}\n", bits.len()).into_bytes()
    }),
];

/// So many bits: any, all zero, or all ones.
pub fn stretch(random: &mut Random, length: usize) -> Vec<bool> {
    match random.below(8) {
        0 => vec![false; length],
        1 => vec![true; length],
        _ => random.bits(length),
    }
}

/// The line of a stretch.
pub fn good(bits: &[bool]) -> Vec<u8> {
    with_count(bits, &bits.len().to_string())
}

fn with_count(bits: &[bool], count: &str) -> Vec<u8> {
    format!("{count}\t{}\n", digits(bits)).into_bytes()
}

/// These bits, or one where there are none.
fn some(bits: Vec<bool>) -> Vec<bool> {
    if bits.is_empty() {
        vec![true]
    } else {
        bits
    }
}

/// No digits either, or the digits right after the count.
fn no_tab(random: &mut Random, bits: Vec<bool>) -> Vec<u8> {
    let digits = if random.chance(30) { String::new() } else { digits(&bits) };
    format!("{}{digits}\n", bits.len()).into_bytes()
}

/// The other one at the start, beside the first, among the digits, or at the end.
fn two_tabs(random: &mut Random, bits: Vec<bool>) -> Vec<u8> {
    let mut line = good(&bits);
    let after = bits.len().to_string().len() + 1;
    let any = random.below(line.len());
    line.insert(random.pick(&[0, after, any, line.len() - 1]), b'\t');
    line
}

/// One bit after the last one of a stretch that doesn't fill its last digit.
fn spare_bits(random: &mut Random, bits: Vec<bool>) -> Vec<u8> {
    let mut bits = some(bits);
    if bits.len() % 4 == 0 {
        bits.truncate(bits.len() - 1 - random.below(3));
    }
    let count = bits.len();
    let spare = 4 - count % 4;
    let set = random.below(spare);
    bits.extend((0..spare).map(|at| at == set));
    with_count(&bits, &count.to_string())
}

/// One letter among the digits, or all of them; there is one at least.
fn lower_case_digit(random: &mut Random, bits: Vec<bool>) -> Vec<u8> {
    let mut bits = bits;
    let letter = 4 * random.below(bits.len() / 4 + 1);
    bits.splice(letter..bits.len().min(letter + 4), [true, false, true, true]);
    let mut line = good(&bits);
    if random.chance(20) {
        line.make_ascii_lowercase();
    } else {
        let at = bits.len().to_string().len() + 1 + letter / 4;
        line[at].make_ascii_lowercase();
    }
    line
}
