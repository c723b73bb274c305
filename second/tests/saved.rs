//! The saved form both ways (document 01, "Saved mask and listing").

use super::tools::{adopted, first, held, mask_bits, place};
use super::Group;
use crate::codec::answer::Stop;
use crate::codec::generate::masks;
use crate::codec::holding::Holding;
use crate::codec::random::Random;
use crate::codec::saved::{load, save};

const CASES: usize = 5_000;
const REFUSED: Stop = Stop::plain(12, 0);

pub fn saved(holding: &Holding) -> String {
    let mut buffer = [0; 1_000];
    let length = save(holding, &mut buffer).unwrap_or(0);
    String::from_utf8_lossy(&buffer[..length]).into_owned()
}

pub fn lines(group: &mut Group) {
    by_hand(group);
    room(group);
    bad_lines(group);
    let mut random = Random::new(10);
    for _ in 0..CASES {
        let over = random.chance(20);
        let mask = if over { masks::at_limit(&mut random, 0) } else { masks::good(&mut random) };
        let holding = Holding::Held(mask);
        let line = saved(&holding);
        group.same("there and back", load(line.as_bytes()), (Ok(()), holding));
        damaged(group, &mut random, line.into_bytes());
    }
}

/// A line with one byte changed is refused, or it is another line of the form.
fn damaged(group: &mut Group, random: &mut Random, mut line: Vec<u8>) {
    let at = random.below(line.len());
    line[at] = random.pick(b"0123456789ABCDEFabc-S \t\n\r\0");
    match load(&line) {
        (Ok(()), holding) => group.check("another line", saved(&holding).as_bytes() == line),
        refused => group.same("a refusal", refused, (Err(REFUSED), Holding::Empty)),
    }
}

fn by_hand(group: &mut Group) {
    let lines = [
        (Holding::Empty, "S\t-\n"),
        (held(&[]), "S\t3\n"),
        (held(&[(4, place(9, 40), 0)]), "S\t3\t4\t0040000000\t0000\t0\t-\n"),
        (
            adopted(&mask_bits(&[(0, 0, 0x8000, 1, &[]), (3, first(40, 40), 0, 0, &[])])),
            "S\t3\t0\t0000000000\t8000\t1\t-\t3\tFFFFFFFFFF\t0000\t0\t-\n",
        ),
        (
            adopted(&mask_bits(&[(2, first(5, 40), 0x8000, 1, &[true, false, false, true, true])])),
            "S\t3\t2\tF800000000\t8000\t1\t98\n",
        ),
    ];
    for (holding, line) in lines {
        group.same("saved", saved(&holding).as_str(), line);
        group.same("loaded", load(line.as_bytes()), (Ok(()), holding));
    }
}

/// 1 and 12 of saving; "12 comes before 1".
fn room(group: &mut Group) {
    let holding = held(&[(4, place(9, 40), 0)]);
    let length = saved(&holding).len();
    for room in 0..length {
        let mut buffer = vec![b'?'; room];
        group.same("1: room", save(&holding, &mut buffer), Err(Stop::plain(1, 0)));
        group.check("nothing written", buffer.iter().all(|&byte| byte == b'?'));
    }
    let mut buffer = vec![b'?'; length + 3];
    group.same("length", save(&holding, &mut buffer), Ok(length));
    group.check("later bytes stay", buffer.ends_with(b"\n???"));
    for room in [0, 100] {
        let mut buffer = vec![b'?'; room];
        group.same("12: holding", save(&Holding::Nonsense, &mut buffer), Err(REFUSED));
        group.check("nothing written", buffer.iter().all(|&byte| byte == b'?'));
    }
}

fn bad_lines(group: &mut Group) {
    let good = "S\t3\t0\tA000000000\t8100\t1\tB\n";
    group.check("the good line", load(good.as_bytes()).0.is_ok());
    let changes = [
        ("S", "s"),
        ("S", " S"),
        ("S", "S "),
        ("S\t", "S\t\t"),
        ("\t3\t", "\t03\t"),
        ("\t3\t", "\t16\t"),
        ("\t3\t", "\t-\t"),
        ("\t3\t", "\t259\t"),
        ("\t3\t", "\t99999999999999999999\t"),
        ("\t3\t", "\t+3\t"),
        ("\t0\t", "\t5\t"),
        ("\t0\t", "\t00\t"),
        ("\t0\t", "\t256\t"),
        ("A000000000", "a000000000"),
        ("A000000000", "A00000000"),
        ("A000000000", "A0000000000"),
        ("A000000000", "E000000000"),
        ("8100", "8102"),
        ("8100", "810"),
        ("8100", "08100"),
        ("\t1\t", "\t0\t"),
        ("\t1\t", "\t2\t"),
        ("\t1\t", "\t01\t"),
        ("\tB\n", "\tb\n"),
        ("\tB\n", "\t-\n"),
        ("\tB\n", "\t\n"),
        ("\tB\n", "\tB0\n"),
        ("\tB\n", "\n"),
        ("\tB\n", "\tB"),
        ("\tB\n", "\tB\n\n"),
        ("\tB\n", "\tB\r\n"),
        ("\tB\n", "\tB\t\n"),
        ("\tB\n", "\tB\t0\tA000000000\t8100\t1\tB\n"),
        ("\tB\n", "\tB\nS\t-\n"),
    ];
    for (part, change) in changes {
        let line = good.replacen(part, change, 1);
        group.same(&line, load(line.as_bytes()), (Err(REFUSED), Holding::Empty));
    }
    let others = ["", "\n", "S", "S\n", "S\t\n", "S\t-", "S\t-\t\n", "\nS\t-\n", "S\t-\0\n", "S\t--\n"];
    let padded = ["S\t3\t0\tA000000000\t8000\t1\tB\n", "S\t3\t0\tA000000000\t8000\t0\t0\n"];
    for line in others.iter().chain(&padded) {
        group.same(line, load(line.as_bytes()), (Err(REFUSED), Holding::Empty));
    }
}
