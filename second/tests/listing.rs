//! The listing program line by line (document 01, "Saved mask and listing").

use super::tools::{LISTING_BITS, LISTING_HEX};
use super::Group;
use crate::codec::listing::listing;

/// The clock of the worked listing alone, its spare bit zero.
pub const CLOCK: &str = "67\tFE930642180058000\n";

pub fn listed(input: &[u8]) -> String {
    let mut output = Vec::new();
    let mut input = input;
    match listing(&mut input, &mut output) {
        Ok(_) => String::from_utf8_lossy(&output).into_owned(),
        Err(error) => error.to_string(),
    }
}

pub fn lines(group: &mut Group) {
    group.same("no input", listed(b"").as_str(), "");
    group.same("no bits", listed(b"0\t\n").as_str(), "E\t0\t0\t0\t0\t-\n");
    bad_lines(group);
    missing(group);
    held_from_line_to_line(group);
    limits(group);
}

fn bad_lines(group: &mut Group) {
    let bad: [&[u8]; 26] = [
        b"\n",
        b"\r\n",
        b"0\n",
        b"\t\n",
        b"0\t0\n",
        b"0\t\r\n",
        b"0\t\t\n",
        b"00\t\n",
        b" 0\t\n",
        b"0 \t\n",
        b"-0\t\n",
        b"+0\t\n",
        b"4\tf\n",
        b"4\tG\n",
        b"4\t\n",
        b"4\t00\n",
        b"04\t0\n",
        b"5\t0\n",
        b"5\t04\n",
        b"3\t1\n",
        b"1\t4\n",
        b"4\t0\t\n",
        b"4\t0 \n",
        b"4\t\0\n",
        b"8\t0\0\n",
        b"A\t000\n",
    ];
    for line in bad {
        let what = String::from_utf8_lossy(line).into_owned();
        group.same(&what, listed(line).as_str(), "B\t1\n");
        let then = [line, b"4\t0\n"].concat();
        group.same("the next line", listed(&then).as_str(), "B\t1\nE\t0\t0\t0\t0\t-\n");
    }
    group.same("no line feed", listed(b"0\t").as_str(), "B\t1\n");
    group.same("last without line feed", listed(b"0\t\n4\t0").as_str(), "E\t0\t0\t0\t0\t-\nB\t2\n");
    group.same("a number too long", listed(b"18446744073709551616\t\n").as_str(), "B\t1\n");
}

/// The last field of an E line (document 02, Ask 7): a number with stop 3 alone.
fn missing(group: &mut Group) {
    let ends = [
        ("11\t000\n", "E\t0\t0\t0\t0\t-\n"),
        ("11\t002\n", "E\t3\t0\t0\t0\t1\n"),
        ("1\t8\n", "E\t3\t0\t0\t0\t11\n"),
        ("12\tFE8\n", "E\t4\t0\t0\t0\t-\n"),
        ("12\tFE9\n", "E\t3\t0\t0\t0\t4\n"),
        ("16\tFE91\n", "E\t3\t0\t0\t0\t20\n"),
        ("16\tFE93\n", "E\t3\t0\t0\t0\t12\n"),
        ("16\tFE9A\n", "E\t3\t0\t0\t0\t1\n"),
        ("16\tFE9C\n", "E\t5\t0\t0\t0\t-\n"),
        ("22\tFE9A0C\n", "E\t3\t0\t0\t0\t160\n"),
    ];
    for (line, end) in ends {
        group.same(line, listed(line.as_bytes()).as_str(), end);
    }
    let mask = "M\t0\t114\t1\t100\t5\t0\t3\t1\t-\t-\t0\n";
    let first = |bits: usize| format!("{bits}\t{}\n", &LISTING_HEX[..bits / 4]);
    let cut = |bits: usize| listed(first(bits).as_bytes());
    group.same("180 bits", cut(180), format!("{mask}E\t3\t114\t1\t0\t1\n"));
    group.same("152 bits", cut(152), format!("{mask}E\t3\t114\t1\t0\t29\n"));
    group.same("116 bits", cut(116), format!("{mask}E\t3\t114\t1\t0\t10\n"));
    group.same("112 bits", cut(112), "E\t3\t0\t0\t0\t2\n".to_string());
}

/// A bad line changes no holding; a mask stays for the next line.
fn held_from_line_to_line(group: &mut Group) {
    let mask = format!("{LISTING_BITS}\t{LISTING_HEX}\n");
    let clock = "M\t0\t67\t3\t100\t2\t0\t3\t-\t-\t-\t2\n\
                 R\t0\t1\t-\t5\t-\t-\t-\t-\n\
                 R\t0\t3\t-\t-16384\t-\t-\t-\t-\n\
                 E\t0\t67\t1\t2\t-\n";
    group.same("a clock first", listed(CLOCK.as_bytes()).as_str(), "E\t6\t0\t0\t0\t-\n");
    let input = format!("{mask}bad\n{CLOCK}");
    let output = listed(input.as_bytes());
    let expected = format!("{}B\t2\n{clock}", listed(mask.as_bytes()));
    group.same("mask, bad line, clock", output, expected);
}

fn limits(group: &mut Group) {
    let zeros = |bits: usize| format!("{bits}\t{}\n", "0".repeat((bits + 3) / 4));
    group.same("50,850 bits", listed(zeros(50_850).as_bytes()).as_str(), "E\t0\t0\t0\t0\t-\n");
    group.same("50,851 bits", listed(zeros(50_851).as_bytes()).as_str(), "B\t1\n");
    let long = "F".repeat(300_000) + "\n" + "0\t\n";
    group.same("a long bad line", listed(long.as_bytes()).as_str(), "B\t1\nE\t0\t0\t0\t0\t-\n");
}
