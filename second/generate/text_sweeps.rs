//! Sweeps over saving, loading and lines of the listing's input: holdings
//! damaged at every bit, lines with every byte at every place, all short lines,
//! all small numbers, every room.

use super::super::holding::{Holding, SATELLITE_BITS, SIGNAL_BITS};
use super::super::host::{put, HOLDING_BYTES};
use super::super::random::Random;
use super::super::STRETCH_BITS;
use super::edits::CHARACTERS;
use super::hand::{first, listing_bits, place};
use super::texts::{Text, LINE_ROOM};
use super::{input_lines, masks, saved_lines, sweeps};

/// Document 01's worked listing: the saved mask after it.
const WORKED: &[u8] = b"S\t3\t0\tA000000000\t8100\t1\tB\n";
/// Room for the stretch of a short line.
const SHORT_ROOM: usize = 64;

pub fn savings() -> Vec<Text> {
    let mut random = Random::new(2);
    let mut all = Vec::new();
    let limit = masks::at_limit(&mut random, 0);
    let wide = masks::wide(&mut random);
    for mask in [sweeps::five_systems(), limit, wide] {
        all.extend(savings_of(&Holding::Held(mask)));
    }
    all.extend(savings_of(&Holding::Empty));
    all
}

/// Each bit of the holding damaged, each length of it, and each room.
fn savings_of(holding: &Holding) -> Vec<Text> {
    let mut lent = vec![0; HOLDING_BYTES];
    put(holding, &mut lent);
    let saving = |holding: Vec<u8>, room| Text { holding, ..text("sweep of savings", &[], room) };
    let mut all = Vec::new();
    for bit in 0..8 * HOLDING_BYTES {
        let mut damaged = lent.clone();
        damaged[bit / 8] ^= 1 << (bit % 8);
        all.push(saving(damaged, LINE_ROOM));
    }
    for length in 0..HOLDING_BYTES + 66 {
        let mut resized = lent.clone();
        resized.resize(length, 0xFF);
        all.push(saving(resized, LINE_ROOM));
    }
    let length = saved_lines::good(holding).len();
    all.extend((0..length + 9).map(|room| saving(lent.clone(), room)));
    all
}

pub fn loadings() -> Vec<Text> {
    let mut lines = short_lines(b"S\t-\n01a6");
    let five_systems = saved_lines::good(&Holding::Held(sweeps::five_systems()));
    for line in [&b"S\t-\n"[..], WORKED, &five_systems[..]] {
        lines.extend(edited(line));
    }
    lines.extend((0..300).map(|iod| format!("S\t{iod}\n").into_bytes()));
    lines.extend(single_places());
    lines.extend(small_systems());
    lines.iter().map(|line| text("sweep of loadings", line, 0)).collect()
}

/// Each place of each ID, and of some that there aren't.
fn single_places() -> Vec<Vec<u8>> {
    let mut lines = Vec::new();
    for id in 0..8 {
        for at in 0..SATELLITE_BITS {
            let satellites = place(at, SATELLITE_BITS);
            lines.push(format!("S\t0\t{id}\t{satellites:010X}\t0000\t0\t-\n").into_bytes());
        }
        for at in 0..SIGNAL_BITS {
            let signals = place(at, SIGNAL_BITS);
            lines.push(format!("S\t0\t{id}\t0000000000\t{signals:04X}\t1\t-\n").into_bytes());
        }
    }
    lines
}

/// Up to three satellites by three signals with either flag, and each cell mask
/// of up to two digits, more of some.
fn small_systems() -> Vec<Vec<u8>> {
    let mut cells = vec!["-".to_string(), String::new(), "000".to_string(), "800".to_string()];
    cells.extend((0..16).map(|digit| format!("{digit:X}")));
    cells.extend((0..256).map(|digits| format!("{digits:02X}")));
    cells.extend((0..16).map(|digit| format!("FF{digit:X}")));
    let mut lines = Vec::new();
    for satellites in 0..4 {
        for signals in 0..4 {
            let (satellites, signals) = (first(satellites, 40), first(signals, 16));
            for flag in 0..2 {
                let of = |cells: &String| {
                    format!("S\t5\t4\t{satellites:010X}\t{signals:04X}\t{flag}\t{cells}\n")
                };
                lines.extend(cells.iter().map(|cells| of(cells).into_bytes()));
            }
        }
    }
    lines
}

pub fn inputs() -> Vec<Text> {
    let worked = input_lines::good(&listing_bits());
    let mut lines = short_lines(b"0145AFa\t\n");
    lines.extend(edited(&worked));
    for count in 0..18 {
        lines.extend((0..16).map(|digit| format!("{count}\t{digit:X}\n").into_bytes()));
        lines.extend((0..256).map(|digits| format!("{count}\t{digits:02X}\n").into_bytes()));
        lines.extend((0..256).map(|digits| format!("{count}\tF{digits:02X}\n").into_bytes()));
    }
    let mut all: Vec<Text> = lines.iter().map(|line| text(INPUTS, line, SHORT_ROOM)).collect();
    all.extend((0..SHORT_ROOM).map(|room| text(INPUTS, &worked, room)));
    all.extend((0..300).map(|count| zeros(count, SHORT_ROOM)));
    let room = STRETCH_BITS / 8;
    all.extend((STRETCH_BITS - 20..STRETCH_BITS + 20).map(|count| zeros(count, room)));
    all.extend((STRETCH_BITS - 20..STRETCH_BITS + 20).map(|count| zeros(count, room + 1)));
    all
}

const INPUTS: &str = "sweep of inputs";

fn zeros(count: usize, room: usize) -> Text {
    text(INPUTS, &input_lines::good(&vec![false; count]), room)
}

fn text(family: &str, line: &[u8], room: usize) -> Text {
    Text { family: family.to_string(), holding: Vec::new(), line: line.to_vec(), room, fill: 1 }
}

/// All lines of up to five of these characters.
fn short_lines(characters: &[u8]) -> Vec<Vec<u8>> {
    let mut lines = vec![Vec::new()];
    let mut from = 0;
    for _ in 0..5 {
        let to = lines.len();
        for at in from..to {
            let shorter = lines[at].clone();
            lines.extend(characters.iter().map(|&byte| [&shorter[..], &[byte]].concat()));
        }
        from = to;
    }
    lines
}

/// The line itself; every byte at every place; every place dropped, doubled, cut
/// at, and with each character put in there.
fn edited(line: &[u8]) -> Vec<Vec<u8>> {
    let mut lines = vec![line.to_vec()];
    for at in 0..line.len() {
        let (before, after) = line.split_at(at);
        lines.extend((0..=255).map(|byte| [before, &[byte], &after[1..]].concat()));
        lines.push([before, &after[1..]].concat());
        lines.push([before, &after[..1], after].concat());
        lines.push(before.to_vec());
    }
    for at in 0..=line.len() {
        let (before, after) = line.split_at(at);
        lines.extend(CHARACTERS.iter().map(|&byte| [before, &[byte], after].concat()));
    }
    lines
}
