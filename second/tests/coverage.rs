//! What the random readings must hold among them: every alignment, sub type,
//! system and flag, the house limits, the extremes of fields, every kind of
//! selection (document 01), and all lengths lent (docs/HOST.md); and how often sub
//! types 6 and 7 are refused for each field (document 02, Ask 1), and masks for each
//! kind of change (Ask 2).

use std::cmp::Ordering;
use std::io::sink;

use super::tools::Seen;
use super::Group;
use crate::codec::answer::{CHANGED_MASK, NETWORK, SHORT};
use crate::codec::difference::KINDS;
use crate::codec::emit::{emit_read, emit_stretch, emit_walk, Answers, Refused};
use crate::codec::generate::{filled, single, Case};
use crate::codec::holding::{Holding, Mask};
use crate::codec::host::{decode, read, Answer, HOLDING_BYTES, MESSAGE};
use crate::codec::random::Random;
use crate::codec::{ABSENT, COLUMNS, ROW_ROOM};

const CASES: usize = 30_000;
const OFTEN: usize = 20;

/// A fifth of the readings and stretches that a comparison is made with, 300,000 and
/// 22,000 of seed 1, and of the 1,000 refusals for each field that these must have.
const READ: usize = 60_000;
const STRETCHES: usize = 4_400;
const REFUSED: usize = 200;

pub fn readings(group: &mut Group) {
    let mut random = Random::new(12);
    let mut seen = Seen::default();
    for _ in 0..CASES {
        let case = single::case(&mut random);
        let mut holding = case.holding.clone();
        let mut rows = filled(case.fill, case.room);
        let answer = read(&mut holding, &case.bytes, case.bit_length, case.start, &mut rows);
        note_lent(&mut seen, &case);
        if answer.number == MESSAGE {
            note_message(&mut seen, &answer, &decode(&holding), &rows);
        }
    }
    seen.check_often(group, &wanted(), OFTEN);
}

fn wanted() -> Vec<String> {
    let mut all: Vec<String> = (0..8).map(|bit| format!("alignment {bit}")).collect();
    all.extend([1, 2, 3, 4, 5, 6, 7, 10, 11].map(|sub_type| format!("sub type {sub_type}")));
    for sub_type in [6, 11] {
        all.extend(["00", "01", "10", "11"].map(|flags| format!("{sub_type}: flags {flags}")));
        all.extend(["none", "some", "all"].map(|some| format!("{sub_type}: {some} selected")));
    }
    for id in 0..5 {
        all.extend([0, 1].map(|flag| format!("system {id} flag {flag}")));
        all.extend(["satellites", "signals"].map(|what| format!("system {id} without {what}")));
    }
    for what in ["holding", "room"] {
        all.extend([Ordering::Less, Ordering::Equal, Ordering::Greater].map(|by| length(what, by)));
    }
    let more = [
        "0 systems",
        "5 systems",
        "64 satellites",
        "256 cells",
        "hourly epoch over 3599",
        "epoch over 604799",
        "count -16384",
        "count -4096",
        "count -1024",
        "URA 0",
        "URA 63",
        "6: a satellite without a cell, network",
        "6: a satellite without a cell, no network",
    ];
    all.extend(more.map(str::to_string));
    all
}

fn length(what: &str, than_needed: Ordering) -> String {
    format!("length of {what}: {than_needed:?}")
}

fn note_lent(seen: &mut Seen, case: &Case) {
    seen.note(format!("alignment {}", case.start % 8));
    seen.note(length("holding", case.holding.len().cmp(&HOLDING_BYTES)));
    seen.note(length("room", case.room.cmp(&ROW_ROOM)));
}

fn note_message(seen: &mut Seen, answer: &Answer, holding: &Holding, rows: &[i32]) {
    let [sub_type, epoch, ..] = answer.head;
    seen.note(format!("sub type {sub_type}"));
    seen.note_if(sub_type != 1 && epoch > 3_599, "hourly epoch over 3599");
    seen.note_if(sub_type == 1 && epoch > 604_799, "epoch over 604799");
    for count in [-16_384, -4_096, -1_024] {
        let carried = rows[..answer.rows * COLUMNS].contains(&count);
        seen.note_if(carried, &format!("count {count}"));
    }
    if let Holding::Held(mask) = holding {
        match sub_type {
            1 => note_mask(seen, mask),
            6 | 11 => note_selection(seen, answer, mask),
            7 => {
                let uras = rows[..answer.rows * COLUMNS].iter().skip(3).step_by(COLUMNS);
                uras.for_each(|ura| seen.note(format!("URA {ura}")));
            }
            _ => {}
        }
    }
}

fn note_mask(seen: &mut Seen, mask: &Mask) {
    seen.note(format!("{} systems", mask.systems.len()));
    seen.note(format!("{} satellites", mask.satellites().len()));
    seen.note(format!("{} cells", mask.cells().len()));
    for system in &mask.systems {
        let id = system.id;
        seen.note(format!("system {id} flag {}", u8::from(system.cells.is_some())));
        seen.note_if(system.satellites == 0, &format!("system {id} without satellites"));
        seen.note_if(system.signals == 0, &format!("system {id} without signals"));
    }
}

/// Sub types 6 and 11: the flags, and how many of all rows a network selects.
fn note_selection(seen: &mut Seen, answer: &Answer, mask: &Mask) {
    let [sub_type, _, _, _, _, a, b, network] = answer.head;
    seen.note(format!("{sub_type}: flags {a}{b}"));
    let name = if network == ABSENT { "no network" } else { "network" };
    let bare = sub_type == 6 && answer.rows > 0 && !mask.bare_satellites().is_empty();
    seen.note_if(bare, &format!("6: a satellite without a cell, {name}"));
    let all = if sub_type == 6 { mask.cells().len() } else { mask.satellites().len() };
    let some = match answer.rows {
        _ if all == 0 || network == ABSENT => return,
        0 => "none",
        rows if rows == all => "all",
        _ => "some",
    };
    seen.note(format!("{sub_type}: {some} selected"));
}

/// Sub types 6 and 7 are refused for each field often: with 3, with 11 for network
/// 0, and with 11 for a satellite without a cell, also right at the stretch's end.
pub fn refused(group: &mut Group) {
    let read = emit_read(&mut sink(), 1, READ).unwrap_or_default().fields;
    let stretches = emit_stretch(&mut sink(), 1, STRETCHES).unwrap_or_default().fields;
    let opening = ["epoch", "interval", "indicator", "IOD SSR", "body"];
    let flags = ["code flag", "phase flag", "network flag", "network ID", "selection"];
    let of = |sub_type: usize, number: u8, names: &[&str]| -> Vec<(u8, String)> {
        names.iter().map(|name| (number, format!("{sub_type}: {name}"))).collect()
    };
    let short = [of(6, SHORT, &opening), of(6, SHORT, &flags), of(7, SHORT, &opening)];
    let network = of(6, NETWORK, &["network ID", "selection", "selection at the end"]);
    for field in short.into_iter().flatten().chain(network) {
        let times = |fields: &Refused| fields.get(&field).copied().unwrap_or(0);
        let often = times(&read) + times(&stretches);
        let (number, name) = &field;
        group.check(&format!("{number} at {name}, {often} times"), often >= REFUSED);
    }
}

/// A fifth of what a comparison of walks is made with, 50,000 of seed 1.
const WALKS: usize = 10_000;

/// Masks are refused with 13 for each kind of change often, in the readings and, taken
/// together, in stretches and walks; each 13 is of a kind.
pub fn changed(group: &mut Group) {
    let read = emit_read(&mut sink(), 1, READ).unwrap_or_default();
    let stretches = emit_stretch(&mut sink(), 1, STRETCHES).unwrap_or_default();
    let walks = emit_walk(&mut sink(), 1, WALKS).unwrap_or_default();
    let dropped = |answers: &Answers| answers.stops[usize::from(CHANGED_MASK)];
    for answers in [&read, &stretches, &walks] {
        group.same("each of a kind", answers.changed.values().sum(), dropped(answers));
    }
    let (single, whole) = (dropped(&read), dropped(&stretches) + dropped(&walks));
    group.check(&format!("readings: 13, {single} times"), single >= 2_000 / 5);
    group.check(&format!("stretches and walks: 13, {whole} times"), whole >= 2_000 / 5);
    for (name, _) in KINDS {
        let times = |answers: &Answers| answers.changed.get(name).copied().unwrap_or(0);
        let (single, whole) = (times(&read), times(&stretches) + times(&walks));
        group.check(&format!("readings: 13 by {name}, {single} times"), single >= REFUSED);
        let what = format!("stretches and walks: 13 by {name}, {whole} times");
        group.check(&what, whole >= REFUSED / 5);
    }
}
