//! The tests: one line for each group of cases, and last `N passed, M failed`.

mod bench;
mod biases;
mod changed;
mod changed_cases;
mod columns;
mod coverage;
mod hand;
mod host;
mod listing;
mod missing;
mod missing_cases;
mod reader;
mod rounds;
mod saved;
mod streams;
mod texts;
mod tools;
mod walks;
mod writer;
mod writes;

use std::process::ExitCode;

/// Counts the checks of one group and names each one that fails.
pub struct Group {
    name: &'static str,
    passed: usize,
    failed: usize,
}

/// Failures named for each group; the rest is only counted.
const NAMED: usize = 5;

impl Group {
    pub fn check(&mut self, what: &str, good: bool) {
        if good {
            self.passed += 1;
            return;
        }
        self.failed += 1;
        if self.failed <= NAMED {
            println!("FAILED {}: {what}", self.name);
        }
    }

    /// Checks that what was found is what was expected.
    pub fn same<T: PartialEq + std::fmt::Debug>(&mut self, what: &str, found: T, expected: T) {
        let good = found == expected;
        if !good && self.failed < NAMED {
            println!("found {found:?}\nexpected {expected:?}");
        }
        self.check(what, good);
    }
}

const GROUPS: [(&str, fn(&mut Group)); 42] = [
    ("bench 1 the worked listing", bench::worked_listing),
    ("bench 1 to 4 and Ask 2 stretches", bench::stretches),
    ("bench 5 to 14, Ask 1 and Ask 2 readings", bench::readings),
    ("reader: each answer number", reader::numbers),
    ("reader: order of refusals", reader::order),
    ("reader: messages by hand", hand::messages),
    ("biases and URA: layouts", biases::layouts),
    ("biases and URA: refusals", biases::refusals),
    ("biases and URA: writes", biases::writes),
    ("changed masks: readings by hand", changed::readings),
    ("changed masks: host's bytes by hand", changed::host_bytes),
    ("changed masks: walks by hand", changed::walks),
    ("changed masks: listings by hand", changed::listings),
    ("changed masks: single changes", changed_cases::single_changes),
    ("changed masks: generated cases", changed_cases::random),
    ("missing bits: by hand", missing::by_hand),
    ("missing bits: drawn messages cut", missing::drawn),
    ("missing bits: fixed cases", missing_cases::fixed),
    ("missing bits: generated cases", missing_cases::random),
    ("host: encodings by hand", host::by_hand),
    ("host: what a good mask message makes", host::good_masks),
    ("host: readings", host::readings),
    ("writer: each answer number", writer::numbers),
    ("writer: order of refusals", writer::order),
    ("writer: every column's range", columns::ranges),
    ("host: writes by hand", writes::by_hand),
    ("generated writes", writes::random),
    ("generated writes: single changes", writes::changed),
    ("rounds: drawn, read and written", rounds::drawn),
    ("rounds: generated readings", rounds::generated),
    ("rounds: read, written and read again", writes::round_trips),
    ("walks: repeated readings", walks::generated),
    ("saved form", saved::lines),
    ("listing program", listing::lines),
    ("host: lines", texts::by_hand),
    ("generated lines", texts::lines),
    ("generated inputs of the listing", texts::inputs),
    ("streams: what the readings cover", coverage::readings),
    ("streams: sub types 6 and 7 refused", coverage::refused),
    ("streams: changed masks", coverage::changed),
    ("streams: every answer number often", streams::answers),
    ("streams: their formats", streams::formats),
];

pub fn run() -> ExitCode {
    let (mut passed, mut failed) = (0, 0);
    for (name, test) in GROUPS {
        let mut group = Group { name, passed: 0, failed: 0 };
        test(&mut group);
        println!("{name}: {} passed, {} failed", group.passed, group.failed);
        passed += group.passed;
        failed += group.failed;
    }
    println!("{passed} passed, {failed} failed");
    if failed == 0 {
        ExitCode::SUCCESS
    } else {
        ExitCode::FAILURE
    }
}
