//! The 14 bench cases of document 01 with what it says of each, and those of sub
//! types 6 and 7 and of changed masks with what document 02, Asks 1 and 2, says.

use super::tools::*;
use super::Group;
use crate::codec::answer::CHANGED_MASK;
use crate::codec::bits::pack;
use crate::codec::generate::bench;
use crate::codec::holding::Holding;
use crate::codec::listing::listing;
use crate::codec::saved::save;
use crate::codec::walk::{walk, Walk};

const LISTED: &str = "\
M\t0\t114\t1\t100\t5\t0\t3\t1\t-\t-\t0
M\t114\t67\t3\t100\t2\t0\t3\t-\t-\t-\t2
R\t0\t1\t-\t5\t-\t-\t-\t-
R\t0\t3\t-\t-16384\t-\t-\t-\t-
E\t0\t181\t2\t2\t-
";

fn walked(bits: &[bool]) -> Walk {
    walk(&Holding::Empty, &pack(bits), bits.len(), &mut row_buffer(), |_, _, _| {})
}

/// Case 1: its output, its walk, and the saved mask after it.
pub fn worked_listing(group: &mut Group) {
    let input = format!("{LISTING_BITS}\t{LISTING_HEX}\n");
    let mut output = Vec::new();
    let listed = listing(&mut input.as_bytes(), &mut output);
    group.check("the listing runs", listed.is_ok());
    group.same("the whole output", String::from_utf8_lossy(&output).as_ref(), LISTED);
    let walk = walked(&listing_bits());
    group.same("messages and rows", (walk.messages, walk.rows), (2, 2));
    let mut line = [b'?'; 40];
    let expected = b"S\t3\t0\tA000000000\t8100\t1\tB\n";
    group.same("saved length", save(&walk.holding, &mut line), Ok(expected.len()));
    group.same("saved line", &line[..expected.len()], &expected[..]);
    group.check("later bytes stay", line[expected.len()..].iter().all(|&byte| byte == b'?'));
}

/// Cases 1 to 4, and those of changed masks; a mask before a refusal stays, but not
/// before 13.
pub fn stretches(group: &mut Group) {
    for case in bench::stretches() {
        let walk = walked(&case.bits);
        group.same(case.name, walk.stop, case.stop);
        let adopted = walk.holding != Holding::Empty;
        let expected = case.stop.place >= 114 && case.stop.number != CHANGED_MASK;
        group.same("the mask before the stop", adopted, expected);
    }
}

/// Cases 5 to 14, and those of document 02.
pub fn readings(group: &mut Group) {
    for case in bench::readings() {
        let found = reading(&case.holding, &case.bits);
        let found = found.map(|message| message.next);
        group.same(case.name, found, case.expected.map_err(|reason| reason.at(0)));
    }
    let no_systems = adopted(&mask_bits(&[]));
    group.same("5: the mask of no systems", no_systems, held(&[]));
}
