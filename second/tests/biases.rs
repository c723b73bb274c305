//! Sub types 6 and 7 bit by bit (document 02, Ask 1): what their messages mean,
//! their lengths, what is refused and when, and what is written. The bits are
//! written out by Tables 4.1.2-19 to 4.1.2-22 of source document 002.

use super::tools::*;
use super::Group;
use crate::codec::answer::{Reason, Stop};
use crate::codec::bits::pack;
use crate::codec::holding::Holding;
use crate::codec::writer::write;

/// Five satellites: GPS 1, 2 and 3 by signal places 0 and 7 with the cells 10 00 11,
/// Galileo 37 by signal place 14, and QZSS 4 without a signal. So GPS 2 and QZSS 4
/// have no cell.
fn holding() -> Holding {
    let cells = [true, false, false, false, true, true];
    adopted(&mask_bits(&[
        (0, first(3, 40), 0x8100, 1, &cells),
        (2, place(36, 40), place(14, 16), 0, &[]),
        (4, place(3, 40), 0, 0, &[]),
    ]))
}

/// The 37 bits of each head: number 4073, sub type, epoch 100, interval 2,
/// indicator 0, IOD SSR 3.
const HEAD_6: &str = "111111101001 0110 000001100100 0010 0 0011";
const HEAD_7: &str = "111111101001 0111 000001100100 0010 0 0011";

/// Bits as they are written out, blanks between the fields.
fn written_out(parts: &[&str]) -> Vec<bool> {
    let digits = parts.iter().flat_map(|part| part.chars());
    digits.filter(|&digit| digit != ' ').map(|digit| digit == '1').collect()
}

/// A message written out, and what it means.
struct Example {
    name: &'static str,
    bits: Vec<bool>,
    length: usize,
    head: [i32; 8],
    rows: Vec<[i32; 8]>,
}

fn examples() -> Vec<Example> {
    let six = |name, parts: &[&str], length, [a, b, c]: [i32; 3], rows: &[[i32; 8]]| Example {
        name,
        bits: written_out(&[&[HEAD_6], parts].concat()),
        length,
        head: [6, 100, 2, 0, 3, a, b, c],
        rows: rows.to_vec(),
    };
    let network = [
        "1 1 1 11111 10100",
        "10000000000 011111111111111 11",
        "00000000101 100000000000000 00",
        "11111111111 111111111111110 10",
    ];
    let network_rows = [
        [0, 1, 0, -1024, 16383, 3, NO, NO],
        [0, 3, 0, 5, -16384, 0, NO, NO],
        [0, 3, 7, -1, -2, 2, NO, NO],
    ];
    let all = ["1 0 0", "01111111111 00000000000", "11111111110 00000000001"];
    let all_rows = [
        [0, 1, 0, 1023, NO, NO, NO, NO],
        [0, 3, 0, 0, NO, NO, NO, NO],
        [0, 3, 7, -2, NO, NO, NO, NO],
        [2, 37, 14, 1, NO, NO, NO, NO],
    ];
    let phase = ["0 1 1 00001 00010", "000000000000111 01"];
    let phase_row = [2, 37, 14, NO, 7, 1, NO, NO];
    let bare = |system, satellite, signal| [system, satellite, signal, NO, NO, NO, NO, NO];
    let bare_rows = [bare(0, 3, 0), bare(0, 3, 7), bare(2, 37, 14)];
    let both = 11 + 15 + 2;
    vec![
        six("6: both, network", &network, 40 + 5 + 5 + 3 * both, [1, 1, 31], &network_rows),
        six("6: code, no network", &all, 40 + 4 * 11, [1, 0, NO], &all_rows),
        six("6: phase, network", &phase, 40 + 5 + 5 + 17, [0, 1, 1], &[phase_row]),
        six("6: neither, network", &["0 0 1 10000 00110"], 50, [0, 0, 16], &bare_rows),
        six("6: nothing selected", &["1 1 1 00001 00000"], 50, [1, 1, 1], &[]),
        Example {
            name: "7",
            bits: written_out(&[HEAD_7, "000000 111111 100000 000111 111000"]),
            length: 37 + 5 * 6,
            head: [7, 100, 2, 0, 3, NO, NO, NO],
            rows: [(0, 1, 0), (0, 2, 63), (0, 3, 32), (2, 37, 7), (4, 4, 56)]
                .map(|(system, satellite, ura)| [system, satellite, NO, ura, NO, NO, NO, NO])
                .to_vec(),
        },
    ]
}

/// Each example is read as it is meant, and written from that to its very bits.
pub fn layouts(group: &mut Group) {
    for Example { name, bits, length, head, rows } in examples() {
        group.same(name, bits.len(), length);
        let found = message(&holding(), &bits);
        let found = found.map(|(message, rows)| (message.next, message.head, rows));
        let lists = rows.iter().map(|row| row.to_vec()).collect();
        group.same(name, found, Some((length, head, lists)));
        group.same(name, sent(&holding(), &head, &rows), Ok(pack(&bits)));
        for cut in 1..length {
            let short = matches!(reading(&holding(), &bits[..cut]), Err(Stop { number: 3, .. }));
            group.check("each part of it is short", short);
        }
    }
}

/// What the writer makes of head and rows, or its refusal.
fn sent(holding: &Holding, head: &[i32; 8], rows: &[[i32; 8]]) -> Result<Vec<u8>, u8> {
    let mut bytes = [0; 40];
    let answer = write(holding, head, &rows.concat(), rows.len(), &mut bytes, 0);
    let length = answer.map_err(|stop| stop.number)?;
    Ok(bytes[..(length + 7) / 8].to_vec())
}

/// What is refused, in the order of the fields; how many bits are missing with 3.
pub fn refusals(group: &mut Group) {
    let found = |parts: &[&str]| {
        let bits = written_out(&[&[HEAD_6], parts].concat());
        reading(&holding(), &bits).map(|message| message.next)
    };
    let short = |missing| Err(Reason::Short(missing).at(0));
    let network = Err(Stop::plain(11, 0));
    group.same("code flag", found(&[]), short(1));
    group.same("phase flag", found(&["1"]), short(1));
    group.same("network flag", found(&["1 1"]), short(1));
    group.same("body of all", found(&["1 1 0"]), short(4 * 28));
    group.same("network ID", found(&["1 1 1"]), short(5));
    group.same("network ID's last bit", found(&["1 1 1 0000"]), short(1));
    group.same("network 0, before the selection", found(&["1 1 1 00000"]), network);
    group.same("selection", found(&["1 1 1 00001"]), short(5));
    group.same("selection's last bit", found(&["1 1 1 00001 0100"]), short(1));
    group.same("body", found(&["1 1 1 00001 10100"]), short(3 * 28));
    group.same("body's last bit", found(&["0 1 1 00001 10000", "0000000000000000"]), short(1));
    for selection in ["01000", "00001", "01001", "11111", "11000", "10101"] {
        for flags in ["0 0", "0 1", "1 0", "1 1"] {
            let head = [flags, "1 00001", selection];
            group.same("no cell, before the body", found(&head), network);
            let body = "1".repeat(200);
            group.same("no cell", found(&[&head[..], &[&body]].concat()), network);
        }
    }
    without_cells(group);
    issues(group);
}

/// Without a network a satellite without a cell has no row, and is not refused; nor
/// is it in sub type 11's selection.
fn without_cells(group: &mut Group) {
    let bare = held(&[(0, first(2, 40), 0)]);
    let at = |parts: &[&str]| reading(&bare, &written_out(&[&[HEAD_6], parts].concat()));
    let next = |parts: &[&str]| at(parts).map(|message| (message.next, message.rows));
    group.same("no cells, no network", next(&["1 1 0"]), Ok((40, 0)));
    group.same("no cells, none selected", next(&["1 1 1 00001 00"]), Ok((47, 0)));
    for selection in ["01", "10", "11"] {
        let refused = next(&["1 1 1 00001", selection]);
        group.same("no cells, selected", refused, Err(Stop::plain(11, 0)));
    }
    let none = written_out(&[HEAD_6, "1 1 1 00001"]);
    group.same("no satellites", length(&held(&[]), &none), Some(45));
    let mut combined = head_bits(11, 3);
    combined.extend(written_out(&["0 0 1 00001 01001"]));
    group.same("sub type 11", length(&holding(), &combined), Some(50));
}

fn issues(group: &mut Group) {
    for sub_type in [6, 7] {
        group.same("6", stop(&Holding::Empty, &head_bits(sub_type, 3)), Some(6));
        group.same("7", stop(&holding(), &head_bits(sub_type, 4)), Some(7));
        let cut = &head_bits(sub_type, 4)[..36];
        group.same("3 before 7", reading(&holding(), cut).err(), Some(Reason::Short(1).at(0)));
    }
    let ura = reading(&holding(), &head_bits(7, 3)).err();
    group.same("7: body", ura, Some(Reason::Short(30).at(0)));
}

/// What is written: the rows tell the selection, and nothing else is taken.
pub fn writes(group: &mut Group) {
    let row = |(system, satellite, signal): (i32, i32, i32)| {
        [system, satellite, signal, 1, 2, 3, NO, NO]
    };
    let length = |c: i32, cells: &[(i32, i32, i32)]| {
        let rows: Vec<[i32; 8]> = cells.iter().map(|&cell| row(cell)).collect();
        let head = [6, 100, 2, 0, 3, 1, 1, c];
        write(&holding(), &head, &rows.concat(), rows.len(), &mut [0; 40], 0)
            .map_err(|stop| stop.number)
    };
    let (one, two, three, galileo) = ((0, 1, 0), (0, 3, 0), (0, 3, 7), (2, 37, 14));
    let all = [one, two, three, galileo];
    group.same("all, no network", length(NO, &all), Ok(40 + 4 * 28));
    group.same("all, network", length(1, &all), Ok(50 + 4 * 28));
    group.same("some", length(31, &[two, three]), Ok(50 + 2 * 28));
    group.same("none", length(1, &[]), Ok(50));
    group.same("11: c = 0", length(0, &all), Err(11));
    group.same("11: c = 0, no rows", length(0, &[]), Err(11));
    group.same("11: c = 0, a satellite without a cell", length(0, &[(0, 2, 0)]), Err(11));
    group.same("12: c = 32", length(32, &all), Err(12));
    group.same("12: c = -1", length(-1, &all), Err(12));
    for c in [1, NO] {
        let wrong: [(&str, &[(i32, i32, i32)]); 11] = [
            ("a cell missing", &[one, two, galileo]),
            ("the first cell missing", &[one, three, galileo]),
            ("cells swapped", &[one, three, two, galileo]),
            ("satellites swapped", &[two, three, one, galileo]),
            ("systems swapped", &[galileo, one, two, three]),
            ("a cell twice", &[one, one, two, three, galileo]),
            ("a satellite twice", &[one, two, three, two, three, galileo]),
            ("no cell of the satellite", &[one, (0, 1, 7), two, three, galileo]),
            ("a satellite without a cell", &[one, (0, 2, 0), two, three, galileo]),
            ("a satellite without a signal", &[one, two, three, galileo, (4, 4, NO)]),
            ("a satellite outside the mask", &[one, two, three, (0, 4, 0), galileo]),
        ];
        for (name, cells) in wrong {
            group.same(name, length(c, cells), Err(12));
        }
    }
    group.same("12: some, no network", length(NO, &[two, three]), Err(12));
    group.same("12: none, no network", length(NO, &[]), Err(12));
    group.same("12: a satellite without a cell alone", length(1, &[(0, 2, 0)]), Err(12));
    single_values(group);
}

/// A value where its flag is 0, none where it is 1, or a head that sub type 7 has not.
fn single_values(group: &mut Group) {
    for (a, b, values) in [(0, 1, [1, 2, 3]), (1, 0, [1, 2, NO]), (1, 0, [1, NO, 3])] {
        let [v1, v2, v3] = values;
        let row = [2, 37, 14, v1, v2, v3, NO, NO];
        let head = [6, 100, 2, 0, 3, a, b, 1];
        group.same("12: a value for flag 0", sent(&holding(), &head, &[row]), Err(12));
    }
    for values in [[NO, 2, 3], [1, NO, 3], [1, 2, NO]] {
        let [v1, v2, v3] = values;
        let row = [2, 37, 14, v1, v2, v3, NO, NO];
        let head = [6, 100, 2, 0, 3, 1, 1, 1];
        group.same("12: no value for flag 1", sent(&holding(), &head, &[row]), Err(12));
    }
    let one = held(&[(0, first(1, 40), 0)]);
    let ura = |head: [i32; 3], value| {
        let [a, b, c] = head;
        sent(&one, &[7, 100, 2, 0, 3, a, b, c], &[[0, 1, NO, value, NO, NO, NO, NO]]).err()
    };
    for value in 0..64 {
        group.same("7: each URA", ura([NO; 3], value), None);
    }
    for value in [-1, 64, NO, NO - 1, i32::MAX] {
        group.same("7: 12 past an end", ura([NO; 3], value), Some(12));
    }
    for head in [[0, NO, NO], [NO, 0, NO], [NO, NO, 0], [NO, NO, 1]] {
        group.same("7: 12, and not 11, for a, b or c", ura(head, 5), Some(12));
    }
}
