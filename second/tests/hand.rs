//! Messages laid down field by field, with the head and rows that document 01
//! says they mean ("What is handed out", "How trainees break it").

use super::tools::*;
use super::Group;
use crate::codec::bits::pack;
use crate::codec::holding::Holding;
use crate::codec::reader::{raw, read};

/// GPS satellites 1 and 3 and Galileo satellite 37; GPS signal places 0 and 7
/// with the cells 1011, Galileo signal place 14.
fn holding() -> Holding {
    adopted(&mask_bits(&[
        (0, place(0, 40) | place(2, 40), 0x8100, 1, &[true, false, true, true]),
        (2, place(36, 40), place(14, 16), 0, &[]),
    ]))
}

pub fn messages(group: &mut Group) {
    mask(group);
    orbit(group);
    clock(group);
    biases(group);
    combined(group);
    service(group);
    raw_part(group);
}

fn expect(group: &mut Group, what: &str, bits: &[bool], head: [i32; 8], rows: &[[i32; 8]]) {
    let found = message(&holding(), bits);
    let found = found.map(|(message, rows)| (message.next, message.head, rows));
    let rows = rows.iter().map(|row| row.to_vec()).collect();
    group.same(what, found, Some((bits.len(), head, rows)));
}

fn mask(group: &mut Group) {
    let bits = of_issue(4, mask_bits(&[(4, place(9, 40), 0, 1, &[])]));
    expect(group, "mask", &bits, [1, 100, 5, 0, 4, 1, NO, NO], &[]);
    let epoch = fields(&[(4073, 12), (1, 4), (0xFFFFF, 20), (15, 4), (1, 1), (15, 4), (0, 4)]);
    let head = [1, 0xFFFFF, 15, 1, 15, 0, NO, NO];
    expect(group, "greatest mask head", &epoch, head, &[]);
    let flagged = adopted(&mask_bits(&[(0, place(0, 40), 0x8000, 1, &[true])]));
    let plain = adopted(&mask_bits(&[(0, place(0, 40), 0x8000, 0, &[])]));
    group.check("a full cell mask is another mask than none", flagged != plain);
}

fn orbit(group: &mut Group) {
    let mut bits = head_bits(2, 3);
    bits.extend(fields(&[(255, 8), (-16384, 15), (-4096, 13), (4095, 13)]));
    bits.extend(fields(&[(1, 8), (16383, 15), (-1, 13), (1, 13)]));
    bits.extend(fields(&[(1023, 10), (-2, 15), (3, 13), (-4, 13)]));
    let rows = [
        [0, 1, NO, 255, -16384, -4096, 4095, NO],
        [0, 3, NO, 1, 16383, -1, 1, NO],
        [2, 37, NO, 1023, -2, 3, -4, NO],
    ];
    expect(group, "orbit", &bits, [2, 100, 2, 0, 3, NO, NO, NO], &rows);
}

fn clock(group: &mut Group) {
    let mut bits = fields(&[(4073, 12), (3, 4), (4095, 12), (15, 4), (1, 1), (3, 4)]);
    bits.extend(fields(&[(5, 15), (-16384, 15), (16383, 15)]));
    let rows = [
        [0, 1, NO, 5, NO, NO, NO, NO],
        [0, 3, NO, -16384, NO, NO, NO, NO],
        [2, 37, NO, 16383, NO, NO, NO, NO],
    ];
    expect(group, "clock", &bits, [3, 4095, 15, 1, 3, NO, NO, NO], &rows);
}

fn biases(group: &mut Group) {
    let mut bits = head_bits(4, 3);
    bits.extend(fields(&[(-1024, 11), (1023, 11), (-1, 11), (7, 11)]));
    let rows = [
        [0, 1, 0, -1024, NO, NO, NO, NO],
        [0, 3, 0, 1023, NO, NO, NO, NO],
        [0, 3, 7, -1, NO, NO, NO, NO],
        [2, 37, 14, 7, NO, NO, NO, NO],
    ];
    expect(group, "code bias", &bits, [4, 100, 2, 0, 3, NO, NO, NO], &rows);
    let mut bits = head_bits(5, 3);
    bits.extend(fields(&[(-16384, 15), (3, 2), (16383, 15), (0, 2)]));
    bits.extend(fields(&[(-1, 15), (1, 2), (7, 15), (2, 2)]));
    let rows = [
        [0, 1, 0, -16384, 3, NO, NO, NO],
        [0, 3, 0, 16383, 0, NO, NO, NO],
        [0, 3, 7, -1, 1, NO, NO, NO],
        [2, 37, 14, 7, 2, NO, NO, NO],
    ];
    expect(group, "phase bias", &bits, [5, 100, 2, 0, 3, NO, NO, NO], &rows);
}

fn combined(group: &mut Group) {
    let mut bits = head_bits(11, 3);
    bits.extend(fields(&[(1, 1), (1, 1), (1, 1), (31, 5), (0b101, 3)]));
    bits.extend(fields(&[(9, 8), (-5, 15), (6, 13), (-7, 13), (8, 15)]));
    bits.extend(fields(&[(513, 10), (5, 15), (-6, 13), (7, 13), (-8, 15)]));
    let rows = [[0, 1, NO, 9, -5, 6, -7, 8], [2, 37, NO, 513, 5, -6, 7, -8]];
    expect(group, "orbit, clock, network", &bits, [11, 100, 2, 0, 3, 1, 1, 31], &rows);

    let mut bits = head_bits(11, 3);
    bits.extend(fields(&[(0, 1), (1, 1), (0, 1), (1, 15), (2, 15), (3, 15)]));
    let rows = [
        [0, 1, NO, NO, NO, NO, NO, 1],
        [0, 3, NO, NO, NO, NO, NO, 2],
        [2, 37, NO, NO, NO, NO, NO, 3],
    ];
    expect(group, "clock alone", &bits, [11, 100, 2, 0, 3, 0, 1, NO], &rows);

    let mut bits = head_bits(11, 3);
    bits.extend(fields(&[(0, 1), (0, 1), (0, 1)]));
    let bare = |system, satellite| [system, satellite, NO, NO, NO, NO, NO, NO];
    let rows = [bare(0, 1), bare(0, 3), bare(2, 37)];
    expect(group, "neither flag", &bits, [11, 100, 2, 0, 3, 0, 0, NO], &rows);

    let mut bits = head_bits(11, 3);
    bits.extend(fields(&[(1, 1), (0, 1), (1, 1), (1, 5), (0, 3)]));
    expect(group, "nothing selected", &bits, [11, 100, 2, 0, 3, 1, 0, 1], &[]);
}

fn service(group: &mut Group) {
    let mut bits = fields(&[(4073, 12), (10, 4), (1, 1), (7, 3), (1, 2)]);
    for byte in [0, 1, 127, 128, 255, 9, 8, 7, 6, 5] {
        bits.extend(fields(&[(byte, 8)]));
    }
    let rows = [[NO, NO, 1, 0, 1, 127, 128, 255], [NO, NO, 2, 9, 8, 7, 6, 5]];
    expect(group, "service", &bits, [10, NO, NO, 1, NO, 7, 1, NO], &rows);
}

/// From the byte with the first bit to the byte with the last.
fn raw_part(group: &mut Group) {
    for (start, expected) in [(0, 0..5), (3, 0..5), (4, 0..6), (7, 0..6), (8, 1..6), (13, 1..7)] {
        let mut bits = vec![true; start];
        bits.extend(head_bits(3, 3));
        bits.resize(start + 60, true);
        let found = read(&held(&[]), &pack(&bits), bits.len(), start, &mut row_buffer());
        group.same("raw part", raw(&found), expected);
    }
    let refused = reading(&Holding::Empty, &head_bits(3, 3));
    group.same("raw part of a refusal", raw(&refused), 0..0);
}
