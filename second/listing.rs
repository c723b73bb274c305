//! The listing program (document 01, "Saved mask and listing"; document 02, Ask 7
//! for the last field of its E lines).

use std::io::{self, BufRead, Write};

use super::answer::{Stop, SHORT};
use super::bits::pack;
use super::holding::Holding;
use super::reader::Message;
use super::text::{decimal, hex_bits};
use super::walk::{walk, Walk};
use super::{ABSENT, COLUMNS, ROW_ROOM, STRETCH_BITS};

/// Lists every line of the input, holding the mask from line to line, and gives
/// the holding after the last.
pub fn listing(input: &mut impl BufRead, output: &mut impl Write) -> io::Result<Holding> {
    let mut holding = Holding::Empty;
    let mut rows = vec![0; ROW_ROOM];
    let mut line = Vec::new();
    for number in 1.. {
        line.clear();
        if input.read_until(b'\n', &mut line)? == 0 {
            break;
        }
        match parse(&line) {
            Some((bytes, bit_length)) => {
                let (text, after) = stretch(&holding, &bytes, bit_length, &mut rows);
                output.write_all(text.as_bytes())?;
                holding = after;
            }
            None => writeln!(output, "B\t{number}")?,
        }
    }
    Ok(holding)
}

/// Bytes and bit length of a good line: bit count, tab, a quarter as many hex
/// digits rounded up with spare bits zero, line feed.
pub fn parse(line: &[u8]) -> Option<(Vec<u8>, usize)> {
    let line = line.strip_suffix(b"\n")?;
    let tab = line.iter().position(|&byte| byte == b'\t')?;
    let bit_length = decimal(&line[..tab])?;
    let digits = &line[tab + 1..];
    if bit_length > STRETCH_BITS || digits.len() != (bit_length + 3) / 4 {
        return None;
    }
    let bits = hex_bits(digits)?;
    if bits[bit_length..].contains(&true) {
        return None;
    }
    Some((pack(&bits), bit_length))
}

/// The lines of one stretch, and the holding after it.
fn stretch(
    holding: &Holding,
    bytes: &[u8],
    bit_length: usize,
    rows: &mut [i32],
) -> (String, Holding) {
    let mut text = String::new();
    let walk = walk(holding, bytes, bit_length, rows, |place, message, rows| {
        text.push_str(&message_text(place, message, rows));
    });
    text.push_str(&end_text(&walk));
    (text, walk.holding)
}

/// E: stop number, place, messages, rows, and last how many bits were missing,
/// "`-` for every other stop" than 3 (document 02, Ask 7).
fn end_text(walk: &Walk) -> String {
    let Stop { number, place, missing } = walk.stop;
    let missing = if number == SHORT { missing.to_string() } else { "-".to_string() };
    format!("E\t{number}\t{place}\t{}\t{}\t{missing}\n", walk.messages, walk.rows)
}

/// M: place, length, the head, row count. R: each row.
fn message_text(place: usize, message: &Message, rows: &[i32]) -> String {
    let length = message.next - place;
    let head = columns(&message.head);
    let mut text = format!("M\t{place}\t{length}{head}\t{}\n", message.rows);
    for row in rows.chunks_exact(COLUMNS).take(message.rows) {
        text.push_str(&format!("R{}\n", columns(row)));
    }
    text
}

fn columns(numbers: &[i32]) -> String {
    let column = |&number: &i32| match number {
        ABSENT => "\t-".to_string(),
        _ => format!("\t{number}"),
    };
    numbers.iter().map(column).collect()
}
