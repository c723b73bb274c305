//! The saved form of the holding, one line (document 01, "Saved mask and listing").

use super::answer::{Stop, ROOM, VALUE};
use super::bits::number;
use super::holding::{Holding, Mask, System};
use super::text::{decimal, hex, hex_bits};

/// Writes the line from the buffer's first byte on and answers its length;
/// later bytes stay. "12 comes before 1."
pub fn save(holding: &Holding, buffer: &mut [u8]) -> Result<usize, Stop> {
    let line = line(holding).ok_or(Stop::plain(VALUE, 0))?;
    let lent = buffer.get_mut(..line.len()).ok_or(Stop::plain(ROOM, 0))?;
    lent.copy_from_slice(line.as_bytes());
    Ok(line.len())
}

/// The holding that a line stands for; otherwise 12, "the empty holding beside it".
/// The line is looked at loosely: one that the form can't produce differs from
/// the line that the holding found would be saved as.
pub fn load(text: &[u8]) -> (Result<(), Stop>, Holding) {
    match parse(text) {
        Some(holding) if line(&holding).map_or(false, |line| line.as_bytes() == text) => {
            (Ok(()), holding)
        }
        _ => (Err(Stop::plain(VALUE, 0)), Holding::Empty),
    }
}

/// The line of a holding that is empty or good.
fn line(holding: &Holding) -> Option<String> {
    match holding {
        Holding::Empty => Some("S\t-\n".to_string()),
        Holding::Held(mask) => {
            let systems: String = mask.systems.iter().map(system_text).collect();
            Some(format!("S\t{}{systems}\n", mask.iod))
        }
        Holding::Nonsense => None,
    }
}

fn system_text(system: &System) -> String {
    let cells = match &system.cells {
        Some(cells) if !cells.is_empty() => hex(cells),
        _ => "-".to_string(),
    };
    let flag = u8::from(system.cells.is_some());
    format!("\t{}\t{:010X}\t{:04X}\t{flag}\t{cells}", system.id, system.satellites, system.signals)
}

fn parse(text: &[u8]) -> Option<Holding> {
    let fields: Vec<&[u8]> = text.strip_suffix(b"\n")?.split(|&byte| byte == b'\t').collect();
    let (first, systems) = fields.get(1..)?.split_first()?;
    if *first == b"-" {
        return Some(Holding::Empty);
    }
    let iod = u8::try_from(decimal(first)?).ok()?;
    let systems = systems.chunks(5).map(parse_system).collect::<Option<Vec<System>>>()?;
    let mask = Mask { iod, systems };
    mask.is_good().then_some(Holding::Held(mask))
}

fn parse_system(fields: &[&[u8]]) -> Option<System> {
    let (id, satellites, signals, flag, cells) = match fields {
        [id, satellites, signals, flag, cells] => (id, satellites, signals, flag, cells),
        _ => return None,
    };
    let mut system = System {
        id: u8::try_from(decimal(id)?).ok()?,
        satellites: parse_mask(satellites, 10)?,
        signals: parse_mask(signals, 4)? as u16,
        cells: None,
    };
    if *flag == b"1" {
        let mut bits = if *cells == b"-" { Vec::new() } else { hex_bits(cells)? };
        bits.resize(system.cell_bits(), false);
        system.cells = Some(bits);
    }
    Some(system)
}

fn parse_mask(text: &[u8], digits: usize) -> Option<u64> {
    if text.len() != digits {
        return None;
    }
    Some(number(&hex_bits(text)?))
}
