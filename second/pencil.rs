//! Which field, or which body, runs past the end, and by how many bits: found as
//! with a pencil, by laying the fields of a message end to end after document 01,
//! "Message layouts" and its lengths, those of sub types 6 and 7 after document 02,
//! Ask 1. The field is the first whose end lies past the bits there are, and what it
//! lies past them by is missing. The reader has no part in it, nor has the layout.

use super::bits::{bit, number};
use super::generate::Case;
use super::holding::{Holding, Mask};

/// The name of a field, after its sub type, and how many of its bits are missing.
pub type Short = (String, usize);

/// Every name that there is, and how many bits of it can be missing: all, but of
/// the number one less, because no bits are idle. Of a cell mask, a selection and
/// a body it is what the sweeps have at least (`generate/cuts.rs`).
pub fn names() -> Vec<(String, usize)> {
    let epoch = |width| vec![("epoch", width), ("interval", 4), ("indicator", 1), ("IOD SSR", 4)];
    let masks = [("satellite mask", 40), ("signal mask", 16), ("cell flag", 1), ("cell mask", 4)];
    let systems = [&[("number of systems", 4), ("GNSS ID", 4)][..], &masks].concat();
    let service = vec![("indicator", 1), ("counter", 3), ("size", 2), ("body", 40)];
    let biases = [("code flag", 1), ("phase flag", 1)];
    let corrections = [("orbit flag", 1), ("clock flag", 1)];
    let network = [("network flag", 1), ("network ID", 5), ("selection", 7)];
    let all = [
        ("", vec![("number", 11), ("sub type", 4)]),
        ("1: ", [epoch(20), systems].concat()),
        ("2: ", [epoch(12), vec![("body", 347)]].concat()),
        ("3: ", [epoch(12), vec![("body", 105)]].concat()),
        ("4: ", [epoch(12), vec![("body", 66)]].concat()),
        ("5: ", [epoch(12), vec![("body", 102)]].concat()),
        ("6: ", [&epoch(12)[..], &biases, &network, &[("body", 28)]].concat()),
        ("7: ", [epoch(12), vec![("body", 42)]].concat()),
        ("10: ", service),
        ("11: ", [&epoch(12)[..], &corrections, &network, &[("body", 64)]].concat()),
    ];
    let of = |(sub_type, fields): (&str, Vec<(&str, usize)>)| -> Vec<(String, usize)> {
        fields.iter().map(|&(name, width)| (format!("{sub_type}{name}"), width)).collect()
    };
    all.into_iter().flat_map(of).collect()
}

/// What is short of the message at the place, if it is a good one as far as it
/// goes.
pub fn short(case: &Case, place: usize, holding: &Holding) -> Option<Short> {
    let bits: Vec<bool> = (place..case.bit_length).map(|at| bit(&case.bytes, at)).collect();
    let mut pencil = Pencil { bits: &bits, end: 0, sub_type: String::new() };
    pencil.message(holding).err()
}

/// The field that a message is refused for with 11, after its sub type: its network
/// ID of 0, or the selection, apart where the stretch ends right after that.
pub fn refused_network(case: &Case, place: usize, holding: &Holding) -> String {
    let field = |at: usize, width: usize| -> u64 {
        let bits: Vec<bool> = (at..at + width).map(|at| bit(&case.bytes, place + at)).collect();
        number(&bits)
    };
    let satellites = match holding {
        Holding::Held(mask) => mask.satellites().len(),
        _ => 0,
    };
    let name = if field(40, 5) == 0 {
        "network ID"
    } else if case.bit_length > place + 45 + satellites {
        "selection"
    } else {
        "selection at the end"
    };
    format!("{}: {name}", field(12, 4))
}

/// System ID and satellite place.
type Satellite = (u8, usize);

struct Pencil<'a> {
    bits: &'a [bool],
    /// Where the last field ends.
    end: usize,
    /// What the names begin with.
    sub_type: String,
}

fn set(field: &[bool]) -> usize {
    field.iter().filter(|&&one| one).count()
}

impl<'a> Pencil<'a> {
    /// The next field.
    fn lay(&mut self, name: &str, width: usize) -> Result<&'a [bool], Short> {
        let start = self.end;
        self.end += width;
        match self.bits.get(start..self.end) {
            Some(field) => Ok(field),
            None => Err((format!("{}{name}", self.sub_type), self.end - self.bits.len())),
        }
    }

    fn message(&mut self, holding: &Holding) -> Result<(), Short> {
        self.lay("number", 12)?;
        let sub_type = number(self.lay("sub type", 4)?);
        self.sub_type = format!("{sub_type}: ");
        match (sub_type, holding) {
            (1, _) => self.mask(),
            (10, _) => self.service(),
            (_, Holding::Held(mask)) => self.correction(sub_type, mask),
            _ => self.opening(12),
        }
    }

    fn opening(&mut self, epoch: usize) -> Result<(), Short> {
        self.lay("epoch", epoch)?;
        self.lay("interval", 4)?;
        self.lay("indicator", 1)?;
        self.lay("IOD SSR", 4)?;
        Ok(())
    }

    fn mask(&mut self) -> Result<(), Short> {
        self.opening(20)?;
        for _ in 0..number(self.lay("number of systems", 4)?) {
            self.lay("GNSS ID", 4)?;
            let satellites = set(self.lay("satellite mask", 40)?);
            let signals = set(self.lay("signal mask", 16)?);
            if self.lay("cell flag", 1)? == [true] {
                self.lay("cell mask", satellites * signals)?;
            }
        }
        Ok(())
    }

    fn service(&mut self) -> Result<(), Short> {
        self.lay("indicator", 1)?;
        self.lay("counter", 3)?;
        let size = number(self.lay("size", 2)?) as usize;
        self.lay("body", (size + 1) * 40)?;
        Ok(())
    }

    fn correction(&mut self, sub_type: u64, mask: &Mask) -> Result<(), Short> {
        self.opening(12)?;
        let all = mask.satellites();
        let body = match sub_type {
            2 => orbits(&all),
            3 => 15 * all.len(),
            4 => 11 * cells(mask, &all),
            5 => 17 * cells(mask, &all),
            6 => {
                let (code, phase) = self.flags("code flag", "phase flag")?;
                (11 * code + 17 * phase) * cells(mask, &self.selected(all)?)
            }
            7 => 6 * all.len(),
            _ => {
                let (orbit, clock) = self.flags("orbit flag", "clock flag")?;
                let selected = self.selected(all)?;
                orbit * orbits(&selected) + clock * 15 * selected.len()
            }
        };
        self.lay("body", body)?;
        Ok(())
    }

    fn flags(&mut self, one: &str, other: &str) -> Result<(usize, usize), Short> {
        Ok((set(self.lay(one, 1)?), set(self.lay(other, 1)?)))
    }

    /// The satellites that the network flag and the selection leave of all.
    fn selected(&mut self, all: Vec<Satellite>) -> Result<Vec<Satellite>, Short> {
        if self.lay("network flag", 1)? == [false] {
            return Ok(all);
        }
        self.lay("network ID", 5)?;
        let selection = self.lay("selection", all.len())?;
        let pairs = all.into_iter().zip(selection);
        Ok(pairs.filter(|pair| *pair.1).map(|pair| pair.0).collect())
    }
}

/// "49 per satellite (51 for Galileo)".
fn orbits(satellites: &[Satellite]) -> usize {
    satellites.iter().map(|satellite| if satellite.0 == 2 { 51 } else { 49 }).sum()
}

fn cells(mask: &Mask, satellites: &[Satellite]) -> usize {
    let all = mask.cells().into_iter();
    all.filter(|&(id, place, _)| satellites.contains(&(id, place))).count()
}
