//! The held mask (document 01, "Held mask and assigned places").

use super::answer::{NO_MASK, OTHER_ISSUE};

/// Satellite places with an assignment, by GNSS ID: 0 up to one below this.
pub const SATELLITE_PLACES: [usize; 5] = [40, 24, 37, 40, 10];
/// Signal places with an assignment, by GNSS ID.
pub const SIGNAL_PLACES: [usize; 5] = [14, 13, 15, 9, 10];
/// Bits of a satellite mask and of a signal mask.
pub const SATELLITE_BITS: usize = 40;
pub const SIGNAL_BITS: usize = 16;
/// House limits over all systems of a mask.
pub const MAX_SATELLITES: usize = 64;
pub const MAX_CELLS: usize = 256;
/// The ID whose IODE has ten bits.
pub const GALILEO: u8 = 2;

/// One system of a mask. `cells` has a bit for each satellite with each signal,
/// and is `None` when the cell flag is 0, so that a cell mask of ones alone stays
/// another mask than no cell mask.
#[derive(Clone, Debug, PartialEq, Eq)]
pub struct System {
    pub id: u8,
    pub satellites: u64,
    pub signals: u16,
    pub cells: Option<Vec<bool>>,
}

#[derive(Clone, Debug, PartialEq, Eq)]
pub struct Mask {
    pub iod: u8,
    pub systems: Vec<System>,
}

/// What a receiver holds. `Held` is only ever made with a good mask; whatever
/// else is lent says nothing, and a refusal leaves it where it was lent.
#[derive(Clone, Debug, PartialEq, Eq)]
pub enum Holding {
    Empty,
    Held(Mask),
    Nonsense,
}

/// The set places of a mask field of this many bits, place 0 first.
pub fn places(mask: u64, width: usize) -> Vec<usize> {
    (0..width).filter(|place| mask >> (width - 1 - place) & 1 == 1).collect()
}

impl System {
    pub fn satellite_places(&self) -> Vec<usize> {
        places(self.satellites, SATELLITE_BITS)
    }

    pub fn signal_places(&self) -> Vec<usize> {
        places(u64::from(self.signals), SIGNAL_BITS)
    }

    /// Bits of a cell mask: satellites times signals.
    pub fn cell_bits(&self) -> usize {
        self.satellite_places().len() * self.signal_places().len()
    }

    /// Satellite and signal place of each cell, satellite by satellite. With
    /// flag 0 every signal counts for every satellite.
    pub fn cells(&self) -> Vec<(usize, usize)> {
        let signals = self.signal_places();
        let mut cells = Vec::new();
        for (row, &satellite) in self.satellite_places().iter().enumerate() {
            for (column, &signal) in signals.iter().enumerate() {
                if self.counts(row * signals.len() + column) {
                    cells.push((satellite, signal));
                }
            }
        }
        cells
    }

    fn counts(&self, cell: usize) -> bool {
        match &self.cells {
            None => true,
            Some(bits) => bits[cell],
        }
    }

    /// A satellite place without assignment is set. The ID is at most 4.
    pub fn reserved_satellite(&self) -> bool {
        let assigned = SATELLITE_PLACES[usize::from(self.id)];
        self.satellite_places().iter().any(|&place| place >= assigned)
    }

    /// A signal place without assignment is set. The ID is at most 4.
    pub fn reserved_signal(&self) -> bool {
        let assigned = SIGNAL_PLACES[usize::from(self.id)];
        self.signal_places().iter().any(|&place| place >= assigned)
    }

    fn is_good(&self) -> bool {
        usize::from(self.id) < SATELLITE_PLACES.len()
            && self.satellites >> SATELLITE_BITS == 0
            && !self.reserved_satellite()
            && !self.reserved_signal()
    }
}

impl Mask {
    /// System ID and satellite place of every satellite, in the order sent.
    pub fn satellites(&self) -> Vec<(u8, usize)> {
        let of = |system: &System| -> Vec<(u8, usize)> {
            system.satellite_places().iter().map(|&place| (system.id, place)).collect()
        };
        self.systems.iter().flat_map(of).collect()
    }

    /// System ID, satellite place and signal place of every cell, in the order sent.
    pub fn cells(&self) -> Vec<(u8, usize, usize)> {
        let of = |system: &System| -> Vec<(u8, usize, usize)> {
            system.cells().iter().map(|&(satellite, signal)| (system.id, satellite, signal)).collect()
        };
        self.systems.iter().flat_map(of).collect()
    }

    /// The cells of these satellites, in the order sent.
    pub fn cells_of(&self, satellites: &[(u8, usize)]) -> Vec<(u8, usize, usize)> {
        let mut cells = self.cells();
        cells.retain(|&(id, place, _)| satellites.contains(&(id, place)));
        cells
    }

    /// The satellites without a cell: all their bits of a cell mask are zero, or
    /// their system has no signal.
    pub fn bare_satellites(&self) -> Vec<(u8, usize)> {
        let cells = self.cells();
        let has_cell = |satellite| cells.iter().any(|&(id, place, _)| (id, place) == satellite);
        let mut bare = self.satellites();
        bare.retain(|&satellite| !has_cell(satellite));
        bare
    }

    pub fn names(&self, id: u8) -> bool {
        self.systems.iter().any(|system| system.id == id)
    }

    /// Whether a good mask message makes this mask. Five distinct IDs of at
    /// most 4 bound the number of systems.
    pub fn is_good(&self) -> bool {
        self.iod < 16
            && self.systems.iter().all(System::is_good)
            && self.ids_differ()
            && self.satellites().len() <= MAX_SATELLITES
            && self.cells().len() <= MAX_CELLS
    }

    fn ids_differ(&self) -> bool {
        let named = |id: u8| self.systems.iter().filter(|system| system.id == id).count();
        self.systems.iter().all(|system| named(system.id) == 1)
    }
}

impl Holding {
    /// The held mask, if it is of this issue: else 6, then 7.
    pub fn of_issue(&self, iod: i32) -> Result<&Mask, u8> {
        match self {
            Holding::Held(mask) if iod == i32::from(mask.iod) => Ok(mask),
            Holding::Held(_) => Err(OTHER_ISSUE),
            _ => Err(NO_MASK),
        }
    }

    /// Whether this mask is "a different mask under the held number" (document 02,
    /// Ask 2). "Masks are the same when their `S` lines are", and these say every
    /// part of a mask: flag 0 too, which is not flag 1 with all cells.
    pub fn is_changed_by(&self, mask: &Mask) -> bool {
        matches!(self, Holding::Held(held) if held.iod == mask.iod && held != mask)
    }
}
