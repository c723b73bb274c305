//! The body of sub type 1, from the number of systems on, both ways
//! (document 01, "Message layouts", "Reader's order").

use super::answer::Reason::{self, Plain};
use super::answer::{RESERVED, SIZE, SYSTEM};
use super::bits::{push, Fields};
use super::holding::{
    Mask, System, MAX_CELLS, MAX_SATELLITES, SATELLITE_BITS, SATELLITE_PLACES, SIGNAL_BITS,
};

/// Takes the number of systems and every system, refusing field by field.
pub fn take_mask(fields: &mut Fields, iod: u8) -> Result<Mask, Reason> {
    let mut mask = Mask { iod, systems: Vec::new() };
    for _ in 0..fields.unsigned(4)? {
        take_system(fields, &mut mask)?;
    }
    Ok(mask)
}

/// One system. Satellites and cells are counted over the systems so far, at
/// the points that "Reader's order" names.
fn take_system(fields: &mut Fields, mask: &mut Mask) -> Result<(), Reason> {
    let id = fields.unsigned(4)? as u8;
    if usize::from(id) >= SATELLITE_PLACES.len() || mask.names(id) {
        return Err(Plain(SYSTEM));
    }
    let mut system = System { id, satellites: 0, signals: 0, cells: None };
    take_satellites(fields, mask, &mut system)?;
    take_signals(fields, &mut system)?;
    take_cells(fields, mask, &mut system)?;
    mask.systems.push(system);
    Ok(())
}

fn take_satellites(fields: &mut Fields, mask: &Mask, system: &mut System) -> Result<(), Reason> {
    system.satellites = fields.unsigned(SATELLITE_BITS)?;
    if system.reserved_satellite() {
        return Err(Plain(RESERVED));
    }
    if mask.satellites().len() + system.satellite_places().len() > MAX_SATELLITES {
        return Err(Plain(SIZE));
    }
    Ok(())
}

fn take_signals(fields: &mut Fields, system: &mut System) -> Result<(), Reason> {
    system.signals = fields.unsigned(SIGNAL_BITS)? as u16;
    if system.reserved_signal() {
        return Err(Plain(RESERVED));
    }
    Ok(())
}

fn take_cells(fields: &mut Fields, mask: &Mask, system: &mut System) -> Result<(), Reason> {
    if fields.unsigned(1)? == 1 {
        system.cells = Some(fields.flags(system.cell_bits())?);
    }
    if mask.cells().len() + system.cells().len() > MAX_CELLS {
        return Err(Plain(SIZE));
    }
    Ok(())
}

/// The bits that `take_mask` takes this good mask from.
pub fn push_mask(bits: &mut Vec<bool>, mask: &Mask) {
    push(bits, mask.systems.len() as u64, 4);
    for system in &mask.systems {
        push_system(bits, system);
    }
}

fn push_system(bits: &mut Vec<bool>, system: &System) {
    push(bits, u64::from(system.id), 4);
    push(bits, system.satellites, SATELLITE_BITS);
    push(bits, u64::from(system.signals), SIGNAL_BITS);
    push(bits, u64::from(system.cells.is_some()), 1);
    bits.extend(system.cells.iter().flatten());
}
