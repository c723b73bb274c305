//! Sweeps of masks that change under one issue (document 02, Ask 2): every single
//! change of a few masks, those that make a bad mask too.

use super::super::holding::{Holding, Mask, System};
use super::super::random::Random;
use super::hand::listing_mask;
use super::reissues::{after, SORTS};
use super::sweeps::{five_systems, shifted};
use super::{masks, messages, plain, Case};

const FAMILY: &str = "sweep: changed mask";

/// Single readings: the changed mask under the mask before it, and without its last
/// bit; under another number; and where nothing is held. Under masks at the house
/// limits only the first of these. Last, each mask itself.
pub fn readings() -> Vec<Case> {
    let mut random = Random::new(5);
    let mut all = Vec::new();
    for mask in small_masks() {
        let held = Holding::Held(mask.clone());
        for (at, sent) in changed(&mask).iter().enumerate() {
            let bits = messages::mask(&mut random, sent).bits;
            let apart = masks::of_other_issue(&mut random, sent.clone(), mask.iod);
            let apart = messages::mask(&mut random, &apart).bits;
            all.push(plain(FAMILY, &held, &bits));
            all.push(shifted(&mut random, &held, &bits[..bits.len() - 1], at % 8));
            all.push(shifted(&mut random, &held, &apart, at % 8));
            all.push(shifted(&mut random, &Holding::Empty, &bits, at % 8));
        }
        all.push(plain(FAMILY, &held, &messages::mask(&mut random, &mask).bits));
    }
    for mask in masks::limits(&mut random, 0) {
        for sent in changed(&mask).iter().chain([&mask]) {
            let bits = messages::mask(&mut random, sent).bits;
            all.push(plain(FAMILY, &Holding::Held(mask.clone()), &bits));
        }
    }
    all
}

/// Whole stretches for a fresh receiver: a mask, a clock under it, the changed mask,
/// and that once more.
pub fn stretches() -> Vec<Case> {
    let mut random = Random::new(6);
    let mut all = Vec::new();
    for mask in small_masks() {
        for sent in changed(&mask) {
            let mut bits = messages::mask(&mut random, &mask).bits;
            bits.extend(messages::of_sub_type(&mut random, &mask, 3).bits);
            bits.extend(messages::mask(&mut random, &sent).bits);
            bits.extend(messages::mask(&mut random, &sent).bits);
            all.push(plain(FAMILY, &Holding::Empty, &bits));
        }
    }
    all
}

/// All five systems; two, at places that every system has, so that they can have
/// other IDs; none.
fn small_masks() -> [Mask; 3] {
    let mut two = listing_mask();
    two.systems.push(System { id: 4, cells: None, ..two.systems[0].clone() });
    [five_systems(), two, Mask { iod: 3, systems: Vec::new() }]
}

/// The mask after every single change.
fn changed(mask: &Mask) -> Vec<Mask> {
    let all = SORTS.iter().flat_map(|sort| sort.2(mask));
    all.map(|change| after(mask, change)).collect()
}
