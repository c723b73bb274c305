//! Messages in the middle of other bits, to be read, written back at the same
//! place and at another one, and read again (document 00, demand 2).

use super::super::bits::bytes_for;
use super::super::holding::{Holding, Mask};
use super::super::random::Random;
use super::messages::{self, Drawn};
use super::{lend, masks, Case};

/// A message, and what is held before and after it.
pub struct Scene {
    pub drawn: Drawn,
    pub held: Holding,
    pub after: Holding,
}

/// A message to be read, and where it is written then.
pub struct Round {
    pub case: Case,
    pub scene: Scene,
    /// The other place, and how many bytes are lent there.
    pub place: usize,
    pub room: usize,
}

/// What a message is made for: each sub type, the mask message under none or any
/// mask of another number, what needs no mask without one.
pub fn scene(random: &mut Random, mask: Mask) -> Scene {
    let held = Holding::Held(mask.clone());
    let (drawn, held, after) = match random.below(10) {
        0 => (messages::service(random), Holding::Empty, Holding::Empty),
        1 => (messages::service(random), held.clone(), held),
        2 => (messages::mask(random, &mask), Holding::Empty, held),
        3 => {
            let other = masks::good(random);
            let other = masks::of_other_issue(random, other, mask.iod);
            (messages::mask(random, &mask), Holding::Held(other), held)
        }
        _ => (messages::correction(random, &mask), held.clone(), held),
    };
    Scene { drawn, held, after }
}

/// The next round.
pub fn round(random: &mut Random) -> Round {
    let mask = mask(random);
    let scene = scene(random, mask);
    let length = scene.drawn.bits.len();
    let (start, place) = (random.below(41), random.below(72));
    let mut bits = random.bits(start);
    bits.extend(&scene.drawn.bits);
    let behind = random.below(20);
    bits.extend(random.bits(behind));
    let case = lend(random, "round", &scene.held, &bits);
    let room = bytes_for(place + length) + random.below(4);
    Round { case: Case { start, ..case }, scene, place, room }
}

fn mask(random: &mut Random) -> Mask {
    match random.below(50) {
        0 => masks::at_limit(random, 0),
        1 => masks::wide(random),
        2 => masks::bare(random),
        _ => masks::good(random),
    }
}
