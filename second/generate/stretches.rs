//! Cases of one stretch: stretches from a sender that changes its mask now and
//! then, received by a receiver that may have missed it. The receiver keeps its
//! holding from stretch to stretch. The sender may also change its mask under one
//! number (document 02, Ask 2).

use super::super::holding::{Holding, Mask};
use super::super::random::Random;
use super::super::STRETCH_BITS;
use super::messages::Drawn;
use super::{bad_room, flip, holdings, lend, masks, messages, mislength, reissues, shorts, Case};

/// Families of stretches, by their names in reports.
const PLAIN: &str = "plain";
const FRESH: &str = "fresh receiver";
const MISSED: &str = "mask missed";
const DAMAGED: &str = "damaged holding";
const FLIPPED: &str = "damaged bits";
const CUT: &str = "cut";
const CHANGED: &str = "changed mask";
const PLACE: &str = "place";
const ROOM: &str = "room";

/// A sender and a receiver, stretch after stretch.
pub struct Run {
    random: Random,
    sender: Mask,
    receiver: Holding,
}

impl Run {
    pub fn new(seed: u64) -> Self {
        let mut random = Random::new(seed);
        let sender = masks::good(&mut random);
        Run { random, sender, receiver: Holding::Empty }
    }

    /// What the receiver holds after the last case, for the next one. A holding
    /// that damage made nonsense is given up for the one before it, because
    /// every later walk would only be refused for it.
    pub fn keep(&mut self, holding: &Holding) {
        if *holding != Holding::Nonsense {
            self.receiver = holding.clone();
        }
    }

    pub fn case(&mut self) -> Case {
        let family = self.family();
        match family {
            FRESH => self.receiver = Holding::Empty,
            MISSED => self.sender = masks::successor(&mut self.random, &self.sender),
            _ => {}
        }
        // More masks where nothing is held, so that after 13 the next is taken often.
        let opened = if self.receiver == Holding::Empty { 70 } else { 50 };
        let bits = self.stretch(family, opened);
        let mut case = lend(&mut self.random, family, &self.receiver, &bits);
        match family {
            DAMAGED => holdings::damage(&mut self.random, &mut case.holding),
            FLIPPED => damage_bits(&mut self.random, &mut case),
            CUT => case.bit_length = self.random.below(case.bit_length + 1),
            PLACE => mislength(&mut self.random, &mut case),
            ROOM => case.room = bad_room(&mut self.random),
            _ => {}
        }
        case
    }

    /// The next stretch as a line can say it, with its family: as the sender
    /// sends it, after a mask that was missed, damaged, cut, or with a changed mask.
    pub fn sent(&mut self) -> (&'static str, Vec<bool>) {
        let family = match self.family() {
            family @ (MISSED | FLIPPED | CUT | CHANGED) => family,
            _ => PLAIN,
        };
        if family == MISSED {
            self.sender = masks::successor(&mut self.random, &self.sender);
        }
        let mut bits = self.stretch(family, 50);
        match family {
            FLIPPED => damage(&mut self.random, &mut bits),
            CUT => bits.truncate(self.random.below(bits.len() + 1)),
            _ => {}
        }
        (family, bits)
    }

    /// A stretch without masks, of one to five messages.
    pub fn unmasked(&mut self) -> Vec<bool> {
        let random = &mut self.random;
        let mut bits = Vec::new();
        for _ in 0..1 + random.below(5) {
            let drawn = if random.chance(30) {
                messages::service(random)
            } else {
                messages::correction(random, &self.sender)
            };
            bits.extend(drawn.bits);
        }
        bits
    }

    fn family(&mut self) -> &'static str {
        match self.random.below(100) {
            0..=9 => FRESH,
            10..=17 => MISSED,
            18..=20 => DAMAGED,
            21 | 22 => PLACE,
            23 => ROOM,
            24..=29 => FLIPPED,
            30..=35 => CUT,
            36..=41 => CHANGED,
            _ => PLAIN,
        }
    }

    /// Mostly up to nine messages, rarely as many as a stretch can hold; a mask opens
    /// so many of a hundred.
    fn stretch(&mut self, family: &'static str, opened: usize) -> Vec<bool> {
        let mut bits = Vec::new();
        if self.random.chance(opened) {
            self.add_mask(&mut bits);
        }
        if family == CHANGED {
            self.add_changed(&mut bits);
        } else if self.random.chance(1) {
            while bits.len() < STRETCH_BITS {
                self.add(&mut bits, 0);
            }
        } else {
            for _ in 0..self.random.below(10) {
                self.add(&mut bits, 5);
            }
        }
        self.end(bits)
    }

    fn add_mask(&mut self, bits: &mut Vec<bool>) {
        bits.extend(messages::mask(&mut self.random, &self.sender).bits);
    }

    /// Up to three good messages, another mask under the number of the one before,
    /// and up to three more. Either mask is then the sender's: the new one after a
    /// missed turn of the counter, the old one after an error.
    fn add_changed(&mut self, bits: &mut Vec<bool>) {
        for _ in 0..self.random.below(4) {
            self.add(bits, 0);
        }
        let changed = reissues::changed(&mut self.random, &self.sender);
        let before = std::mem::replace(&mut self.sender, changed);
        self.add_mask(bits);
        if self.random.chance(30) {
            self.sender = before;
        }
        for _ in 0..self.random.below(4) {
            self.add(bits, 5);
        }
    }

    /// One more message: a mask, the same or a new one, a correction, service
    /// information, or in so many of a hundred cases one that is refused.
    fn add(&mut self, bits: &mut Vec<bool>, refused: usize) {
        let random = &mut self.random;
        if random.chance(refused) {
            bits.extend(refused_bits(random, &self.sender));
            return;
        }
        let drawn = match random.below(20) {
            0 => messages::mask(random, &self.sender),
            1 | 2 => {
                self.sender = masks::successor(random, &self.sender);
                messages::mask(random, &self.sender)
            }
            3..=5 => messages::service(random),
            _ => messages::correction(random, &self.sender),
        };
        bits.extend(drawn.bits);
    }

    /// Nothing after the last message, zeros, other bits, a cut inside it, or one
    /// more that ends inside a field.
    fn end(&mut self, mut bits: Vec<bool>) -> Vec<bool> {
        let random = &mut self.random;
        let tail = random.below(60);
        match random.below(7) {
            0 | 1 => {}
            2 | 3 => bits.resize(bits.len() + tail, false),
            4 => bits.extend(random.bits(tail)),
            5 => bits.truncate(bits.len().saturating_sub(tail)),
            _ => bits.extend(shorts::ending(random, &self.sender)),
        }
        bits.truncate(STRETCH_BITS);
        bits
    }
}

/// Damages one to three bits.
fn damage_bits(random: &mut Random, case: &mut Case) {
    for _ in 0..1 + random.below(3) {
        let place = random.below(case.bit_length.max(1));
        flip(&mut case.bytes, place);
    }
}

/// The same of bits that aren't lent yet.
fn damage(random: &mut Random, bits: &mut [bool]) {
    for _ in 0..1 + random.below(3) {
        let place = random.below(bits.len().max(1));
        if let Some(bit) = bits.get_mut(place) {
            *bit = !*bit;
        }
    }
}

/// A message with one fault, after which the walk mustn't go on.
fn refused_bits(random: &mut Random, mask: &Mask) -> Vec<bool> {
    let drawn = match random.below(9) {
        0 => messages::other_number(random),
        1 => messages::other_sub_type(random),
        2 => {
            let sub_type = random.pick(&[6, 11]);
            messages::network_zero(random, mask, sub_type)
        }
        3 => {
            let bad = masks::with_bad_system(random);
            bad_mask(random, mask.iod, bad)
        }
        4 => {
            let bad = masks::with_reserved_place(random);
            bad_mask(random, mask.iod, bad)
        }
        5 => {
            let bad = masks::at_limit(random, 1);
            bad_mask(random, mask.iod, bad)
        }
        6 => {
            let other = Mask { iod: (mask.iod + 1) % 16, ..mask.clone() };
            messages::correction(random, &other)
        }
        7 => messages::without_cell(random, mask),
        _ => {
            let changed = reissues::changed(random, mask);
            messages::mask(random, &changed)
        }
    };
    let mut bits = drawn.bits;
    if random.chance(20) {
        let place = random.below(bits.len());
        bits[place] = !bits[place];
    }
    bits
}

/// A bad mask under its own number or under that of the sender's mask, from which it
/// differs too: what it is bad for comes before 13 (document 02, Ask 2).
fn bad_mask(random: &mut Random, iod: u8, bad: Mask) -> Drawn {
    let iod = random.pick(&[iod, bad.iod]);
    messages::mask(random, &Mask { iod, ..bad })
}
