//! Messages that end inside a field: each field of a sub type, and its body, as
//! often as the others, and each number of its bits missing as often (document 02,
//! Ask 7). Sub types 6 and 7 come most often (Ask 1). And messages that end in a body
//! before which they are refused.

use super::super::holding::Mask;
use super::super::random::Random;
use super::super::ABSENT;
use super::masks;
use super::messages::{of_sub_type, without_cell, Drawn};

/// Sub types 6 and 7 by how many fields each has, and any other as often as 7: of
/// these 11 most often, because it has the most fields.
fn sub_type(random: &mut Random) -> u64 {
    let other = random.pick(&[1, 2, 3, 4, 5, 10, 11, 11]);
    random.pick(&[6, 6, 7, other])
}

/// A mask, and a message under it that has every field of its sub type.
pub fn scene(random: &mut Random) -> (Mask, Drawn) {
    let sub_type = sub_type(random);
    loop {
        let mask = masks::good(random);
        let drawn = of_sub_type(random, &mask, sub_type);
        if has_all(&drawn) {
            return (mask, drawn);
        }
    }
}

/// Whether there are a network and a body, where its sub type can have them.
fn has_all(drawn: &Drawn) -> bool {
    let network = !matches!(drawn.head[0], 6 | 11) || drawn.head[7] != ABSENT;
    let body = drawn.head[0] == 1 || drawn.body < drawn.bits.len();
    network && body
}

/// How many bits of a message there are: its number and its sub type always, the
/// rest up to somewhere inside a field that has bits.
pub fn kept(random: &mut Random, drawn: &Drawn) -> usize {
    let ends = drawn.ends();
    let fields = ends[1..].windows(2).filter(|field| field[0] < field[1]);
    let field = random.pick(&fields.collect::<Vec<&[usize]>>());
    field[0] + random.below(field[1] - field[0])
}

/// The same, or all but the last bits of the message, mostly but one.
pub fn kept_nearly(random: &mut Random, drawn: &Drawn) -> usize {
    let last = 1 + random.below(8);
    let any = kept(random, drawn);
    random.pick(&[drawn.bits.len() - 1, drawn.bits.len() - last, any])
}

/// The same, from right before the body to right after it.
pub fn kept_to_body(random: &mut Random, drawn: &Drawn) -> usize {
    let any = drawn.body + random.below(drawn.bits.len() - drawn.body + 1);
    random.pick(&[drawn.body, any])
}

/// What a stretch can end with under the mask: a message that ends inside a field,
/// or after a selection that is refused.
pub fn ending(random: &mut Random, mask: &Mask) -> Vec<bool> {
    if random.chance(25) {
        let drawn = without_cell(random, mask);
        let kept = kept_to_body(random, &drawn);
        return drawn.bits[..kept].to_vec();
    }
    let sub_type = sub_type(random);
    let drawn = of_sub_type(random, mask, sub_type);
    let kept = kept(random, &drawn);
    drawn.bits[..kept].to_vec()
}
