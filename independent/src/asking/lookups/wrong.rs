//! Records cut at every byte, changed at every byte, and with an S that isn't admitted, in the
//! point that is looked up and in others.

use super::Tried;
use crate::channels::{bit, S};
use crate::compare::Comparison;
use crate::description::{point_size, Format};
use crate::inputs::{self, Constants, X_AND_Y};
use crate::random::Random;
use crate::writing::Parts;

pub fn all(comparison: &Comparison, random: &mut Random) -> Vec<Tried> {
    let mut tried = Vec::new();
    for _ in 0..comparison.amount(24) {
        let parts = inputs::small_parts(random);
        tried.extend(cut_everywhere(random, &parts));
        tried.extend(changed_everywhere(random, &parts));
    }
    let long = inputs::greatest_parts(random, 2);
    tried.extend(cut_everywhere(random, &long));
    tried.extend(changed_at(random, &long, inputs::ruled_places(&long)));
    for _ in 0..comparison.amount(40) {
        tried.extend(wrong_states(random));
    }
    for _ in 0..comparison.amount(500) {
        let indices = vec![random.between(0, 4)];
        let bytes = inputs::any_slice(random);
        tried.push(Tried { bytes, indices });
    }
    tried
}

/// Every beginning, the empty one and the whole record too.
fn cut_everywhere(random: &mut Random, parts: &Parts) -> Vec<Tried> {
    let whole = inputs::bytes(parts);
    let front = |length: usize| Tried {
        bytes: whole[..length].to_vec(),
        indices: vec![random.between(0, parts.count)],
    };
    (0..=whole.len()).map(front).collect()
}

/// Header, opening byte, count, points and extended data.
fn changed_everywhere(random: &mut Random, parts: &Parts) -> Vec<Tried> {
    let places = (0..inputs::bytes(parts).len()).collect();
    changed_at(random, parts, places)
}

fn changed_at(random: &mut Random, parts: &Parts, places: Vec<usize>) -> Vec<Tried> {
    let whole = inputs::bytes(parts);
    let changed = |place: usize| {
        let mut bytes = whole.clone();
        inputs::damage(random, &mut bytes, place);
        let indices = vec![random.between(0, parts.count)];
        Tried { bytes, indices }
    };
    places.into_iter().map(changed).collect()
}

/// Up to three points with S, constant channels perhaps among the others.
fn with_states(random: &mut Random) -> Parts {
    let set = X_AND_Y | bit(S) | bit(random.below(16)) | bit(random.below(16));
    let mut description = inputs::description(random, Format::Full, set, Constants::Some);
    description[S].constant = false;
    let count = random.between(1, 3);
    inputs::of_description(random, description, count)
}

/// A wrong S in each point, cut before it, behind it and later, and with all that follows. Looked
/// up are its own point, and another or none (10).
fn wrong_states(random: &mut Random) -> Vec<Tried> {
    let parts = with_states(random);
    let whole = inputs::bytes(&parts);
    let places = inputs::ruled_places(&parts);
    let states = &places[places.len() - parts.count as usize..];
    let mut tried = Vec::new();
    for (own, &place) in (0..).zip(states) {
        let mut bytes = whole.clone();
        bytes[place] = random.pick(&[2, 3, 0x7F, 0x80, 0x81, 0xFF]);
        let later = place + 2 + random.below(point_size(&parts.description));
        for length in [place, place + 1, place + 2, later, bytes.len()] {
            let other = random.between(0, parts.count);
            let front = &bytes[..length.min(bytes.len())];
            tried.push(Tried {
                bytes: front.to_vec(),
                indices: vec![own, other],
            });
        }
    }
    tried
}
