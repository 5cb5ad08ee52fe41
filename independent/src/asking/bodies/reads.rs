//! Bodies to read: of every length around whole points, with an S that isn't admitted in whole and
//! in unfinished points, of any bytes, and with wrong templates.

use super::{templates, Tried};
use crate::channels::S;
use crate::compare::Comparison;
use crate::description::{point_size, stored, Description, Format};
use crate::inputs;
use crate::random::Random;
use crate::words::NOT_NEGATIVE;

/// Indices that a narrower number would cut to a good one, and the greatest.
const FAR: [i64; 5] = [256, 65536, 16_777_216, 4_294_967_296, NOT_NEGATIVE.1];

pub fn all(comparison: &Comparison, random: &mut Random) -> Vec<Tried> {
    let mut tried = Vec::new();
    for description in templates::descriptions(comparison, random) {
        tried.extend(whole(random, description));
        tried.extend(every_length(random, description));
        tried.extend(wrong_states(random, description));
        tried.extend(any_bytes(random, description));
    }
    tried
}

/// All points are asked for, the first index that no point has, and one far behind it.
fn asked_whole(random: &mut Random, template: Vec<u8>, body: Vec<u8>, count: i64) -> Tried {
    let mut indices: Vec<i64> = (0..=count).collect();
    if random.one_in(3) {
        indices.push(random.pick(&FAR));
    }
    Tried {
        template,
        body,
        indices,
    }
}

/// One index, which mostly is that of a point or nearly.
fn asked_once(random: &mut Random, template: Vec<u8>, body: Vec<u8>, size: usize) -> Tried {
    let count = body.len().checked_div(size).unwrap_or(0) as i64;
    let near = random.between(0, count + 1);
    let far = random.pick(&FAR[..4]) + near;
    let indices = vec![random.pick(&[0, near, near, count, far])];
    Tried {
        template,
        body,
        indices,
    }
}

/// None, one and a few points; without a maximum, and with each that is near.
fn whole(random: &mut Random, description: Description) -> Vec<Tried> {
    let mut tried = Vec::new();
    for most in [0, 1, 5] {
        // A body can't have points without bytes.
        let count = match stored(&description).len() {
            0 => 0,
            _ => random.between(most.min(1), most),
        };
        let body = inputs::points(random, &description, count);
        let template = templates::around(random, description, count);
        tried.push(asked_whole(random, template, body, count));
    }
    let count = 2.min(stored(&description).len() as i64);
    let body = inputs::points(random, &description, count);
    for maximum in [0, 1, 2, 3] {
        let template = templates::with_maximum(description, Some(maximum));
        tried.push(asked_once(
            random,
            template,
            body.clone(),
            stored(&description).len(),
        ));
    }
    tried
}

/// Every length up to two points and a byte, or some of them where that is many.
fn every_length(random: &mut Random, description: Description) -> Vec<Tried> {
    let size = point_size(&description);
    let mut body = inputs::points(random, &description, 3);
    // Where no point has bytes, all bytes are left over.
    body.extend(random.bytes(if size == 0 { 3 } else { 0 }));
    let most = (2 * size + 1).min(body.len());
    let mut tried = Vec::new();
    for length in 0..=most {
        let near_whole = size > 0 && [0, 1, size - 1].contains(&(length % size));
        if size < 5 || near_whole || random.one_in(6) {
            let count = length.checked_div(size).unwrap_or(0) as i64;
            let template = templates::around(random, description, count);
            tried.push(asked_once(random, template, body[..length].to_vec(), size));
        }
    }
    tried
}

/// One or two S bytes of up to three points made wrong, where S is stored: cut before the first,
/// behind it, later and not at all.
fn wrong_states(random: &mut Random, description: Description) -> Vec<Tried> {
    let channels = stored(&description);
    let Some(state) = channels.iter().position(|channel| *channel == S) else {
        return Vec::new();
    };
    let (size, count) = (channels.len(), random.between(1, 3));
    let whole = inputs::points(random, &description, count);
    let mut tried = Vec::new();
    for first in 0..count as usize {
        let place = first * size + state;
        let mut body = whole.clone();
        body[place] = random.pick(&[2, 3, 0x7F, 0x80, 0x81, 0xFE, 0xFF]);
        if random.one_in(2) {
            let later = first + random.below(count as usize - first);
            body[later * size + state] = random.pick(&[2, 0x80]);
        }
        let later = place + 1 + random.below(body.len() - place);
        for length in [place, place + 1, later, body.len()] {
            let template = templates::around(random, description, first as i64);
            tried.push(asked_once(random, template, body[..length].to_vec(), size));
        }
    }
    tried
}

/// Of any length up to four points, and with S mostly wrong.
fn any_bytes(random: &mut Random, description: Description) -> Vec<Tried> {
    let size = point_size(&description);
    let any = |_| {
        let length = random.below(4 * size + 2);
        let body = random.bytes(length);
        let template = templates::around(random, description, 2);
        asked_once(random, template, body, size)
    };
    (0..2).map(any).collect()
}

/// The body may be the template's own before it was made wrong, or any bytes.
pub fn with_wrong_templates(comparison: &Comparison, random: &mut Random) -> Vec<Tried> {
    let mut tried = Vec::new();
    for _ in 0..comparison.amount(1200) {
        let description = inputs::small_description(random, Format::Compact);
        let count = random.between(0, 3);
        let template = templates::wrong(random, description, count);
        let body = match random.below(3) {
            0 => inputs::few_bytes(random),
            _ => inputs::points(random, &description, count),
        };
        tried.push(asked_once(random, template, body, point_size(&description)));
    }
    tried
}
