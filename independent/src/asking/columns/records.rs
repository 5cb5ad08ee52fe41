//! Records whose columns are asked for: good ones of many shapes, and wrong ones.

use super::Tried;
use crate::asking::lookups::wrong_slices;
use crate::channels::{bit, CHANNELS, S, X, Y};
use crate::compare::Comparison;
use crate::cursor::Cursor;
use crate::description::{stored, Format};
use crate::inputs::{self, Constants, X_AND_Y};
use crate::kinds;
use crate::random::Random;
use crate::record::{read_front, GREATEST_COUNT};
use crate::values::amount;
use crate::writing::Parts;

/// More numbers are not lent here, so that lines stay short.
const MOST_LENT: usize = 2000;
/// All points of a record are asked for up to so many.
const FEW: i64 = 9;

pub fn good(comparison: &Comparison, random: &mut Random) -> Vec<Tried> {
    let mut parts = every_kind(random);
    parts.extend((0..CHANNELS.len()).map(|channel| with_channel(random, channel)));
    parts.extend((0..comparison.amount(120)).map(|_| any_shape(random)));
    parts.extend(empty_points(comparison, random));
    parts.extend([0, 1, 2, 3].map(|count| inputs::greatest_parts(random, count)));
    parts.extend(many_points(random));
    parts.iter().map(|parts| of_parts(random, parts)).collect()
}

/// X, Y, S and others, stored, constant and absent: three points, and none, one or two.
fn every_kind(random: &mut Random) -> Vec<Parts> {
    let mut all = Vec::new();
    for kinds in kinds::every_combination() {
        for count in [random.between(0, 2), 3] {
            let description = kinds::description(random, Format::Full, &kinds);
            all.push(inputs::of_description(random, description, count));
        }
    }
    all
}

/// X, Y and one channel.
fn with_channel(random: &mut Random, channel: usize) -> Parts {
    inputs::parts(random, X_AND_Y | bit(channel), Constants::None, 4)
}

fn any_shape(random: &mut Random) -> Parts {
    let description = inputs::any_parts(random).description;
    let count = random.between(0, FEW);
    inputs::of_description(random, description, count)
}

/// Where no channel is stored there are no numbers, whatever the count.
fn empty_points(comparison: &Comparison, random: &mut Random) -> Vec<Parts> {
    let mut all = Vec::new();
    for count in [0, 1, 2, 255, 256, 65536, GREATEST_COUNT - 1, GREATEST_COUNT] {
        for _ in 0..comparison.amount(2) {
            let set = inputs::set(random);
            all.push(inputs::parts(random, set, Constants::All, count));
        }
    }
    all
}

/// Some hundreds of points; of one channel, of S alone, of all sixteen.
fn many_points(random: &mut Random) -> Vec<Parts> {
    let any = inputs::set(random);
    let mut all = Vec::new();
    for (set, count) in [
        (X_AND_Y, 255),
        (X_AND_Y, 256),
        (X_AND_Y | bit(S), 257),
        (any, 130),
        (0xFFFF, 100),
    ] {
        all.push(inputs::parts(random, set, Constants::None, count));
    }
    for (constant, count) in [([X, S], 300), ([X, Y], 600)] {
        let set = X_AND_Y | bit(S);
        let mut description = inputs::description(random, Format::Full, set, Constants::None);
        for channel in constant {
            description[channel].constant = true;
        }
        all.push(inputs::of_description(random, description, count));
    }
    all
}

fn of_parts(random: &mut Random, parts: &Parts) -> Tried {
    let count = parts.count;
    let indices = match count {
        0..=FEW => (0..count).collect(),
        _ => vec![0, 1, random.between(2, count - 3), count - 2, count - 1],
    };
    Tried {
        bytes: inputs::bytes(parts),
        amounts: amounts(parts),
        indices,
    }
}

/// As many as there are, one fewer and one more, none, what one point fewer and one more would
/// have, one for each point, and one for each channel.
fn amounts(parts: &Parts) -> Vec<usize> {
    let right = parts.values.len();
    let (count, channels) = (parts.count as usize, stored(&parts.description).len());
    let mut amounts = vec![right, right + 1, 0, right + channels, count, channels];
    amounts.extend(right.checked_sub(1));
    amounts.extend(right.checked_sub(channels));
    amounts.retain(|amount| *amount <= MOST_LENT);
    amounts.sort_unstable();
    amounts.dedup();
    amounts
}

/// Cut and changed at every byte, with an S that isn't admitted, with bytes behind. Some are still
/// records.
pub fn wrong(comparison: &Comparison, random: &mut Random) -> Vec<Tried> {
    let mut all = wrong_slices(comparison, random);
    all.extend((0..comparison.amount(100)).map(|_| lengthened(random)));
    all.into_iter()
        .map(|bytes| of_slice(random, bytes))
        .collect()
}

fn lengthened(random: &mut Random) -> Vec<u8> {
    let mut bytes = inputs::small_record(random);
    bytes.push(random.byte());
    bytes.extend(inputs::few_bytes(random));
    bytes
}

/// As many numbers as its count calls for, or another amount.
fn of_slice(random: &mut Random, bytes: Vec<u8>) -> Tried {
    let front = read_front(&mut Cursor::new(&bytes, 0, 1));
    let wanted = front.map_or(0, |front| amount(&front.description, front.count) as usize);
    let right = if wanted <= MOST_LENT { wanted } else { 0 };
    let few = random.below(7);
    let lent = random.pick(&[right, right, right + 1, right.saturating_sub(1), 0, few]);
    Tried {
        bytes,
        amounts: vec![lent],
        indices: Vec::new(),
    }
}
