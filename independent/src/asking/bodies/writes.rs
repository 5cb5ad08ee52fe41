//! What bodies are written from: good points with rooms around the length, every stage of refusal
//! alone and with others, counts around the greatest, and values at the ends of the ranges.

use super::{templates, Write};
use crate::answers::hex;
use crate::asking::naming::outside;
use crate::asking::writes::{break_amount, ENDS};
use crate::body::Points;
use crate::channels::bit;
use crate::compare::Comparison;
use crate::description::{stored, value_range, Description, Format};
use crate::inputs::{self, Constants, X_AND_Y};
use crate::random::Random;
use crate::record::GREATEST_COUNT;
use crate::words::NOT_NEGATIVE;

pub fn all(comparison: &Comparison, random: &mut Random) -> Vec<Write> {
    let mut writes = Vec::new();
    for description in templates::descriptions(comparison, random) {
        writes.extend(good(random, description));
    }
    for _ in 0..comparison.amount(40) {
        writes.extend((0..128).map(|broken| with_broken(random, broken)));
    }
    for channel in 0..16 {
        writes.extend(one_outside(random, channel));
    }
    writes.extend((0..comparison.amount(500)).map(|_| many_outside(random)));
    writes.extend(counts(random));
    writes.extend(amounts(comparison, random));
    writes
}

/// So many points with any values, or none where no point has bytes.
fn points(random: &mut Random, description: &Description, count: i64) -> Points {
    let count = match stored(description).len() {
        0 => 0,
        _ => count,
    };
    Points {
        count,
        values: inputs::values(random, description, count),
        extended: None,
    }
}

/// Bytes that are lent and not wanted.
fn lent(random: &mut Random) -> Option<String> {
    let bytes = inputs::few_bytes(random);
    Some(format!("!{}", hex(&bytes))).filter(|_| random.one_in(3))
}

/// Room for the body exactly, for more, for one byte less, and none.
fn good(random: &mut Random, description: Description) -> Vec<Write> {
    let mut writes = Vec::new();
    let count = random.between(0, 4);
    let points = points(random, &description, count);
    let right = points.values.len();
    for room in [
        right,
        right + 1 + random.below(9),
        right.saturating_sub(1),
        0,
    ] {
        writes.push(Write {
            template: templates::around(random, description, points.count),
            points: points.clone(),
            lent: lent(random),
            room,
        });
    }
    writes
}

/// The seven low bits of `set` are the stages in their order: the template, the count, 13, a value,
/// extended data, 18 and 15.
fn with_broken(random: &mut Random, set: u8) -> Write {
    let broken = |stage: u8| set & (1 << stage) != 0;
    let description = inputs::mixed_description(random, Format::Compact);
    let count = random.between(1, 3);
    let mut points = points(random, &description, count);
    let right = points.values.len();
    let maximum = match broken(5) {
        true => Some(points.count - 1).filter(|maximum| *maximum >= 0),
        false => Some(points.count + random.between(0, 2)).filter(|_| random.one_in(2)),
    };
    if broken(3) {
        put_outside(random, &description, &mut points.values);
    }
    if broken(2) {
        break_amount(random, &mut points.values);
    }
    if broken(1) {
        points.count = too_many(random, &description);
    }
    if broken(4) {
        points.extended = inputs::extended(random).or(Some(Vec::new()));
    }
    let template = match broken(0) {
        true => templates::wrong(random, description, count),
        false => templates::with_maximum(description, maximum),
    };
    let room = match broken(6) {
        true => random.below(right),
        false => right + random.below(4),
    };
    let lent = lent(random).filter(|_| points.extended.is_none());
    Write {
        template,
        points,
        lent,
        room,
    }
}

/// A count that no body has.
fn too_many(random: &mut Random, description: &Description) -> i64 {
    let more = random.pick(&[1, 2, 1_000_000_000_000]);
    match stored(description).len() {
        0 => random.pick(&[1, 2, GREATEST_COUNT, GREATEST_COUNT + more]),
        _ => GREATEST_COUNT + more,
    }
}

/// One value outside its range, where there is a value; mostly one that a full record can have.
pub fn put_outside(random: &mut Random, description: &Description, values: &mut [i64]) {
    let channels = stored(description);
    let place = random.below(values.len());
    if let Some(value) = values.get_mut(place) {
        let range = value_range(Format::Compact, channels[place % channels.len()]);
        *value = outside(random, range);
    }
}

/// The channel's value at the ends of its ranges in both formats and outside, in each of two
/// points.
fn one_outside(random: &mut Random, channel: usize) -> Vec<Write> {
    let mut writes = Vec::new();
    let ranges = [Format::Full, Format::Compact].map(|format| value_range(format, channel));
    let ends = ranges.into_iter();
    let mut numbers: Vec<i64> = ends
        .flat_map(|(low, high)| [low - 1, low, high, high + 1])
        .collect();
    numbers.extend([-1, 0, 1, 2, 127, 128, 255, 256]);
    numbers.extend(ENDS);
    numbers.sort_unstable();
    numbers.dedup();
    for number in numbers {
        for point in 0..2 {
            let others = random.next() as u16 & random.next() as u16;
            let set = X_AND_Y | bit(channel) | others;
            let description = inputs::description(random, Format::Compact, set, Constants::None);
            let mut points = points(random, &description, 2);
            let channels = stored(&description);
            let before = channels.iter().filter(|other| **other < channel).count();
            points.values[point * channels.len() + before] = number;
            writes.push(in_any_room(random, description, points));
        }
    }
    writes
}

/// 18 and 15 come behind the values, so the maximum and the room may be too small.
fn in_any_room(random: &mut Random, description: Description, points: Points) -> Write {
    let right = points.values.len();
    Write {
        template: templates::around(random, description, points.count),
        points,
        lent: lent(random),
        room: random.pick(&[0, 1, right, right, right + 2]),
    }
}

/// Up to five values out of range.
fn many_outside(random: &mut Random) -> Write {
    let description = inputs::small_description(random, Format::Compact);
    let count = random.between(1, 4);
    let mut points = points(random, &description, count);
    for _ in 0..random.below(6) {
        put_outside(random, &description, &mut points.values);
    }
    in_any_room(random, description, points)
}

/// Counts up to 18 digits with few values, of points that have bytes and of points that have none.
fn counts(random: &mut Random) -> Vec<Write> {
    let mut writes = Vec::new();
    let greatest = GREATEST_COUNT;
    for count in [
        0,
        1,
        2,
        255,
        256,
        65536,
        greatest - 1,
        greatest,
        greatest + 1,
        2 * greatest + 2,
        4_294_967_296,
        4_294_967_297,
        // With sixteen channels, or with two, these are 0 and 2 values in 64 bits.
        576_460_752_303_423_488,
        NOT_NEGATIVE.1,
    ] {
        for constants in [Constants::None, Constants::Some, Constants::All] {
            for amount in [0, 1, 2] {
                let set = random.pick(&[X_AND_Y, 0xFFFF]);
                let description = inputs::description(random, Format::Compact, set, constants);
                let mut points = points(random, &description, amount);
                points.count = count;
                writes.push(in_any_room(random, description, points));
            }
        }
    }
    writes
}

/// Values too few and too many, by one, by a point and by more, with one out of range or without.
fn amounts(comparison: &Comparison, random: &mut Random) -> Vec<Write> {
    let mut writes = Vec::new();
    for _ in 0..comparison.amount(60) {
        let description = inputs::small_description(random, Format::Compact);
        let count = random.between(0, 3);
        let mut points = points(random, &description, count);
        if random.one_in(2) {
            put_outside(random, &description, &mut points.values);
        }
        let (right, size) = (points.values.len(), stored(&description).len());
        for amount in [
            right + 1,
            right + size,
            right.saturating_sub(1),
            right.saturating_sub(size),
            0,
        ] {
            let mut other = points.clone();
            other.values.resize(amount, 0);
            writes.push(in_any_room(random, description, other));
        }
    }
    writes
}
