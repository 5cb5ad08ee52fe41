//! What is written from values point after point and from the same column after column: good
//! records, and every refusal of the writer, alone and with others.

use super::Write;
use crate::asking::naming::outside;
use crate::asking::naming::values::{any_record, of_words, range, RECORDS};
use crate::asking::writes::{break_stages, break_value, ENDS};
use crate::compare::Comparison;
use crate::inputs::{self, Constants};
use crate::random::Random;
use crate::record::GREATEST_COUNT;
use crate::writing::Parts;

pub fn all(comparison: &Comparison, random: &mut Random) -> Vec<Write> {
    let mut writes = good(comparison, random);
    writes.extend(stages(comparison, random));
    for (channels, count) in RECORDS {
        let parts = of_words(random, channels, count);
        writes.extend(one_outside(random, &parts));
        writes.extend(two_outside(random, &parts));
        writes.extend(amounts(random, &parts));
    }
    writes.extend((0..comparison.amount(700)).map(|_| many_outside(random)));
    writes.extend(counts(random));
    writes
}

/// Room for the record exactly, for more, and for less.
fn good(comparison: &Comparison, random: &mut Random) -> Vec<Write> {
    let mut writes = Vec::new();
    for _ in 0..comparison.amount(250) {
        let parts = inputs::any_parts(random);
        let length = inputs::bytes(&parts).len();
        let any = random.below(length);
        let shorter = random.pick(&[length - 1, any, 0]);
        for room in [length, length + 1 + random.below(9), shorter] {
            let parts = parts.clone();
            writes.push(Write { parts, room });
        }
    }
    writes
}

/// Every set of stages broken at once; the earliest must decide.
fn stages(comparison: &Comparison, random: &mut Random) -> Vec<Write> {
    let mut writes = Vec::new();
    for _ in 0..comparison.amount(9) {
        for broken in 0..128 {
            let parts = inputs::any_parts(random);
            let length = inputs::bytes(&parts).len();
            let (parts, room) = break_stages(random, parts, length, broken);
            writes.push(Write { parts, room });
        }
    }
    writes
}

/// 15 comes behind everything, so the room may be short.
fn in_any_room(random: &mut Random, parts: Parts) -> Write {
    let room = random.pick(&[0, 1, 3, 150]);
    Write { parts, room }
}

/// Each value at the ends of its range and outside, where S has other ends than the rest.
fn one_outside(random: &mut Random, parts: &Parts) -> Vec<Write> {
    let mut writes = Vec::new();
    for number in 0..parts.values.len() {
        let (low, high) = range(parts, number);
        for value in [low, low - 1, high, high + 1, 2, 32768, random.pick(&ENDS)] {
            let mut parts = parts.clone();
            parts.values[number] = value;
            writes.push(in_any_room(random, parts));
        }
    }
    writes
}

/// Every two values out of range. Of many of these the first in point order isn't the first in
/// column order.
fn two_outside(random: &mut Random, parts: &Parts) -> Vec<Write> {
    let mut writes = Vec::new();
    for second in 0..parts.values.len() {
        for first in 0..second {
            let mut parts = parts.clone();
            for number in [first, second] {
                parts.values[number] = outside(random, range(&parts, number));
            }
            writes.push(in_any_room(random, parts));
        }
    }
    writes
}

/// Up to six values out of range.
fn many_outside(random: &mut Random) -> Write {
    let mut parts = any_record(random);
    for _ in 0..random.below(7) {
        break_value(random, &mut parts);
    }
    in_any_room(random, parts)
}

/// A value or a point too few and too many, with a value out of range behind 13 or without one.
fn amounts(random: &mut Random, parts: &Parts) -> Vec<Write> {
    let mut writes = Vec::new();
    for broken in [false, true] {
        let mut parts = parts.clone();
        if broken {
            break_value(random, &mut parts);
        }
        for more in [-1, 1, 2] {
            let mut other = parts.clone();
            other.count += more;
            writes.push(in_any_room(random, other));
        }
        for amount in [
            0,
            1,
            parts.values.len().saturating_sub(1),
            parts.values.len() + 1,
        ] {
            let mut other = parts.clone();
            other.values.resize(amount, 0);
            writes.push(in_any_room(random, other));
        }
    }
    writes
}

/// Counts around the greatest, with points that have bytes and points that have none.
fn counts(random: &mut Random) -> Vec<Write> {
    let mut writes = Vec::new();
    let far = 999_999_999_999_999_999;
    for count in [0, 1, 256, 65536, GREATEST_COUNT, GREATEST_COUNT + 1, far] {
        for constants in [Constants::None, Constants::Some, Constants::All] {
            let set = inputs::set(random);
            let mut parts = inputs::parts(random, set, constants, 1);
            parts.count = count;
            let room = random.pick(&[0, 300]);
            writes.push(Write { parts, room });
        }
    }
    writes
}
