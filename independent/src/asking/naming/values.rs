//! Counts and sample values out of range, with attributes before them and a wrong amount between.

use super::{attributes, outside, shuffled, try_all, try_turned};
use crate::asking::writes::{break_amount, break_count, break_range, break_value, ENDS};
use crate::compare::Comparison;
use crate::description::{stored, value_range, Description, Format};
use crate::inputs;
use crate::questions;
use crate::random::Random;
use crate::words::Words;
use crate::writing::Parts;

const ALONE: &str = "naming one value";
const PAIRS: &str = "naming the first of two values";
const MANY: &str = "naming the first of many values";
const STAGES: &str = "naming with stages broken";
const AMOUNTS: &str = "naming behind refusal 13";

pub fn ask_all(comparison: &mut Comparison, random: &mut Random) {
    for (channels, count) in RECORDS {
        let parts = of_words(random, channels, count);
        alone(comparison, random, &parts);
        pairs(comparison, random, &parts);
        wrong_amounts(comparison, random, &parts);
    }
    many(comparison, random);
    behind_attributes(comparison, random);
    stages(comparison, random);
}

/// Records with constant channels in front, between and behind, with S in each place, and with all
/// sixteen; and how many points they have.
pub const RECORDS: [(&str, i64); 8] = [
    ("X Y", 4),
    ("X.constant Y S", 4),
    ("X Y.constant S.constant R", 4),
    ("X.constant Y.constant S", 4),
    ("X.constant Y.constant S.constant", 4),
    ("X Y Z.constant DT S Az", 3),
    ("X Y.constant VX F S TX.constant TY R.constant", 3),
    ("X Y Z VX VY AX AY T DT F S TX TY Az El R", 2),
];

pub fn of_words(random: &mut Random, channels: &str, count: i64) -> Parts {
    let own = Format::Full;
    let description = Words::new(channels.as_bytes())
        .description(own)
        .unwrap_or(Description::empty(own));
    with_points(random, description, count)
}

fn with_points(random: &mut Random, description: Description, count: i64) -> Parts {
    Parts {
        description,
        count,
        values: inputs::values(random, &description, count),
        extended: inputs::extended(random).filter(|bytes| bytes.len() < 3),
    }
}

fn line(random: &mut Random, parts: &Parts) -> String {
    questions::write(parts, random.pick(&[0, 1, 3, 150]))
}

/// The range of the value with this index.
pub fn range(parts: &Parts, index: usize) -> (i64, i64) {
    let channels = stored(&parts.description);
    value_range(parts.description.mark, channels[index % channels.len()])
}

/// Each value at the ends of its range and outside, at the ends of the other ranges too.
fn alone(comparison: &mut Comparison, random: &mut Random, parts: &Parts) {
    let mut lines = Vec::new();
    for index in 0..parts.values.len() {
        let (low, high) = range(parts, index);
        let mut numbers = vec![low - 1, low, high, high + 1, -1, 0, 1, 2, 128, 256, 32768];
        numbers.extend(ENDS);
        numbers.sort_unstable();
        numbers.dedup();
        for number in numbers {
            let mut parts = parts.clone();
            parts.values[index] = number;
            lines.push(line(random, &parts));
        }
    }
    try_all(comparison, ALONE, &lines);
}

/// Every two values out of range. The words in another order change no value's channel.
fn pairs(comparison: &mut Comparison, random: &mut Random, parts: &Parts) {
    let mut lines = Vec::new();
    for second in 0..parts.values.len() {
        for first in 0..second {
            let mut parts = parts.clone();
            for index in [first, second] {
                parts.values[index] = outside(random, range(&parts, index));
            }
            lines.push(line(random, &parts));
        }
    }
    try_turned(comparison, PAIRS, &lines);
}

/// Each value out of range, with a value or a point too few and too many: 13 comes first.
fn wrong_amounts(comparison: &mut Comparison, random: &mut Random, parts: &Parts) {
    let mut lines = Vec::new();
    for index in 0..parts.values.len() {
        let mut parts = parts.clone();
        parts.values[index] = outside(random, range(&parts, index));
        for more in [-1, 1] {
            let mut other = parts.clone();
            other.count += more;
            lines.push(line(random, &other));
        }
        parts.values.push(0);
        lines.push(line(random, &parts));
        parts.values.truncate(parts.values.len() - 2);
        lines.push(line(random, &parts));
    }
    try_all(comparison, AMOUNTS, &lines);
}

/// Each attribute below its range, in it and above it, with the count out of range, with a value,
/// and with both.
fn behind_attributes(comparison: &mut Comparison, random: &mut Random) {
    let mut lines = Vec::new();
    for attribute in attributes::all() {
        let (low, high) = attribute.range(Format::Full);
        for number in [low - 1, high, high + 1] {
            let mut parts = with_points(random, attribute.only(Format::Full, true, number), 1);
            let mut counted = parts.clone();
            break_count(random, &mut counted);
            break_value(random, &mut parts);
            let both = Parts {
                count: counted.count,
                ..parts.clone()
            };
            lines.extend([counted, parts, both].map(|parts| line(random, &parts)));
        }
    }
    try_all(comparison, STAGES, &lines);
}

/// One to four points of a few channels, some of them constant, S half the time.
pub fn any_record(random: &mut Random) -> Parts {
    let description = inputs::small_parts(random).description;
    let count = random.between(1, 4);
    with_points(random, description, count)
}

/// Up to five values out of range.
fn many(comparison: &mut Comparison, random: &mut Random) {
    let mut lines = Vec::new();
    for _ in 0..comparison.amount(3000) {
        let mut parts = any_record(random);
        for _ in 0..random.below(6) {
            break_value(random, &mut parts);
        }
        let line = line(random, &parts);
        lines.push(shuffled(random, &line));
    }
    try_all(comparison, MANY, &lines);
}

/// Every set of attributes, count, amount and values broken at once.
fn stages(comparison: &mut Comparison, random: &mut Random) {
    let mut lines = Vec::new();
    for _ in 0..comparison.amount(150) {
        for broken in 0..16u8 {
            let line = with_broken(random, broken);
            lines.push(shuffled(random, &line));
        }
    }
    try_all(comparison, STAGES, &lines);
}

/// The four low bits of `set` say what is broken, in the order of the judgement.
fn with_broken(random: &mut Random, set: u8) -> String {
    let broken = |stage: u8| set & (1 << stage) != 0;
    let mut parts = any_record(random);
    // Values first: which channel has one depends on the description as it was.
    if broken(3) {
        break_value(random, &mut parts);
        break_value(random, &mut parts);
    }
    if broken(2) {
        break_amount(random, &mut parts.values);
    }
    if broken(1) {
        break_count(random, &mut parts);
    }
    if broken(0) {
        break_range(random, &mut parts.description, Format::Full);
    }
    line(random, &parts)
}
