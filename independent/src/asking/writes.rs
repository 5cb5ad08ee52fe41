//! Writing records: good ones, and every stage of refusal, alone and with others.

use crate::answers::hex;
use crate::channels::{bit, X, Y};
use crate::compare::Comparison;
use crate::description::{attribute_range, stored, value_range, Description, Format, Said};
use crate::inputs::{self, Constants, X_AND_Y};
use crate::questions;
use crate::random::Random;
use crate::record::GREATEST_COUNT;
use crate::words::ROOM;
use crate::writing::Parts;

const GOOD: &str = "records written";
const STAGES: &str = "writing with stages broken";
const RANGES: &str = "writing numbers at and outside their ranges";
const UNTIDY: &str = "writing untidy descriptions";
/// The ends of what a word of `ask` can hold.
pub const ENDS: [i64; 2] = [-2_147_483_648, 2_147_483_647];

pub fn ask_all(comparison: &mut Comparison, random: &mut Random) {
    good(comparison, random);
    stages(comparison, random);
    attributes(comparison, random);
    values(comparison, random);
    amounts(comparison, random);
    counts(comparison, random);
    untidy(comparison, random);
}

/// Rooms around the record's length, with extended data wanted or only lent.
fn good(comparison: &mut Comparison, random: &mut Random) {
    for _ in 0..comparison.amount(1500) {
        let mut parts = inputs::any_parts(random);
        let length = inputs::bytes(&parts).len();
        for room in [
            length,
            length - 1,
            length + 1 + random.below(9),
            random.below(length),
        ] {
            comparison.ask(GOOD, questions::write(&parts, room));
        }
        comparison.ask(GOOD, questions::write(&parts, 0));
        let amount = random.below(9);
        let lent = format!("!{}", hex(&random.bytes(amount)));
        parts.extended = None;
        let length = inputs::bytes(&parts).len();
        let room = length + random.below(2);
        comparison.ask(GOOD, questions::write_with(&parts, &lent, room));
    }
    let parts = inputs::small_parts(random);
    comparison.ask(GOOD, questions::write(&parts, ROOM.1 as usize));
}

/// Every set of stages broken at once; the earliest must decide.
fn stages(comparison: &mut Comparison, random: &mut Random) {
    for _ in 0..comparison.amount(40) {
        for broken in 0..128u8 {
            let parts = inputs::any_parts(random);
            let length = inputs::bytes(&parts).len();
            comparison.ask(STAGES, with_broken(random, parts, length, broken));
        }
    }
}

/// The seven low bits of `set` are the stages 4, 11, 12 and 12, 13, 12 and 15 in their order;
/// `length` is that of the record before any of them is broken.
pub fn with_broken(random: &mut Random, parts: Parts, length: usize, set: u8) -> String {
    let (parts, room) = break_stages(random, parts, length, set);
    questions::write(&parts, room)
}

/// The same as parts and the room.
pub fn break_stages(
    random: &mut Random,
    mut parts: Parts,
    length: usize,
    set: u8,
) -> (Parts, usize) {
    let broken = |stage: u8| set & (1 << stage) != 0;
    // Values first: which channel has one depends on the description as it was.
    if broken(5) {
        break_value(random, &mut parts);
    }
    if broken(4) {
        break_amount(random, &mut parts.values);
    }
    if broken(3) {
        break_count(random, &mut parts);
    }
    if broken(2) {
        break_range(random, &mut parts.description, Format::Full);
    }
    if broken(1) {
        break_tidiness(random, &mut parts.description);
    }
    if broken(0) {
        leave_out(random, &mut parts.description);
    }
    let room = if broken(6) {
        random.below(length)
    } else {
        length + 60
    };
    (parts, room)
}

/// X or Y or both not included, perhaps with nothing said of it.
pub fn leave_out(random: &mut Random, description: &mut Description) {
    for channel in random.pick(&[vec![X], vec![Y], vec![X, Y]]) {
        description[channel].included = false;
        if random.one_in(2) {
            description[channel] = Said::default();
        }
    }
}

pub fn break_tidiness(random: &mut Random, description: &mut Description) {
    let channel = random.below(16);
    let attribute = random.below(5);
    let said = &mut description[channel];
    if said.included || random.one_in(2) {
        said.given[attribute] = false;
        said.numbers[attribute] = random.pick(&[1, -1, 5, 70000, ENDS[0], ENDS[1]]);
        return;
    }
    match random.below(3) {
        0 => said.constant = true,
        1 => said.removed = true,
        _ => said.given[attribute] = true,
    }
}

pub fn break_range(random: &mut Random, description: &mut Description, format: Format) {
    let included: Vec<usize> = (0..16)
        .filter(|channel| description[*channel].included)
        .collect();
    let channel = random.pick(&included);
    let attribute = random.below(5);
    let (low, high) = attribute_range(format, channel, attribute);
    description[channel].given[attribute] = true;
    description[channel].numbers[attribute] = random.pick(&[low - 1, high + 1, ENDS[0], ENDS[1]]);
}

pub fn break_count(random: &mut Random, parts: &mut Parts) {
    parts.count = GREATEST_COUNT + random.pick(&[1, 2, 1_000_000_000_000]);
}

/// A value too few, some too many, or none.
pub fn break_amount(random: &mut Random, values: &mut Vec<i64>) {
    match random.below(3) {
        0 if !values.is_empty() => values.truncate(values.len() - 1),
        1 if !values.is_empty() => values.clear(),
        _ => values.extend([0, 0, 0].iter().take(1 + random.below(3))),
    }
}

/// One value outside its range, where there is a value.
pub fn break_value(random: &mut Random, parts: &mut Parts) {
    let channels = stored(&parts.description);
    let place = random.below(parts.values.len());
    if let Some(value) = parts.values.get_mut(place) {
        let (low, high) = value_range(parts.description.mark, channels[place % channels.len()]);
        *value = random.pick(&[low - 1, high + 1, ENDS[0], ENDS[1]]);
    }
}

/// Every attribute of every channel at its ends and outside.
fn attributes(comparison: &mut Comparison, random: &mut Random) {
    for channel in 0..16 {
        for attribute in 0..5 {
            let (low, high) = attribute_range(Format::Full, channel, attribute);
            for number in [low - 1, low, -1, 0, 1, high, high + 1, ENDS[0], ENDS[1]] {
                let set = X_AND_Y | bit(channel);
                let mut parts = inputs::parts(random, set, Constants::Some, 1);
                parts.description[channel].given[attribute] = true;
                parts.description[channel].numbers[attribute] = number;
                comparison.ask(RANGES, questions::write(&parts, 120));
            }
        }
    }
}

/// Every channel's value at its ends and outside, in the first, a middle and the last point.
fn values(comparison: &mut Comparison, random: &mut Random) {
    for channel in 0..16 {
        let (low, high) = value_range(Format::Full, channel);
        for number in [
            low - 1,
            low,
            -1,
            0,
            1,
            2,
            128,
            high,
            high + 1,
            ENDS[0],
            ENDS[1],
        ] {
            for point in 0..3 {
                let set = X_AND_Y | bit(channel) | random.next() as u16 & random.next() as u16;
                let mut parts = inputs::parts(random, set, Constants::None, 3);
                let channels = stored(&parts.description);
                let before = channels.iter().filter(|other| **other < channel).count();
                parts.values[point * channels.len() + before] = number;
                comparison.ask(RANGES, questions::write(&parts, 320));
            }
        }
    }
}

/// Values too few and too many, up to a point's worth and one more.
fn amounts(comparison: &mut Comparison, random: &mut Random) {
    for _ in 0..comparison.amount(60) {
        let parts = inputs::any_parts(random);
        let most = stored(&parts.description).len() + 1;
        for fewer in 1..=most.min(parts.values.len()) {
            let mut parts = parts.clone();
            parts.values.truncate(parts.values.len() - fewer);
            comparison.ask(STAGES, questions::write(&parts, 400));
        }
        for more in 1..=most {
            let mut parts = parts.clone();
            parts.values.extend(vec![0; more]);
            comparison.ask(STAGES, questions::write(&parts, 400));
        }
    }
}

/// Counts around the greatest, with points that have bytes and points that have none.
fn counts(comparison: &mut Comparison, random: &mut Random) {
    let greatest = GREATEST_COUNT;
    let far = 999_999_999_999_999_999;
    for count in [
        0,
        1,
        255,
        256,
        65535,
        65536,
        greatest - 1,
        greatest,
        greatest + 1,
        far,
    ] {
        for constants in [Constants::None, Constants::Some, Constants::All] {
            for amount in [0, 1] {
                let mut parts = inputs::parts(random, X_AND_Y, constants, amount);
                parts.count = count;
                comparison.ask(RANGES, questions::write(&parts, 80));
            }
        }
    }
}

/// Every way to be untidy, and its tidy neighbour.
fn untidy(comparison: &mut Comparison, random: &mut Random) {
    for channel in 0..16 {
        for said in untidy_ways() {
            let set = X_AND_Y | bit(channel);
            let mut parts = inputs::parts(random, set, Constants::None, 0);
            parts.description[channel] = said;
            comparison.ask(UNTIDY, questions::write(&parts, 100));
        }
    }
}

pub fn untidy_ways() -> Vec<Said> {
    let mut ways = Vec::new();
    for included in [true, false] {
        let base = Said {
            included,
            ..Said::default()
        };
        let (mut constant, mut removed) = (base, base);
        constant.constant = true;
        removed.removed = true;
        ways.extend([base, constant, removed]);
        ways.extend((0..5).flat_map(|attribute| ways_of_attribute(base, attribute)));
    }
    ways
}

fn ways_of_attribute(base: Said, attribute: usize) -> Vec<Said> {
    let numbers = [
        (true, 0),
        (true, 5),
        (false, 5),
        (false, -1),
        (false, 70000),
    ];
    let way = |(given, number)| {
        let mut way = base;
        way.given[attribute] = given;
        way.numbers[attribute] = number;
        way
    };
    numbers.map(way).to_vec()
}
