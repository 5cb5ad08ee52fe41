//! Seeded inputs: descriptions, parts of records, templates, and damage to bytes.

use crate::channels::{bit, S};
use crate::description::{attribute_range, point_size, stored, value_range, value_width};
use crate::description::{Description, Format, Said};
use crate::random::Random;
use crate::template::{self, Template};
use crate::values::Order;
use crate::writing::{self, put_values, Parts};

/// X and Y, which every set has.
pub const X_AND_Y: u16 = 0xC000;

#[derive(Clone, Copy)]
pub enum Constants {
    None,
    Some,
    All,
}

pub fn set(random: &mut Random) -> u16 {
    X_AND_Y | random.next() as u16
}

/// X, Y and up to three others, S half the time.
fn small_set(random: &mut Random) -> u16 {
    let mut set = X_AND_Y;
    for _ in 0..random.below(4) {
        set |= bit(random.below(16));
    }
    if random.one_in(2) {
        set |= bit(S);
    }
    set
}

/// A number of a range: an end, nearly an end, 0, 1, -1 or any.
pub fn number(random: &mut Random, (low, high): (i64, i64)) -> i64 {
    let any = random.between(low, high);
    random
        .pick(&[low, high, low + 1, high - 1, 0, 1, -1, any, any, any])
        .clamp(low, high)
}

/// What is said of one channel, with the five attribute flags and the two others of `flags`.
pub fn said(random: &mut Random, format: Format, channel: usize, flags: u8) -> Said {
    let mut said = Said {
        included: true,
        constant: flags & 4 != 0,
        ..Said::default()
    };
    said.removed = flags & 2 != 0;
    for attribute in 0..5 {
        if flags & (0x80 >> attribute) != 0 {
            said.given[attribute] = true;
            said.numbers[attribute] = number(random, attribute_range(format, channel, attribute));
        }
    }
    said
}

fn flags(random: &mut Random, constants: Constants) -> u8 {
    let any = random.byte();
    // Few, half or all of the flags.
    let few = any & random.byte() & random.byte();
    let flags = random.pick(&[any, few, 0, 0xFF]);
    let constant = match constants {
        Constants::None => 0,
        Constants::Some => random.byte() & 4,
        Constants::All => 4,
    };
    flags & !4 | constant
}

pub fn description(
    random: &mut Random,
    format: Format,
    set: u16,
    constants: Constants,
) -> Description {
    let mut description = Description::empty(format);
    for channel in (0..16).filter(|channel| set & bit(*channel) != 0) {
        let flags = flags(random, constants);
        description[channel] = said(random, format, channel, flags);
    }
    description
}

pub fn values(random: &mut Random, description: &Description, count: i64) -> Vec<i64> {
    let channels = stored(description);
    let amount = count as usize * channels.len();
    let of = |&channel: &usize| number(random, value_range(description.mark, channel));
    channels.iter().cycle().take(amount).map(of).collect()
}

pub fn extended(random: &mut Random) -> Option<Vec<u8>> {
    let some = random.below(12);
    match random.below(5) {
        0 | 1 => None,
        2 => Some(Vec::new()),
        3 => Some(random.bytes(1)),
        _ => Some(random.bytes(some)),
    }
}

pub fn parts(random: &mut Random, set: u16, constants: Constants, count: i64) -> Parts {
    let description = description(random, Format::Full, set, constants);
    of_description(random, description, count)
}

/// With any values, and perhaps with extended data.
pub fn of_description(random: &mut Random, description: Description, count: i64) -> Parts {
    let values = values(random, &description, count);
    Parts {
        description,
        count,
        values,
        extended: extended(random),
    }
}

fn constants(random: &mut Random) -> Constants {
    random.pick(&[
        Constants::None,
        Constants::Some,
        Constants::Some,
        Constants::All,
    ])
}

/// A few channels with few attributes.
pub fn small_description(random: &mut Random, format: Format) -> Description {
    let set = small_set(random);
    let constants = constants(random);
    let mut description = Description::empty(format);
    for channel in (0..16).filter(|channel| set & bit(*channel) != 0) {
        let few = flags(random, constants) & (random.byte() | 6);
        description[channel] = said(random, format, channel, few);
    }
    description
}

/// X and Y alone, all channels, or any.
pub fn any_description(random: &mut Random, format: Format) -> Description {
    let set = random.pick(&[X_AND_Y, 0xFFFF, 0, 0, 0, 0]);
    let set = if set == 0 { self::set(random) } else { set };
    let constants = constants(random);
    description(random, format, set, constants)
}

/// Mostly of a few channels.
pub fn mixed_description(random: &mut Random, format: Format) -> Description {
    match random.one_in(3) {
        true => any_description(random, format),
        false => small_description(random, format),
    }
}

/// Parts of a record short enough to be damaged at every byte.
pub fn small_parts(random: &mut Random) -> Parts {
    let description = small_description(random, Format::Full);
    let count = random.between(0, 3);
    of_description(random, description, count)
}

pub fn any_parts(random: &mut Random) -> Parts {
    let description = any_description(random, Format::Full);
    let count = random.between(0, 4);
    of_description(random, description, count)
}

/// All channels with all attributes, none of them constant.
pub fn greatest_parts(random: &mut Random, count: i64) -> Parts {
    let mut description = Description::empty(Format::Full);
    for (channel, said) in description.iter_mut().enumerate() {
        let flags = 0xF8 | random.byte() & 2;
        *said = self::said(random, Format::Full, channel, flags);
    }
    of_description(random, description, count)
}

/// The same parts with the values column after column: of each point its first value, then of each
/// its second, and so on. Values of a wrong amount are as many as before.
pub fn in_columns(parts: &Parts) -> Parts {
    let channels = stored(&parts.description).len();
    let column = |number| parts.values.iter().skip(number).step_by(channels).copied();
    let values = match channels {
        0 => parts.values.clone(),
        _ => (0..channels).flat_map(column).collect(),
    };
    Parts {
        values,
        ..parts.clone()
    }
}

/// The record's bytes. Parts made here are good, so the writer never refuses them.
pub fn bytes(parts: &Parts) -> Vec<u8> {
    writing::write(parts, usize::MAX).unwrap_or_default()
}

pub fn small_record(random: &mut Random) -> Vec<u8> {
    bytes(&small_parts(random))
}

/// The places of the bytes that a rule is about: identifier, version, first inclusion byte,
/// descriptors, reserved byte, opening byte and the S bytes of the points.
pub fn ruled_places(parts: &Parts) -> Vec<usize> {
    let mut places: Vec<usize> = (0..9).collect();
    let mut place = 10;
    for said in parts.description.iter().filter(|said| said.included) {
        places.push(place);
        place += 1 + 2 * said.given.iter().filter(|given| **given).count();
    }
    places.extend([place, place + 1]);
    places.extend(s_places(parts, place + 5));
    places
}

fn s_places(parts: &Parts, start: usize) -> Vec<usize> {
    let channels = stored(&parts.description);
    if !channels.contains(&S) {
        return Vec::new();
    }
    let before: usize = channels
        .iter()
        .filter(|channel| **channel < S)
        .map(|channel| value_width(parts.description.mark, *channel))
        .sum();
    let size = point_size(&parts.description);
    (0..parts.count as usize)
        .map(|index| start + index * size + before)
        .collect()
}

/// Another value than the byte has: a bit turned, a telling value, or any.
pub fn damage(random: &mut Random, bytes: &mut [u8], place: usize) {
    let Some(byte) = bytes.get_mut(place) else {
        return;
    };
    let turned = *byte ^ (1 << random.below(8));
    let any = random.byte();
    let new = random.pick(&[turned, turned, 0, 1, 2, 0x7F, 0x80, 0xFF, any]);
    *byte = if new == *byte { !new } else { new };
}

/// A record damaged at up to two bytes, and then as it is, cut short or with bytes behind.
pub fn any_slice(random: &mut Random) -> Vec<u8> {
    let parts = match random.one_in(4) {
        true => any_parts(random),
        false => small_parts(random),
    };
    let mut bytes = bytes(&parts);
    for _ in 0..random.below(3) {
        let place = match random.one_in(2) {
            true => random.pick(&ruled_places(&parts)),
            false => random.below(bytes.len()),
        };
        damage(random, &mut bytes, place);
    }
    match random.below(3) {
        0 => bytes.truncate(random.below(bytes.len())),
        1 => bytes.extend(few_bytes(random)),
        _ => (),
    }
    bytes
}

/// Up to seven bytes.
pub fn few_bytes(random: &mut Random) -> Vec<u8> {
    let amount = random.below(8);
    random.bytes(amount)
}

pub fn template(random: &mut Random) -> Template {
    let set = small_set(random)
        | if random.one_in(3) {
            random.next() as u16
        } else {
            0
        };
    let said = description(random, Format::Compact, set, Constants::Some);
    let maximum = maximum(random);
    Template {
        description: Some(said).filter(|_| !random.one_in(4)),
        maximum: Some(maximum).filter(|_| !random.one_in(3)),
    }
}

/// The maxima at which the number of bytes changes.
pub const MAXIMA: [i64; 13] = [
    0, 1, 100, 127, 128, 255, 256, 32767, 32768, 65535, 65536, 8_388_608, 16_777_215,
];

pub fn maximum(random: &mut Random) -> i64 {
    match random.one_in(3) {
        true => random.between(0, 16_777_215),
        false => random.pick(&MAXIMA),
    }
}

pub fn template_bytes(template: &Template) -> Vec<u8> {
    template::write(template, usize::MAX).unwrap_or_default()
}

/// The bytes of so many points with any values, each in the ranges of the description's mark.
pub fn points(random: &mut Random, description: &Description, count: i64) -> Vec<u8> {
    let values = values(random, description, count);
    let mut bytes = Vec::new();
    put_values(&mut bytes, Order::Points, &values, description);
    bytes
}

/// Parts of a record whose numbers all fit one byte, so that it can be turned (request L4).
pub fn fitting_parts(random: &mut Random) -> Parts {
    let narrow = mixed_description(random, Format::Compact);
    let count = match stored(&narrow).len() {
        0 => 0,
        _ => random.between(0, 4),
    };
    fitting_points(random, narrow, count)
}

/// The same of this description, whose numbers fit.
pub fn fitting_points(random: &mut Random, narrow: Description, count: i64) -> Parts {
    Parts {
        values: values(random, &narrow, count),
        description: narrow.marked(Format::Full),
        count,
        extended: None,
    }
}
