//! Full records to turn: such whose numbers all fit, such where something just doesn't, and such
//! that are no whole records; with rooms around both results.

use super::Tried;
use crate::asking::bodies::writes::put_outside;
use crate::asking::naming::attributes;
use crate::channels::bit;
use crate::compare::Comparison;
use crate::description::{attribute_range, stored, value_range, Description, Format};
use crate::inputs::{self, Constants, X_AND_Y};
use crate::kinds;
use crate::random::Random;
use crate::record::GREATEST_COUNT;
use crate::template::Template;
use crate::writing::Parts;

pub fn all(comparison: &Comparison, random: &mut Random) -> Vec<Tried> {
    let mut tried = Vec::new();
    for kinds in kinds::every_combination() {
        let narrow = kinds::description(random, Format::Compact, &kinds);
        let count = random.between(0, 3).min(stored(&narrow).len() as i64);
        let parts = inputs::fitting_points(random, narrow, count);
        tried.push(in_right_rooms(random, &parts));
    }
    for _ in 0..comparison.amount(600) {
        let parts = inputs::fitting_parts(random);
        tried.push(in_right_rooms(random, &parts));
    }
    for _ in 0..comparison.amount(16) {
        tried.extend((0..128).map(|broken| with_broken(random, broken)));
    }
    for _ in 0..comparison.amount(25) {
        tried.extend(every_room(random));
    }
    tried.extend(each_attribute(random));
    for channel in 0..16 {
        tried.extend(each_value(random, channel));
    }
    tried.extend((0..comparison.amount(250)).map(|_| several(random)));
    tried.extend(empty_points(random));
    tried.extend(greatest(random));
    for _ in 0..comparison.amount(6) {
        tried.extend(cut_everywhere(random));
    }
    tried.extend((0..comparison.amount(300)).map(|_| any_slice(random)));
    tried
}

/// How many bytes the template of this record has, and its body.
fn lengths(parts: &Parts) -> [usize; 2] {
    let template = inputs::template_bytes(&Template {
        description: Some(parts.description.marked(Format::Compact)),
        maximum: None,
    });
    [template.len(), parts.values.len()]
}

/// Right, or larger.
fn in_right_rooms(random: &mut Random, parts: &Parts) -> Tried {
    let rooms = lengths(parts).map(|length| length + random.pick(&[0, 0, 1, 5]));
    Tried {
        bytes: inputs::bytes(parts),
        rooms,
    }
}

/// 15 comes behind everything, so the rooms may be short.
fn in_any_rooms(random: &mut Random, parts: &Parts) -> Tried {
    match random.one_in(2) {
        true => in_right_rooms(random, parts),
        false => Tried {
            bytes: inputs::bytes(parts),
            rooms: [random.below(3), random.below(3)],
        },
    }
}

/// The seven low bits of `set` are the stages in their order: the whole slice, an attribute, the
/// count, a value, extended data, and the rooms of template and body.
fn with_broken(random: &mut Random, set: u8) -> Tried {
    let broken = |stage: u8| set & (1 << stage) != 0;
    let mut parts = inputs::fitting_parts(random);
    let [mut template, mut body] = lengths(&parts);
    if broken(3) {
        break_value(random, &mut parts);
    }
    // Points without bytes: all that there is of values goes.
    if broken(2) {
        for said in parts.description.iter_mut() {
            said.constant = said.included;
        }
        parts.values.clear();
        parts.count = random.pick(&[1, 2, 255, GREATEST_COUNT]);
        body = 0;
    }
    if broken(1) {
        break_attribute(random, &mut parts.description);
    }
    if broken(4) {
        parts.extended = inputs::extended(random).or(Some(Vec::new()));
    }
    let mut bytes = inputs::bytes(&parts);
    if broken(0) {
        break_slice(random, &mut bytes);
    }
    template = if broken(5) {
        random.below(template)
    } else {
        template + random.below(2)
    };
    body = if broken(6) {
        random.below(body)
    } else {
        body + random.below(2)
    };
    let rooms = [template, body];
    Tried { bytes, rooms }
}

/// A byte changed, the end cut off, or bytes behind.
fn break_slice(random: &mut Random, bytes: &mut Vec<u8>) {
    let place = random.below(bytes.len());
    match random.below(3) {
        0 => inputs::damage(random, bytes, place),
        1 => bytes.truncate(place),
        _ => bytes.push(random.byte()),
    }
}

/// One value that doesn't fit one byte, where a full record has such.
fn break_value(random: &mut Random, parts: &mut Parts) {
    let mut values = parts.values.clone();
    put_outside(random, &parts.description, &mut values);
    let channels = stored(&parts.description).into_iter().cycle();
    for (value, channel) in values.iter_mut().zip(channels) {
        let (low, high) = value_range(Format::Full, channel);
        *value = (*value).clamp(low, high);
    }
    parts.values = values;
}

/// One attribute of an included channel that doesn't fit one byte. A scaling value always fits, and
/// stays.
fn break_attribute(random: &mut Random, description: &mut Description) {
    let included = |channel: &usize| description[*channel].included;
    let channels: Vec<usize> = (0..16).filter(included).collect();
    let (channel, attribute) = (random.pick(&channels), 1 + random.below(4));
    let narrow = attribute_range(Format::Compact, channel, attribute);
    let wide = attribute_range(Format::Full, channel, attribute);
    let numbers = [narrow.0 - 1, narrow.1 + 1, wide.0, wide.1];
    let said = &mut description[channel];
    said.given[attribute] = true;
    said.numbers[attribute] = random.pick(&numbers).clamp(wide.0, wide.1);
}

/// Each room one too small, right, larger, and none, with each of the other.
fn every_room(random: &mut Random) -> Vec<Tried> {
    let parts = inputs::fitting_parts(random);
    let bytes = inputs::bytes(&parts);
    let mut tried = Vec::new();
    let around = |length: usize| [length, length.saturating_sub(1), length + 1, 0];
    let [template, body] = lengths(&parts).map(around);
    for first in template {
        for second in body {
            let (bytes, rooms) = (bytes.clone(), [first, second]);
            tried.push(Tried { bytes, rooms });
        }
    }
    tried
}

/// Numbers of a full record at the ends of both ranges, and just outside the narrow one.
fn ends(narrow: (i64, i64), wide: (i64, i64)) -> Vec<i64> {
    let mut numbers = vec![
        narrow.0 - 1,
        narrow.0,
        narrow.1,
        narrow.1 + 1,
        wide.0,
        wide.1,
    ];
    numbers.retain(|number| (wide.0..=wide.1).contains(number));
    numbers.sort_unstable();
    numbers.dedup();
    numbers
}

/// Each attribute by itself, with up to two points.
fn each_attribute(random: &mut Random) -> Vec<Tried> {
    let mut tried = Vec::new();
    for attribute in attributes::all() {
        let [narrow, wide] = [Format::Compact, Format::Full].map(|format| attribute.range(format));
        for number in ends(narrow, wide) {
            let said = attribute.only(Format::Compact, true, number);
            let count = random.between(0, 2);
            let parts = inputs::fitting_points(random, said, count);
            tried.push(in_any_rooms(random, &parts));
        }
    }
    tried
}

/// The channel's value at each of these, in the first or the second point.
fn each_value(random: &mut Random, channel: usize) -> Vec<Tried> {
    let [narrow, wide] = [Format::Compact, Format::Full].map(|format| value_range(format, channel));
    let mut tried = Vec::new();
    for number in ends(narrow, wide) {
        for point in 0..2 {
            let set = X_AND_Y | bit(channel) | bit(random.below(16));
            let said = inputs::description(random, Format::Compact, set, Constants::None);
            let mut parts = inputs::fitting_points(random, said, 2);
            let channels = stored(&said);
            let before = channels.iter().filter(|other| **other < channel).count();
            parts.values[point * channels.len() + before] = number;
            tried.push(in_any_rooms(random, &parts));
        }
    }
    tried
}

/// Up to three attributes and up to three values that don't fit, and extended data now and then.
fn several(random: &mut Random) -> Tried {
    let mut parts = inputs::fitting_parts(random);
    for _ in 0..random.below(4) {
        break_value(random, &mut parts);
    }
    if random.one_in(2) {
        for _ in 0..random.below(4) {
            break_attribute(random, &mut parts.description);
        }
    }
    if random.one_in(4) {
        parts.extended = inputs::extended(random);
    }
    in_any_rooms(random, &parts)
}

/// No stored channel: only without points does it fit.
fn empty_points(random: &mut Random) -> Vec<Tried> {
    let mut tried = Vec::new();
    for count in [
        0,
        0,
        1,
        2,
        255,
        256,
        65536,
        GREATEST_COUNT - 1,
        GREATEST_COUNT,
    ] {
        for extended in [None, Some(Vec::new()), Some(random.bytes(2))] {
            let set = inputs::set(random);
            let said = inputs::description(random, Format::Compact, set, Constants::All);
            let mut parts = inputs::fitting_points(random, said, 0);
            parts.count = count;
            parts.extended = extended;
            tried.push(in_any_rooms(random, &parts));
        }
    }
    tried
}

/// All channels with all attributes that fit, and some hundreds of points of few channels.
fn greatest(random: &mut Random) -> Vec<Tried> {
    let mut said = Description::empty(Format::Compact);
    for (channel, said) in said.iter_mut().enumerate() {
        *said = inputs::said(random, Format::Compact, channel, 0xF8);
    }
    let two = inputs::description(random, Format::Compact, X_AND_Y, Constants::None);
    let all = [(said, 3), (said, 12), (two, 255), (two, 256), (two, 257)];
    let of = |(said, count)| {
        let parts = inputs::fitting_points(random, said, count);
        in_right_rooms(random, &parts)
    };
    all.map(of).into()
}

/// Every beginning of a record, the empty one and the whole record too.
fn cut_everywhere(random: &mut Random) -> Vec<Tried> {
    let parts = inputs::fitting_parts(random);
    let bytes = inputs::bytes(&parts);
    let rooms = lengths(&parts);
    let front = |length: usize| Tried {
        bytes: bytes[..length].to_vec(),
        rooms: rooms.map(|room| random.pick(&[room, 0])),
    };
    (0..=bytes.len()).map(front).collect()
}

/// Records of any numbers, damaged at up to two bytes, cut or lengthened.
fn any_slice(random: &mut Random) -> Tried {
    Tried {
        bytes: inputs::any_slice(random),
        rooms: [random.below(40), random.below(40)],
    }
}
