//! Templates: read whole, cut, damaged and made wrong on purpose; and written.

use super::writes::{break_range, break_tidiness, leave_out, untidy_ways, ENDS};
use crate::channels::bit;
use crate::compare::Comparison;
use crate::description::{attribute_range, Description, Format};
use crate::inputs::{self, Constants, MAXIMA, X_AND_Y};
use crate::questions;
use crate::random::Random;
use crate::template::Template;
use crate::words::ROOM;

const GOOD: &str = "valid templates";
const CUT: &str = "templates cut short or lengthened";
const DAMAGED: &str = "templates damaged";
const WRONG: &str = "templates made wrong";
const WRITTEN: &str = "templates written";
const STAGES: &str = "writing templates with stages broken";
const RANGES: &str = "writing templates at and outside ranges";

pub fn ask_all(comparison: &mut Comparison, random: &mut Random) {
    good(comparison, random);
    every_flag(comparison, random);
    cut_everywhere(comparison, random);
    damaged_everywhere(comparison, random);
    every_value(comparison);
    every_length(comparison);
    every_maximum(comparison);
    soup(comparison, random);
    written(comparison, random);
    maxima_written(comparison, random);
    stages(comparison, random);
    ranges(comparison, random);
    untidy(comparison, random);
}

fn ask(comparison: &mut Comparison, kind: &'static str, bytes: &[u8]) {
    comparison.ask(kind, questions::of_bytes("template", bytes));
}

fn good(comparison: &mut Comparison, random: &mut Random) {
    for _ in 0..comparison.amount(2500) {
        let template = inputs::template(random);
        ask(comparison, GOOD, &inputs::template_bytes(&template));
    }
    // All sixteen channels with all attributes: 81 holds 114 bytes.
    let mut description = Description::empty(Format::Compact);
    for (channel, said) in description.iter_mut().enumerate() {
        *said = inputs::said(random, Format::Compact, channel, 0xFE);
    }
    let template = Template {
        description: Some(description),
        maximum: Some(16_777_215),
    };
    ask(comparison, GOOD, &inputs::template_bytes(&template));
}

/// Every combination of a channel's seven flags.
fn every_flag(comparison: &mut Comparison, random: &mut Random) {
    for channel in 0..16 {
        for flags in 0..128 {
            let mut description = Description::empty(Format::Compact);
            for each in [0, 1, channel] {
                let flags = if each == channel { flags * 2 } else { 0 };
                description[each] = inputs::said(random, Format::Compact, each, flags);
            }
            let template = Template {
                description: Some(description),
                maximum: None,
            };
            ask(comparison, GOOD, &inputs::template_bytes(&template));
        }
    }
}

/// Cut with the outer length as it was, and cut with it made to fit, so that 81 or 82 runs out.
fn cut_everywhere(comparison: &mut Comparison, random: &mut Random) {
    for _ in 0..comparison.amount(100) {
        let bytes = inputs::template_bytes(&inputs::template(random));
        for length in 0..=bytes.len() {
            let mut front = bytes[..length].to_vec();
            ask(comparison, CUT, &front);
            if length >= 2 {
                front[1] = (length - 2) as u8;
                ask(comparison, CUT, &front);
            }
        }
        let mut longer = bytes;
        let few = 1 + random.below(3);
        longer.extend(random.bytes(few));
        ask(comparison, CUT, &longer);
        longer[1] = (longer.len() - 2) as u8;
        ask(comparison, CUT, &longer);
    }
}

fn damaged_everywhere(comparison: &mut Comparison, random: &mut Random) {
    for _ in 0..comparison.amount(100) {
        let bytes = inputs::template_bytes(&inputs::template(random));
        for place in 0..bytes.len() {
            for _ in 0..4 {
                let mut damaged = bytes.clone();
                inputs::damage(random, &mut damaged, place);
                ask(comparison, DAMAGED, &damaged);
                // A second damage, somewhere.
                let second = random.below(bytes.len());
                inputs::damage(random, &mut damaged, second);
                ask(comparison, DAMAGED, &damaged);
            }
        }
    }
}

/// Every value of every byte of a few short templates.
fn every_value(comparison: &mut Comparison) {
    let short: [&[u8]; 4] = [
        &[
            0xB1, 0x09, 0x81, 0x04, 0xC0, 0x00, 0x00, 0x00, 0x82, 0x01, 0x64,
        ],
        &[
            0xB1, 0x09, 0x81, 0x07, 0xC0, 0x80, 0x00, 0x00, 0x84, 0xB4, 0x80,
        ],
        &[0xB1, 0x05, 0x82, 0x03, 0x01, 0x00, 0x00],
        &[
            0xB1, 0x0B, 0x81, 0x05, 0xC0, 0x00, 0x40, 0x7F, 0x00, 0x82, 0x02, 0x01, 0x00,
        ],
    ];
    for bytes in short {
        for place in 0..bytes.len() {
            for value in 0..=255 {
                let mut damaged = bytes.to_vec();
                damaged[place] = value;
                ask(comparison, DAMAGED, &damaged);
            }
        }
    }
}

/// Outer and inner lengths from 0 to 255, with fitting, fewer and more bytes behind.
fn every_length(comparison: &mut Comparison) {
    for length in 0..=255u8 {
        for amount in [length, length.saturating_sub(1), length.saturating_add(1)] {
            let content = vec![0x55; usize::from(amount)];
            ask(comparison, WRONG, &[&[0xB1, length], &content[..]].concat());
            for tag in [0x81, 0x82] {
                let inside = [&[tag, length], &content[..]].concat();
                ask(
                    comparison,
                    WRONG,
                    &[&[0xB1, inside.len() as u8], &inside[..]].concat(),
                );
            }
        }
    }
}

/// Maxima of 0 to 5 bytes, with and without a leading zero, alone and behind 81.
fn every_maximum(comparison: &mut Comparison) {
    for length in 0..6usize {
        for first in [0, 1, 0x7F, 0x80, 0xFF] {
            for other in [0, 1, 0xFF] {
                let mut number = vec![other; length];
                if let Some(byte) = number.first_mut() {
                    *byte = first;
                }
                let maximum = [&[0x82, length as u8], &number[..]].concat();
                ask(
                    comparison,
                    WRONG,
                    &[&[0xB1, maximum.len() as u8], &maximum[..]].concat(),
                );
                let both = [&[0x81, 4, 0xC0, 0, 0, 0], &maximum[..]].concat();
                ask(
                    comparison,
                    WRONG,
                    &[&[0xB1, both.len() as u8], &both[..]].concat(),
                );
            }
        }
    }
}

/// A few elements in any order, repeated, wrong or right, with lengths mostly right.
fn soup(comparison: &mut Comparison, random: &mut Random) {
    for _ in 0..comparison.amount(6000) {
        ask(comparison, WRONG, &any_elements(random));
    }
}

pub fn any_elements(random: &mut Random) -> Vec<u8> {
    let mut content = Vec::new();
    for _ in 0..random.below(4) {
        content.extend(element(random));
    }
    let mut bytes = vec![0xB1, content.len() as u8];
    bytes.extend(content);
    match random.below(12) {
        0 => bytes[1] = bytes[1].wrapping_add(1),
        1 => bytes[1] = bytes[1].wrapping_sub(1),
        2 => bytes[0] = random.byte(),
        3 => bytes.push(random.byte()),
        _ => {}
    }
    bytes
}

fn element(random: &mut Random) -> Vec<u8> {
    let tag = match random.below(8) {
        0 => random.byte(),
        1..=3 => 0x81,
        _ => 0x82,
    };
    let amount = random.below(5);
    let content = match random.below(4) {
        0 => random.bytes(amount),
        1 if tag == 0x82 => random.bytes(1),
        _ => inner(random, tag),
    };
    let length = match random.below(10) {
        0 => content.len() as u8 + 1,
        1 => (content.len() as u8).saturating_sub(1),
        2 => random.byte(),
        _ => content.len() as u8,
    };
    // Now and then a tag with no length behind it.
    if random.one_in(12) {
        return vec![tag];
    }
    [&[tag, length], &content[..]].concat()
}

/// The right content of 81 or 82.
fn inner(random: &mut Random, tag: u8) -> Vec<u8> {
    let description = inputs::description(random, Format::Compact, X_AND_Y, Constants::Some);
    let maximum = inputs::maximum(random);
    let template = match tag {
        0x81 => Template {
            description: Some(description),
            maximum: None,
        },
        _ => Template {
            description: None,
            maximum: Some(maximum),
        },
    };
    inputs::template_bytes(&template).split_off(4)
}

fn written(comparison: &mut Comparison, random: &mut Random) {
    for _ in 0..comparison.amount(1200) {
        let template = inputs::template(random);
        let length = inputs::template_bytes(&template).len();
        for room in [length, length - 1, length + 1 + random.below(5), 0] {
            comparison.ask(WRITTEN, questions::write_template(&template, room));
        }
    }
    comparison.ask(
        WRITTEN,
        questions::write_template(&inputs::template(random), ROOM.1 as usize),
    );
}

/// Each maximum wanted and only lent, with a description wanted, only lent, and without one.
fn maxima_written(comparison: &mut Comparison, random: &mut Random) {
    let above = [16_777_216, 16_777_217, 2_147_483_648, 4_294_967_295];
    for maximum in MAXIMA.into_iter().chain(above) {
        for room in [0, 4, 5, 6, 7, 8, 40] {
            let description =
                inputs::description(random, Format::Compact, X_AND_Y, Constants::Some);
            for said in [None, Some(description)] {
                let template = Template {
                    description: said,
                    maximum: Some(maximum),
                };
                let line = questions::write_template(&template, room);
                // The same with the maximum not wanted: then it doesn't count.
                let lent = line.replacen("write-template ", "write-template !", 1);
                comparison.ask(WRITTEN, line);
                comparison.ask(WRITTEN, lent);
            }
            let words = [maximum.to_string(), "!".to_string(), format!("!{maximum}")];
            for word in words {
                let line = questions::write_template_unwanted(&word, room, &description);
                comparison.ask(WRITTEN, line);
            }
        }
    }
}

/// Every set of stages broken at once, the description wanted or only lent.
fn stages(comparison: &mut Comparison, random: &mut Random) {
    for _ in 0..comparison.amount(40) {
        for broken in 0..32 {
            ask_broken(comparison, random, broken);
        }
    }
}

fn ask_broken(comparison: &mut Comparison, random: &mut Random, broken: u8) {
    let Broken {
        description,
        maximum,
        room,
    } = break_stages(random, broken);
    let template = Template {
        description: Some(description),
        maximum: Some(maximum),
    };
    comparison.ask(STAGES, questions::write_template(&template, room));
    for word in [maximum.to_string(), format!("!{maximum}")] {
        let line = questions::write_template_unwanted(&word, room, &description);
        comparison.ask(STAGES, line);
    }
}

/// What a template is written from, and the room.
pub struct Broken {
    pub description: Description,
    pub maximum: i64,
    pub room: usize,
}

/// The five low bits of `broken` are the stages 4, 11, 12 and 12, and 15 in their order.
pub fn break_stages(random: &mut Random, broken: u8) -> Broken {
    let mut description = inputs::description(random, Format::Compact, X_AND_Y, Constants::Some);
    let maximum = if broken & 8 != 0 {
        16_777_216 + random.between(0, 9)
    } else {
        100
    };
    if broken & 4 != 0 {
        break_range(random, &mut description, Format::Compact);
    }
    if broken & 2 != 0 {
        break_tidiness(random, &mut description);
    }
    if broken & 1 != 0 {
        leave_out(random, &mut description);
    }
    let room = if broken & 16 != 0 {
        random.below(5)
    } else {
        60
    };
    Broken {
        description,
        maximum,
        room,
    }
}

/// Every attribute of every channel at its compact ends, outside, and at the full ends.
fn ranges(comparison: &mut Comparison, random: &mut Random) {
    for channel in 0..16 {
        for attribute in 0..5 {
            let (low, high) = attribute_range(Format::Compact, channel, attribute);
            let numbers = [low - 1, low, -1, 0, 1, high, high + 1, -32768, 32767, 65535];
            for number in numbers.into_iter().chain(ENDS) {
                let set = X_AND_Y | bit(channel);
                let mut said = inputs::description(random, Format::Compact, set, Constants::Some);
                said[channel].given[attribute] = true;
                said[channel].numbers[attribute] = number;
                let template = Template {
                    description: Some(said),
                    maximum: None,
                };
                comparison.ask(RANGES, questions::write_template(&template, 60));
            }
        }
    }
}

fn untidy(comparison: &mut Comparison, random: &mut Random) {
    for channel in 0..16 {
        for said in untidy_ways() {
            let mut description =
                inputs::description(random, Format::Compact, X_AND_Y, Constants::Some);
            description[channel] = said;
            let template = Template {
                description: Some(description),
                maximum: Some(7),
            };
            comparison.ask(RANGES, questions::write_template(&template, 60));
        }
    }
}
