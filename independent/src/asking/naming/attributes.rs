//! Attributes out of range in records and templates: alone, every two, and many; with what is
//! judged before them, and with a template's maximum behind them.

use super::{outside, shuffled, try_all, try_flags, try_turned, Flagged};
use crate::asking::writes::{break_range, break_tidiness, leave_out, ENDS};
use crate::channels::{bit, CHANNELS};
use crate::compare::Comparison;
use crate::description::{attribute_range, Description, Format, ATTRIBUTES};
use crate::inputs::{self, Constants, X_AND_Y};
use crate::questions;
use crate::random::Random;
use crate::template::Template;
use crate::writing::Parts;

const ALONE: &str = "naming one attribute";
const PAIRS: &str = "naming the first of two attributes";
const BEHIND: &str = "naming behind refusals 4 and 11";
const MANY: &str = "naming the first of many attributes";
const MAXIMA: &str = "naming in templates with maxima";

pub fn ask_all(comparison: &mut Comparison, random: &mut Random) {
    for format in [Format::Full, Format::Compact] {
        alone(comparison, random, format);
        pairs(comparison, random, format);
        behind_others(comparison, random, format);
        many(comparison, random, format);
    }
    with_maxima(comparison, random);
    not_wanted(comparison, random);
}

/// An attribute of a channel.
#[derive(Clone, Copy)]
pub struct Attribute {
    channel: usize,
    attribute: usize,
}

/// All eighty in stored order.
pub fn all() -> Vec<Attribute> {
    let of_channel = |channel| (0..5).map(move |attribute| Attribute { channel, attribute });
    (0..16).flat_map(of_channel).collect()
}

impl Attribute {
    fn name(self) -> String {
        let (channel, attribute) = (CHANNELS[self.channel].name, ATTRIBUTES[self.attribute]);
        format!("{channel} {attribute}")
    }

    pub fn range(self, format: Format) -> (i64, i64) {
        attribute_range(format, self.channel, self.attribute)
    }

    /// Gives the channel this number, with its flag or without it.
    fn say(self, description: &mut Description, given: bool, number: i64) {
        let said = &mut description[self.channel];
        said.included = true;
        said.given[self.attribute] = given;
        said.numbers[self.attribute] = number;
    }

    /// X, Y and this channel, with nothing said but this number.
    pub fn only(self, format: Format, given: bool, number: i64) -> Description {
        let mut description = x_and_y(format);
        self.say(&mut description, given, number);
        description
    }
}

fn x_and_y(format: Format) -> Description {
    let mut description = Description::empty(format);
    for said in &mut description[..2] {
        said.included = true;
    }
    description
}

/// The question to write it: a record without points, or a template without a maximum. 15 comes
/// behind everything, so the room may be short.
pub fn line(random: &mut Random, description: Description, format: Format) -> String {
    let room = random.pick(&[0, 1, 3]);
    match format {
        Format::Full => {
            let parts = Parts {
                description,
                count: 0,
                values: Vec::new(),
                extended: None,
            };
            questions::write(&parts, room)
        }
        Format::Compact => {
            let template = Template {
                description: Some(description),
                maximum: None,
            };
            questions::write_template(&template, room)
        }
    }
}

/// Each attribute at the ends of its range and outside, at the ends of the other ranges too;
/// with its flag and without. 0 without its flag is tidy, so it is left out.
fn alone(comparison: &mut Comparison, random: &mut Random, format: Format) {
    let mut tried = Vec::new();
    for attribute in all() {
        let (low, high) = attribute.range(format);
        let mut numbers = vec![low - 1, low, high, high + 1, -1, -129, 128, 256];
        numbers.extend([-32769, 32768, 65536]);
        numbers.extend(ENDS);
        numbers.sort_unstable();
        numbers.dedup();
        for number in numbers.into_iter().filter(|number| *number != 0) {
            tried.push(Flagged {
                with: line(random, attribute.only(format, true, number), format),
                without: line(random, attribute.only(format, false, number), format),
                name: attribute.name(),
            });
        }
    }
    try_flags(comparison, ALONE, &tried);
}

/// Every two attributes, both out of range.
fn pairs(comparison: &mut Comparison, random: &mut Random, format: Format) {
    let mut lines = Vec::new();
    for (place, first) in all().into_iter().enumerate() {
        for second in all().into_iter().skip(place + 1) {
            let mut description = x_and_y(format);
            for attribute in [first, second] {
                let number = outside(random, attribute.range(format));
                attribute.say(&mut description, true, number);
            }
            lines.push(line(random, description, format));
        }
    }
    try_turned(comparison, PAIRS, &lines);
}

/// Each attribute out of range, with something untidy, with X or Y missing, and with both.
fn behind_others(comparison: &mut Comparison, random: &mut Random, format: Format) {
    let mut lines = Vec::new();
    for attribute in all() {
        let (low, high) = attribute.range(format);
        for number in [low - 1, high + 1] {
            for (untidy, missing) in [(true, false), (true, false), (false, true), (true, true)] {
                let mut description = attribute.only(format, true, number);
                if untidy {
                    break_tidiness(random, &mut description);
                }
                if missing {
                    leave_out(random, &mut description);
                }
                let line = line(random, description, format);
                lines.push(shuffled(random, &line));
            }
        }
    }
    try_all(comparison, BEHIND, &lines);
}

/// Up to six attributes out of range among others that are good, in any order of the words; now
/// and then with an earlier word of a channel, which doesn't count.
fn many(comparison: &mut Comparison, random: &mut Random, format: Format) {
    let mut lines = Vec::new();
    for _ in 0..comparison.amount(2500) {
        let few = bit(random.below(16)) | bit(random.below(16));
        let any = inputs::set(random);
        let set = X_AND_Y | few | random.pick(&[0, few << 1, any]);
        let mut description = inputs::description(random, format, set, Constants::Some);
        for _ in 0..random.below(7) {
            break_range(random, &mut description, format);
        }
        let plain = line(random, description, format);
        let mut mixed = shuffled(random, &plain);
        if random.one_in(4) {
            let (front, last) = mixed.rsplit_once(' ').unwrap_or((&mixed, ""));
            let name = last.split('.').next().unwrap_or(last);
            mixed = format!("{front} {name}.mean=70000 {last}");
        }
        lines.push(mixed);
    }
    try_all(comparison, MANY, &lines);
}

/// Words of MAXIMUM: wanted and good, wanted and too large, and not wanted.
const MAXIMUM_WORDS: [&str; 8] = [
    "0",
    "16777215",
    "16777216",
    "4294967295",
    "!",
    "!0",
    "!16777216",
    "!4294967295",
];

/// Each attribute below its range, in it and above it, with each sort of maximum.
fn with_maxima(comparison: &mut Comparison, random: &mut Random) {
    let mut lines = Vec::new();
    for attribute in all() {
        let (low, high) = attribute.range(Format::Compact);
        for number in [low - 1, high, high + 1] {
            let line = line(
                random,
                attribute.only(Format::Compact, true, number),
                Format::Compact,
            );
            lines.extend(MAXIMUM_WORDS.map(|word| line.replacen('!', word, 1)));
        }
    }
    try_all(comparison, MAXIMA, &lines);
}

/// A description that is only lent: none of its numbers is judged, nor are 4 and 11.
fn not_wanted(comparison: &mut Comparison, random: &mut Random) {
    let mut lines = Vec::new();
    for attribute in all() {
        let number = outside(random, attribute.range(Format::Compact));
        let mut lent = attribute.only(Format::Compact, random.one_in(2), number);
        if random.one_in(2) {
            leave_out(random, &mut lent);
        }
        for word in MAXIMUM_WORDS {
            lines.push(questions::write_template_unwanted(word, 3, &lent));
        }
    }
    try_all(comparison, MAXIMA, &lines);
}
