//! What is said of each channel: inclusion bytes, descriptors and attributes.
//! The same rules serve a record (002, 7.3.4) and a template (8.2.2), and the numbers of a point in
//! a record (7.4.2) and in a body (8.4); only widths differ, and the mark says which (request L4).

use std::ops::{Deref, DerefMut};

use crate::channels::{bit, CHANNELS, S, X, Y};
use crate::cursor::Cursor;
use crate::refusal::Refusal;
use crate::which::{check, Which};

/// The attributes in the order of descriptor bits 8 to 4 (002, table 5).
pub const ATTRIBUTES: [&str; 5] = ["scaling", "minimum", "maximum", "mean", "deviation"];
pub const SCALING: usize = 0;
pub const DEVIATION: usize = 4;

#[derive(Clone, Copy, Debug, PartialEq, Eq)]
pub enum Format {
    Full,
    Compact,
}

impl Format {
    /// The word of a description's mark.
    pub fn word(self) -> &'static str {
        match self {
            Format::Full => "full",
            Format::Compact => "compact",
        }
    }

    pub fn other(self) -> Format {
        match self {
            Format::Full => Format::Compact,
            Format::Compact => Format::Full,
        }
    }

    /// How many bytes a number has, but for those that are as wide in both formats.
    fn width(self) -> usize {
        match self {
            Format::Full => 2,
            Format::Compact => 1,
        }
    }
}

/// What is said of one channel. Seven flags; the reserved bit isn't in it.
#[derive(Clone, Copy, Debug, Default, PartialEq, Eq)]
pub struct Said {
    pub included: bool,
    pub given: [bool; 5],
    pub numbers: [i64; 5],
    pub constant: bool,
    pub removed: bool,
}

/// One description for both formats: the sixteen channels, and the mark of the format that it is
/// of (request L4). It is gone through as its channels are.
#[derive(Clone, Copy, Debug, PartialEq, Eq)]
pub struct Description {
    pub mark: Format,
    channels: [Said; 16],
}

impl Description {
    /// Nothing is said of any channel.
    pub fn empty(mark: Format) -> Description {
        let channels = Default::default();
        Description { mark, channels }
    }

    /// The same is said of every channel; only the mark is this one.
    pub fn marked(self, mark: Format) -> Description {
        Description { mark, ..self }
    }
}

impl Deref for Description {
    type Target = [Said; 16];

    fn deref(&self) -> &[Said; 16] {
        &self.channels
    }
}

impl DerefMut for Description {
    fn deref_mut(&mut self) -> &mut [Said; 16] {
        &mut self.channels
    }
}

/// The range of a number with or without sign.
fn number_range(format: Format, signed: bool) -> (i64, i64) {
    match (format, signed) {
        (Format::Full, true) => (-32768, 32767),
        (Format::Full, false) => (0, 65535),
        (Format::Compact, true) => (-128, 127),
        (Format::Compact, false) => (0, 255),
    }
}

pub fn attribute_range(format: Format, channel: usize, attribute: usize) -> (i64, i64) {
    match attribute {
        // Five bits E and eleven bits F, also in a template.
        SCALING => (0, 65535),
        // Unsigned for signed channels too (01; notes A2).
        DEVIATION => number_range(format, false),
        _ => number_range(format, CHANNELS[channel].signed),
    }
}

pub fn attribute_width(format: Format, attribute: usize) -> usize {
    match attribute {
        SCALING => 2,
        _ => format.width(),
    }
}

/// The range of a channel's number in a sample point (002, 7.4.2 and 8.4).
pub fn value_range(format: Format, channel: usize) -> (i64, i64) {
    match channel {
        S => (0, 1),
        _ => number_range(format, CHANNELS[channel].signed),
    }
}

pub fn value_width(format: Format, channel: usize) -> usize {
    match channel {
        S => 1,
        _ => format.width(),
    }
}

/// The channels that a point has bytes for: included and not constant.
pub fn stored(description: &Description) -> Vec<usize> {
    let is_stored = |said: &Said| said.included && !said.constant;
    (0..16)
        .filter(|&channel| is_stored(&description[channel]))
        .collect()
}

/// How many bytes a point has in the format of the description's mark.
pub fn point_size(description: &Description) -> usize {
    let width = |channel| value_width(description.mark, channel);
    stored(description).into_iter().map(width).sum()
}

/// Inclusion bytes, then a descriptor with its attributes for each included channel. What is read
/// has the mark of its format.
pub fn read(cursor: &mut Cursor, format: Format) -> Result<Description, Refusal> {
    // X and Y are the two top bits; without both no record can begin that way.
    let first = cursor.demand(4, |byte| byte >= 0xC0)?;
    let inclusion = u16::from_be_bytes([first, cursor.next()?]);
    let mut description = Description::empty(format);
    for (channel, said) in description.iter_mut().enumerate() {
        if inclusion & bit(channel) != 0 {
            *said = read_channel(cursor, format, channel)?;
        }
    }
    Ok(description)
}

fn read_channel(cursor: &mut Cursor, format: Format, channel: usize) -> Result<Said, Refusal> {
    let descriptor = cursor.demand(5, |byte| byte & 1 == 0)?;
    let mut said = Said {
        included: true,
        constant: descriptor & 4 != 0,
        removed: descriptor & 2 != 0,
        ..Said::default()
    };
    for attribute in 0..5 {
        if descriptor & (0x80 >> attribute) != 0 {
            // What is stored is the number less the low end of its range.
            let stored = cursor.number(attribute_width(format, attribute))?;
            said.given[attribute] = true;
            said.numbers[attribute] = stored + attribute_range(format, channel, attribute).0;
        }
    }
    Ok(said)
}

/// The writers' judgement: 4, then 11 for the other format's mark or anything untidy, then 12. A
/// number that doesn't fit is 12 and never 11, and under the other mark none is looked at.
pub fn judge(description: &Description, format: Format) -> Result<(), Refusal> {
    if !description[X].included || !description[Y].included {
        return Err(Refusal::bare(4));
    }
    if description.mark != format || !description.iter().all(tidy) {
        return Err(Refusal::bare(11));
    }
    judge_numbers(description)
}

/// 12 for the first number in stored order, channel after channel, that doesn't fit the mark.
pub fn judge_numbers(description: &Description) -> Result<(), Refusal> {
    for (channel, said) in description.iter().enumerate() {
        judge_attributes(said, description.mark, channel)?;
    }
    Ok(())
}

/// A place that its flags don't use holds zero; a channel not included has no flag.
fn tidy(said: &Said) -> bool {
    let unused = |attribute: usize| !said.given[attribute] && said.numbers[attribute] != 0;
    if !said.included {
        return *said == Said::default();
    }
    !(0..5).any(unused)
}

/// In a channel the attributes go in the order of their bits. A number without its flag is
/// never judged.
fn judge_attributes(said: &Said, format: Format, channel: usize) -> Result<(), Refusal> {
    for attribute in (0..5).filter(|&attribute| said.given[attribute]) {
        let (low, high) = attribute_range(format, channel, attribute);
        let which = Which::Attribute { channel, attribute };
        check(which, said.numbers[attribute], low..=high)?;
    }
    Ok(())
}

/// The bytes of a description that `judge` finds good.
pub fn put(out: &mut Vec<u8>, description: &Description) {
    let included = |channel: &usize| description[*channel].included;
    let inclusion: u16 = (0..16).filter(included).map(bit).sum();
    out.extend(inclusion.to_be_bytes());
    for channel in (0..16).filter(included) {
        put_channel(out, &description[channel], description.mark, channel);
    }
}

fn put_channel(out: &mut Vec<u8>, said: &Said, format: Format, channel: usize) {
    let given = |attribute: &usize| said.given[*attribute];
    let mut descriptor: u8 = (0..5)
        .filter(given)
        .map(|attribute| 0x80 >> attribute)
        .sum();
    descriptor |= u8::from(said.constant) << 2 | u8::from(said.removed) << 1;
    out.push(descriptor);
    for attribute in (0..5).filter(given) {
        let low = attribute_range(format, channel, attribute).0;
        put_number(
            out,
            said.numbers[attribute] - low,
            attribute_width(format, attribute),
        );
    }
}

/// A number in `width` bytes, high byte first.
pub fn put_number(out: &mut Vec<u8>, number: i64, width: usize) {
    out.extend(&number.to_be_bytes()[8 - width..]);
}

/// One channel as a word of `ask`.
pub fn word(channel: usize, said: &Said) -> String {
    let not = |is: bool| if is { "" } else { "!" };
    let mut word = format!("{}{}", not(said.included), CHANNELS[channel].name);
    for (attribute, name) in ATTRIBUTES.iter().enumerate() {
        let (given, number) = (said.given[attribute], said.numbers[attribute]);
        if given || number != 0 {
            word += &format!(".{}{name}={number}", not(given));
        }
    }
    word += if said.constant { ".constant" } else { "" };
    word += if said.removed { ".removed" } else { "" };
    word
}

/// DESCRIPTION as answers have it: the mark and the channels, a space before each.
pub fn words(description: &Description) -> String {
    format!(" {}{}", description.mark.word(), channel_words(description))
}

/// Each channel of which something is said, a space before each.
pub fn channel_words(description: &Description) -> String {
    let spoken = description
        .iter()
        .enumerate()
        .filter(|(_, said)| **said != Said::default());
    spoken
        .map(|(channel, said)| format!(" {}", word(channel, said)))
        .collect()
}
