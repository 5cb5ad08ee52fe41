//! The words of a question, as the paper on `ask` has them.

use crate::channels::CHANNELS;
use crate::description::{Description, Format, Said, ATTRIBUTES};
use crate::record::Place;

/// Why a line cannot be read.
pub const LONG_LINE: &str = "a line has at most 262144 bytes";
pub const NO_QUESTION: &str = "no such question";
pub const MISSING: &str = "a word is missing";
pub const NOT_NUMBER: &str = "not a number";
pub const NOT_BYTES: &str = "not bytes";
pub const NOT_PLACE: &str = "not a place";
pub const NOT_CHANNEL: &str = "not a channel";
pub const TOO_MANY: &str = "a word too many";

pub type Read<T> = Result<T, &'static str>;

/// Any NUMBER that has no limits of its own.
pub const ANY: (i64, i64) = (-999_999_999_999_999_999, 999_999_999_999_999_999);
pub const NOT_NEGATIVE: (i64, i64) = (0, ANY.1);
pub const OF_A_CHANNEL: (i64, i64) = (-2_147_483_648, 2_147_483_647);
pub const MAXIMUM: (i64, i64) = (0, 4_294_967_295);
pub const ROOM: (i64, i64) = (0, 131_072);
pub const AMOUNT: (i64, i64) = (0, 131_072);

/// The words of one line, taken from the left.
pub struct Words<'a> {
    words: Vec<&'a [u8]>,
}

impl<'a> Words<'a> {
    pub fn new(line: &'a [u8]) -> Words<'a> {
        let apart = |byte: &u8| matches!(byte, b' ' | b'\t' | b'\r');
        let mut words: Vec<&[u8]> = line.split(apart).filter(|word| !word.is_empty()).collect();
        words.reverse();
        Words { words }
    }

    pub fn next(&mut self) -> Read<&'a [u8]> {
        self.words.pop().ok_or(MISSING)
    }

    pub fn number(&mut self, limits: (i64, i64)) -> Read<i64> {
        number(self.next()?, limits).ok_or(NOT_NUMBER)
    }

    /// BYTES: all the words that are left.
    pub fn bytes(&mut self) -> Read<Vec<u8>> {
        let mut bytes = Vec::new();
        while let Some(word) = self.words.pop() {
            bytes.extend(pairs(word).ok_or(NOT_BYTES)?);
        }
        Ok(bytes)
    }

    /// DESCRIPTION: a mark, or none for the format that the question writes, and all the words that
    /// are left as CHANNEL.. The last word of a channel counts.
    pub fn description(&mut self, own: Format) -> Read<Description> {
        let mut description = Description::empty(self.mark().unwrap_or(own));
        while let Some(word) = self.words.pop() {
            let (index, said) = channel(word).ok_or(NOT_CHANNEL)?;
            description[index] = said;
        }
        Ok(description)
    }

    /// Takes a mark if it is the next word.
    fn mark(&mut self) -> Option<Format> {
        let marks = [Format::Full, Format::Compact];
        marks
            .into_iter()
            .find(|mark| self.take(mark.word().as_bytes()))
    }

    /// Takes the word `!` if it is the next.
    pub fn none_wanted(&mut self) -> bool {
        self.take(b"!")
    }

    /// Takes this word if it is the next.
    fn take(&mut self, word: &[u8]) -> bool {
        let found = self.words.last() == Some(&word);
        if found {
            self.words.pop();
        }
        found
    }

    pub fn end(&self) -> Read<()> {
        match self.words.is_empty() {
            true => Ok(()),
            false => Err(TOO_MANY),
        }
    }
}

/// One to eighteen digits, perhaps with a minus, inside the limits.
pub fn number(word: &[u8], limits: (i64, i64)) -> Option<i64> {
    let (sign, digits) = match word {
        [b'-', digits @ ..] => (-1, digits),
        digits => (1, digits),
    };
    if digits.is_empty() || digits.len() > 18 || !digits.iter().all(u8::is_ascii_digit) {
        return None;
    }
    let size = digits
        .iter()
        .fold(0, |size, digit| size * 10 + i64::from(digit - b'0'));
    Some(sign * size).filter(|number| (limits.0..=limits.1).contains(number))
}

/// Pairs of hex digits without spaces; there may be none.
pub fn pairs(word: &[u8]) -> Option<Vec<u8>> {
    if !word.len().is_multiple_of(2) {
        return None;
    }
    let digit = |byte: u8| char::from(byte).to_digit(16).map(|digit| digit as u8);
    word.chunks(2)
        .map(|pair| Some(digit(pair[0])? * 16 + digit(pair[1])?))
        .collect()
}

/// HEX: pairs, or `-` for no bytes.
pub fn hex(word: &[u8]) -> Option<Vec<u8>> {
    match word {
        b"-" => Some(Vec::new()),
        b"" => None,
        _ => pairs(word),
    }
}

/// `!` alone, `!` before something lent but not wanted, or something wanted.
pub fn wanted<T>(word: &[u8], read: impl Fn(&[u8]) -> Option<T>) -> Option<Option<T>> {
    match word {
        b"!" => Some(None),
        [b'!', lent @ ..] => read(lent).map(|_| None),
        _ => read(word).map(Some),
    }
}

/// VALUES: numbers with commas between them, or `-` for none.
pub fn values(word: &[u8]) -> Option<Vec<i64>> {
    if word == b"-" {
        return Some(Vec::new());
    }
    word.split(|byte| *byte == b',')
        .map(|part| number(part, OF_A_CHANNEL))
        .collect()
}

pub fn place(word: &[u8]) -> Option<Place> {
    match word {
        b"." => Some(Place::Absent),
        b"-" => Some(Place::Constant),
        _ => number(word, OF_A_CHANNEL).map(Place::Number),
    }
}

/// Whether `!` stands before it, and what stands behind.
fn without_not(word: &[u8]) -> (bool, &[u8]) {
    match word {
        [b'!', behind @ ..] => (false, behind),
        _ => (true, word),
    }
}

fn channel(word: &[u8]) -> Option<(usize, Said)> {
    let (included, word) = without_not(word);
    let mut parts = word.split(|byte| *byte == b'.');
    let name = parts.next()?;
    let index = CHANNELS
        .iter()
        .position(|channel| channel.name.as_bytes() == name)?;
    let mut said = Said {
        included,
        ..Said::default()
    };
    for part in parts {
        say(&mut said, part)?;
    }
    Some((index, said))
}

/// One part of a channel's word, taken over what the word said before.
fn say(said: &mut Said, part: &[u8]) -> Option<()> {
    let (given, part) = without_not(part);
    match part {
        b"constant" => said.constant = given,
        b"removed" => said.removed = given,
        _ => {
            let middle = part.iter().position(|byte| *byte == b'=')?;
            let is_it = |name: &&str| name.as_bytes() == &part[..middle];
            let attribute = ATTRIBUTES.iter().position(is_it)?;
            said.given[attribute] = given;
            said.numbers[attribute] = number(&part[middle + 1..], OF_A_CHANNEL)?;
        }
    }
    Some(())
}
