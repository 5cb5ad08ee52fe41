//! Which number was out of its range (request L2): what refusals 12 and 21 carry.

use std::ops::RangeInclusive;

use crate::channels::CHANNELS;
use crate::description::ATTRIBUTES;
use crate::refusal::Refusal;

/// A number that can be out of its range, by its places in this program's tables. The cases stand
/// in stored order: attributes, the count, values, extended data; attributes, a template's maximum;
/// raw, E, F.
#[derive(Clone, Copy, Debug, PartialEq, Eq, PartialOrd, Ord)]
pub enum Which {
    Attribute {
        channel: usize,
        attribute: usize,
    },
    Count,
    /// A sample value; its index is among the values as they were lent.
    Value {
        index: usize,
        channel: usize,
    },
    /// Extended data, for which a body has no place (request L4).
    Extended,
    /// A template's maximum number of points, which is no channel's maximum.
    Maximum,
    Raw,
    E,
    F,
}

impl Which {
    /// As the paper on `ask` has it.
    pub fn text(self) -> String {
        match self {
            Which::Attribute { channel, attribute } => {
                format!("{} {}", CHANNELS[channel].name, ATTRIBUTES[attribute])
            }
            Which::Count => "count".to_string(),
            Which::Value { index, channel } => format!("value {index} {}", CHANNELS[channel].name),
            Which::Extended => "extended".to_string(),
            Which::Maximum => "maximum".to_string(),
            Which::Raw => "raw".to_string(),
            Which::E => "E".to_string(),
            Which::F => "F".to_string(),
        }
    }
}

/// The check of a number. One outside its range is refused by its name, so the first that is
/// checked and fails is the one named.
pub fn check(which: Which, number: i64, range: RangeInclusive<i64>) -> Result<(), Refusal> {
    match range.contains(&number) {
        true => Ok(()),
        false => Err(Refusal::naming(which)),
    }
}
