//! Templates that bodies are made by: of every shape, with maxima around the number of points, and
//! wrong ones.

use crate::asking::templates::any_elements;
use crate::channels::{bit, CHANNELS};
use crate::compare::Comparison;
use crate::description::{Description, Format};
use crate::inputs::{self, Constants, X_AND_Y};
use crate::kinds;
use crate::random::Random;
use crate::template::Template;

/// X, Y, S and others of every kind; each channel beside X and Y; any; all sixteen with all
/// attributes; and no stored channel at all.
pub fn descriptions(comparison: &Comparison, random: &mut Random) -> Vec<Description> {
    let format = Format::Compact;
    let kinds = kinds::every_combination().into_iter();
    let mut all: Vec<Description> = kinds
        .map(|kinds| kinds::description(random, format, &kinds))
        .collect();
    for channel in 0..CHANNELS.len() {
        let set = X_AND_Y | bit(channel);
        all.push(inputs::description(random, format, set, Constants::None));
    }
    for _ in 0..comparison.amount(60) {
        all.push(inputs::small_description(random, format));
        all.push(inputs::any_description(random, format));
    }
    let greatest = inputs::greatest_parts(random, 0).description;
    for constants in [Constants::None, Constants::All] {
        all.push(inputs::description(random, format, 0xFFFF, constants));
        let set = inputs::set(random);
        all.push(inputs::description(random, format, set, constants));
    }
    all.push(narrowed(greatest));
    all
}

/// All that is said, with every number but the scaling values brought to 0 up to 127.
fn narrowed(description: Description) -> Description {
    let mut narrow = description.marked(Format::Compact);
    for said in narrow.iter_mut() {
        for number in &mut said.numbers[1..] {
            *number = number.rem_euclid(128);
        }
    }
    narrow
}

/// The template's bytes, with a maximum around the number of points or without one.
pub fn around(random: &mut Random, description: Description, count: i64) -> Vec<u8> {
    let any = inputs::maximum(random);
    let maxima = [count, count, count - 1, count + 1, 0, 1, any];
    let maximum = random.pick(&maxima).max(0);
    with_maximum(description, Some(maximum).filter(|_| random.one_in(2)))
}

pub fn with_maximum(description: Description, maximum: Option<i64>) -> Vec<u8> {
    inputs::template_bytes(&Template {
        description: Some(description),
        maximum,
    })
}

/// A template damaged, cut, cut with its length made to fit, lengthened, without 81, with a wrong
/// 82, or made of any elements. Now and then it is still good.
pub fn wrong(random: &mut Random, description: Description, count: i64) -> Vec<u8> {
    let mut bytes = around(random, description, count);
    let place = random.below(bytes.len());
    match random.below(9) {
        0 => inputs::damage(random, &mut bytes, place),
        // The first inclusion byte, and the descriptor of X.
        1 => inputs::damage(random, &mut bytes, 4),
        2 => bytes[6] |= 1,
        3 => {
            bytes = with_maximum(description, None);
            bytes.extend(wrong_maximum(random));
            bytes[1] = bytes.len() as u8 - 2;
        }
        4 => bytes.truncate(place),
        5 => {
            bytes.truncate(place.max(2));
            bytes[1] = bytes.len() as u8 - 2;
        }
        6 => bytes.push(random.byte()),
        7 => bytes = without_description(random),
        _ => bytes = any_elements(random),
    }
    bytes
}

/// 82 with no bytes, with too many, and with a needless zero.
fn wrong_maximum(random: &mut Random) -> Vec<u8> {
    let any = random.byte();
    let content = random.pick(&[vec![], vec![1; 4], vec![0, any], vec![0, any, 0]]);
    [&[0x82, content.len() as u8], &content[..]].concat()
}

/// Neither 81 nor 82, or 82 alone.
fn without_description(random: &mut Random) -> Vec<u8> {
    inputs::template_bytes(&Template {
        description: None,
        maximum: Some(inputs::maximum(random)).filter(|_| random.one_in(2)),
    })
}
