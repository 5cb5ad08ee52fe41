//! Records cut at every byte, damaged at every byte, and lengthened.

use super::{another_question, OF_BYTES};
use crate::compare::Comparison;
use crate::inputs;
use crate::questions;
use crate::random::Random;
use crate::writing::Parts;

const CUT: &str = "records cut short";
const DAMAGED: &str = "records damaged at one byte";
const TWICE: &str = "records damaged at two bytes";
const BOTH: &str = "records damaged, then cut short";
const LENGTHENED: &str = "records with bytes behind them";
const LISTED: &str = "listings of damaged records";

pub fn ask_all(comparison: &mut Comparison, random: &mut Random) {
    cut_everywhere(comparison, random);
    damaged_everywhere(comparison, random);
    every_value(comparison);
    damaged_twice(comparison, random);
    damaged_then_cut(comparison, random);
    lengthened(comparison, random);
}

fn cut_everywhere(comparison: &mut Comparison, random: &mut Random) {
    for number in 0..comparison.amount(70) {
        // Now and then a long one, with up to sixteen channels.
        let parts = match number % 20 {
            0 => inputs::any_parts(random),
            _ => inputs::small_parts(random),
        };
        let bytes = inputs::bytes(&parts);
        for length in 0..=bytes.len() {
            ask_of_cut(comparison, &bytes[..length]);
            if number % 3 == 1 {
                comparison.list(LISTED, &bytes[..length]);
            }
        }
    }
}

fn ask_of_cut(comparison: &mut Comparison, front: &[u8]) {
    for question in OF_BYTES {
        comparison.ask(CUT, questions::of_bytes(question, front));
    }
    comparison.ask(CUT, questions::point(0, front));
    comparison.ask(CUT, questions::step(0, front));
}

/// The values a byte is damaged to: bits turned, telling values, and any.
fn other_values(random: &mut Random, byte: u8) -> Vec<u8> {
    let mut values = vec![byte ^ 1, byte ^ 0x80, byte.wrapping_add(1), 0, 0xFF];
    values.push(byte ^ (1 << random.below(8)));
    values.push(random.byte());
    values.sort_unstable();
    values.dedup();
    values.retain(|value| *value != byte);
    values
}

fn damaged_everywhere(comparison: &mut Comparison, random: &mut Random) {
    for _ in 0..comparison.amount(50) {
        let bytes = inputs::small_record(random);
        for place in 0..bytes.len() {
            for value in other_values(random, bytes[place]) {
                let mut damaged = bytes.clone();
                damaged[place] = value;
                ask_of_damaged(comparison, random, DAMAGED, &damaged);
            }
        }
    }
}

/// X, Y and S, one point, and extended data of two bytes.
const SHORT: [u8; 27] =
    *b"SDI\0 10\0\xC0\x20\0\0\0\0\x80\0\0\x01\x80\x05\x7F\xFF\x01\0\x02\xAB\xCD";

/// Every value of every byte of one short record.
fn every_value(comparison: &mut Comparison) {
    for place in 0..SHORT.len() {
        for value in 0..=255 {
            let mut damaged = SHORT;
            damaged[place] = value;
            comparison.ask(DAMAGED, questions::of_bytes("whole", &damaged));
            // Nothing behind the byte: it is short, or the byte decides.
            comparison.ask(DAMAGED, questions::of_bytes("judge", &damaged[..=place]));
        }
    }
}

fn ask_of_damaged(
    comparison: &mut Comparison,
    random: &mut Random,
    kind: &'static str,
    bytes: &[u8],
) {
    comparison.ask(kind, questions::of_bytes("judge", bytes));
    comparison.ask(kind, another_question(random, bytes));
    if random.one_in(20) {
        comparison.list(LISTED, bytes);
    }
}

fn damaged_twice(comparison: &mut Comparison, random: &mut Random) {
    for _ in 0..comparison.amount(5000) {
        let mut bytes = inputs::small_record(random);
        for _ in 0..2 {
            let place = random.below(bytes.len());
            inputs::damage(random, &mut bytes, place);
        }
        ask_of_damaged(comparison, random, TWICE, &bytes);
    }
}

/// At each byte that has a rule: short before it, refused from it on.
fn damaged_then_cut(comparison: &mut Comparison, random: &mut Random) {
    for _ in 0..comparison.amount(40) {
        let parts = inputs::small_parts(random);
        for place in inputs::ruled_places(&parts) {
            for again in [false, true] {
                let damaged = with_damage(random, &parts, place, again);
                let end = damaged.len();
                for length in [place, place + 1, place + 2, random.below(end), end] {
                    let front = &damaged[..length.min(end)];
                    ask_of_damaged(comparison, random, BOTH, front);
                }
            }
        }
    }
}

/// Damaged at a ruled place, and perhaps at a later one, which must not decide.
fn with_damage(random: &mut Random, parts: &Parts, place: usize, again: bool) -> Vec<u8> {
    let mut bytes = inputs::bytes(parts);
    inputs::damage(random, &mut bytes, place);
    if again {
        let later = place + 1 + random.below(bytes.len() - place);
        inputs::damage(random, &mut bytes, later);
    }
    bytes
}

/// What is put behind a record: any bytes, a whole record, or a part of one.
fn tail(random: &mut Random) -> Vec<u8> {
    let few = 1 + random.below(8);
    let mut other = inputs::small_record(random);
    match random.below(4) {
        0 => random.bytes(few),
        1 => other,
        2 => {
            other.truncate(1 + random.below(other.len()));
            other
        }
        _ => vec![0; few],
    }
}

fn lengthened(comparison: &mut Comparison, random: &mut Random) {
    for _ in 0..comparison.amount(1500) {
        let mut bytes = inputs::small_record(random);
        let length = bytes.len();
        bytes.extend(tail(random));
        for question in OF_BYTES {
            comparison.ask(LENGTHENED, questions::of_bytes(question, &bytes));
        }
        comparison.ask(LENGTHENED, questions::point(random.between(0, 3), &bytes));
        comparison.ask(LENGTHENED, questions::step(length, &bytes));
        if random.one_in(5) {
            comparison.list(LISTED, &bytes);
        }
    }
}
