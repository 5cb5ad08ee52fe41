//! Valid records over sets of channels, flags, attributes, counts and extended data.

use super::all_questions;
use crate::channels::bit;
use crate::compare::Comparison;
use crate::description::{attribute_range, Format, Said};
use crate::inputs::{self, Constants, X_AND_Y};
use crate::questions;
use crate::random::Random;
use crate::record::GREATEST_COUNT;
use crate::writing::Parts;

const KIND: &str = "valid records";
const LISTED: &str = "listings of valid records";

pub fn ask_all(comparison: &mut Comparison, random: &mut Random) {
    every_set(comparison, random);
    some_sets(comparison, random);
    every_flag(comparison, random);
    every_attribute(comparison, random);
    empty_points(comparison, random);
}

/// None, every single one, every pair, all, and a sample of the sets with X and Y.
fn sets(comparison: &Comparison, random: &mut Random) -> Vec<u16> {
    let mut sets = vec![X_AND_Y, 0xFFFF];
    for first in 2..16 {
        sets.push(X_AND_Y | bit(first));
        sets.extend((first + 1..16).map(|second| X_AND_Y | bit(first) | bit(second)));
    }
    sets.extend((0..comparison.amount(300)).map(|_| inputs::set(random)));
    sets
}

/// Every set with X and Y, without constants and with some, one point each.
fn every_set(comparison: &mut Comparison, random: &mut Random) {
    for others in 0..!X_AND_Y + 1 {
        for constants in [Constants::None, Constants::Some] {
            let parts = inputs::parts(random, X_AND_Y | others, constants, 1);
            ask_briefly(comparison, &parts);
        }
    }
}

/// Some sets with several counts, asked everything.
fn some_sets(comparison: &mut Comparison, random: &mut Random) {
    for set in sets(comparison, random) {
        for constants in [Constants::None, Constants::Some, Constants::All] {
            for count in [0, 1, random.between(2, 6)] {
                let parts = inputs::parts(random, set, constants, count);
                let bytes = inputs::bytes(&parts);
                all_questions(comparison, KIND, &bytes, count);
                if random.one_in(4) {
                    comparison.list(LISTED, &bytes);
                }
            }
        }
    }
}

/// Every combination of a channel's seven flags.
fn every_flag(comparison: &mut Comparison, random: &mut Random) {
    for channel in 0..16 {
        for flags in 0..128 {
            let description = inputs::said(random, Format::Full, channel, flags * 2);
            let parts = with_one(random, channel, description);
            ask_briefly(comparison, &parts);
        }
    }
}

/// X, Y and one channel of which much is said, with one point.
fn with_one(random: &mut Random, channel: usize, said: Said) -> Parts {
    let set = X_AND_Y | bit(channel);
    let mut description = inputs::description(random, Format::Full, set, Constants::None);
    description[channel] = said;
    inputs::of_description(random, description, 1)
}

fn ask_briefly(comparison: &mut Comparison, parts: &Parts) {
    let bytes = inputs::bytes(parts);
    comparison.ask(KIND, questions::of_bytes("judge", &bytes));
    comparison.ask(KIND, questions::point(0, &bytes));
}

/// Every attribute at the ends of its range, beside them, and around zero.
fn every_attribute(comparison: &mut Comparison, random: &mut Random) {
    for channel in 0..16 {
        for attribute in 0..5 {
            let (low, high) = attribute_range(Format::Full, channel, attribute);
            for number in [low, low + 1, -1, 0, 1, 255, 256, high - 1, high] {
                let mut said = inputs::said(random, Format::Full, channel, 0);
                said.given[attribute] = true;
                said.numbers[attribute] = number.clamp(low, high);
                let parts = with_one(random, channel, said);
                ask_briefly(comparison, &parts);
            }
        }
    }
}

/// Where all channels are constant any count is good.
fn empty_points(comparison: &mut Comparison, random: &mut Random) {
    for count in [
        0,
        1,
        255,
        256,
        65535,
        65536,
        0x80_0000,
        GREATEST_COUNT - 1,
        GREATEST_COUNT,
    ] {
        for _ in 0..comparison.amount(6) {
            let set = inputs::set(random);
            let description = inputs::description(random, Format::Full, set, Constants::All);
            let extended = inputs::extended(random);
            let bytes = inputs::bytes(&Parts {
                description,
                count,
                values: Vec::new(),
                extended,
            });
            all_questions(comparison, KIND, &bytes, count);
            comparison.ask(
                KIND,
                questions::point(random.between(0, 2 * GREATEST_COUNT), &bytes),
            );
            comparison.ask(KIND, questions::point(999_999_999_999_999_999, &bytes));
            comparison.list(LISTED, &bytes);
        }
    }
}
