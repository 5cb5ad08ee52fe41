//! What is asked of the two programs, one file for each sort of input.

mod answer_words;
mod bodies;
mod calibration;
mod columns;
mod damage;
mod doubles;
mod files;
mod joined;
mod lines;
mod long_records;
mod long_writes;
mod lookups;
mod marks;
mod naming;
mod order;
mod readings;
mod records;
mod templates;
mod turning;
mod writes;

use crate::compare::Comparison;
use crate::examples;
use crate::questions;
use crate::random::Random;

pub fn everything(comparison: &mut Comparison, seed: u64) {
    examples::ask_all(comparison);
    let sorts: [fn(&mut Comparison, &mut Random); 19] = [
        records::ask_all,
        damage::ask_all,
        joined::ask_all,
        writes::ask_all,
        templates::ask_all,
        readings::ask_all,
        lines::ask_all,
        files::ask_all,
        long_records::ask_all,
        long_writes::ask_all,
        order::ask_all,
        calibration::ask_all,
        naming::ask_all,
        lookups::ask_all,
        columns::ask_all,
        marks::ask_all,
        bodies::ask_all,
        turning::ask_all,
        doubles::ask_all,
    ];
    for (number, ask_all) in sorts.into_iter().enumerate() {
        // Each sort has a seed of its own, so that a change in one leaves the others.
        let mut random = Random::new(seed.wrapping_mul(1_000_003).wrapping_add(number as u64));
        ask_all(comparison, &mut random);
    }
}

const OF_BYTES: [&str; 4] = ["judge", "whole", "extended", "rest"];

/// Every question about a record's bytes, with points in and out of range.
fn all_questions(comparison: &mut Comparison, kind: &'static str, bytes: &[u8], count: i64) {
    for question in OF_BYTES {
        comparison.ask(kind, questions::of_bytes(question, bytes));
    }
    for index in [0, (count - 1).max(0), count] {
        comparison.ask(kind, questions::point(index, bytes));
    }
    comparison.ask(kind, questions::step(0, bytes));
}

/// One of the questions about a record's bytes, other than `judge`.
fn another_question(random: &mut Random, bytes: &[u8]) -> String {
    let index = random.between(0, 4);
    let place = if random.one_in(2) {
        0
    } else {
        random.below(bytes.len() + 2)
    };
    match random.below(5) {
        0 => questions::point(index, bytes),
        1 => questions::step(place, bytes),
        other => questions::of_bytes(OF_BYTES[other - 1], bytes),
    }
}
