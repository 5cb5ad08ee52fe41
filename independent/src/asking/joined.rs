//! Files of joined records: walked over by steps and listed, whole, damaged and cut.

use crate::compare::Comparison;
use crate::inputs;
use crate::questions;
use crate::random::Random;
use crate::record::{self, Step};

const WALKED: &str = "steps over joined records";
const LISTED: &str = "listings of joined records";

pub fn ask_all(comparison: &mut Comparison, random: &mut Random) {
    for _ in 0..comparison.amount(600) {
        let (file, starts) = join(random);
        walk(comparison, random, &file);
        let damaged = damage(random, &file, &starts);
        walk(comparison, random, &damaged);
        let cut = random.below(damaged.len() + 1);
        let of = if random.one_in(3) { &damaged } else { &file };
        walk(comparison, random, &of[..cut]);
    }
    places_past_the_end(comparison, random);
}

/// Two to six records and the places where they start.
fn join(random: &mut Random) -> (Vec<u8>, Vec<usize>) {
    let (mut file, mut starts) = (Vec::new(), Vec::new());
    for _ in 0..2 + random.below(5) {
        starts.push(file.len());
        let parts = match random.one_in(6) {
            true => inputs::any_parts(random),
            false => inputs::small_parts(random),
        };
        file.extend(inputs::bytes(&parts));
    }
    (file, starts)
}

/// Damage, more often in the front of the second or a later record than elsewhere.
fn damage(random: &mut Random, file: &[u8], starts: &[usize]) -> Vec<u8> {
    let mut file = file.to_vec();
    let place = match random.one_in(3) {
        true => random.below(file.len()),
        false => random.pick(&starts[1..]) + random.below(20),
    };
    inputs::damage(random, &mut file, place);
    file
}

/// The walk from 0 to where it stops, some steps from elsewhere, and the listing.
fn walk(comparison: &mut Comparison, random: &mut Random, file: &[u8]) {
    let mut place = 0;
    while let Step::Record(record) = record::step(file, place) {
        comparison.ask(WALKED, questions::step(place, file));
        place += record.length;
    }
    comparison.ask(WALKED, questions::step(place, file));
    for elsewhere in [random.below(file.len() + 1), file.len() + random.below(3)] {
        comparison.ask(WALKED, questions::step(elsewhere, file));
    }
    comparison.list(LISTED, file);
}

fn places_past_the_end(comparison: &mut Comparison, random: &mut Random) {
    let far = [
        65535,
        65536,
        4_294_967_295,
        4_294_967_296,
        999_999_999_999_999_999,
    ];
    for place in far {
        comparison.ask(WALKED, questions::step(place, &[]));
        comparison.ask(
            WALKED,
            questions::step(place, &inputs::small_record(random)),
        );
    }
}
