//! Doubles beside readings in thousandths of the same raw, E and F.

use super::{claims, Numbers};
use crate::asking::naming::{check, readings::every_subset};
use crate::compare::{Answered, Comparison};
use crate::inputs;
use crate::random::Random;

const INSIDE: &str = "doubles and readings";
const OUTSIDE: &str = "doubles and readings out of range";

pub fn ask_all(comparison: &mut Comparison, random: &mut Random) {
    inside(comparison, random);
    outside(comparison, random);
}

/// Each asked as a double and as thousandths.
fn ask_both(comparison: &mut Comparison, kind: &'static str, asked: &[Numbers]) -> Vec<Answered> {
    let both = |numbers: &Numbers| ["double", "thousandths"].map(|word| numbers.line(word));
    let lines: Vec<String> = asked.iter().flat_map(both).collect();
    comparison.answers_to(kind, &lines)
}

/// Any numbers in range, some of them at the ends, and such whose thousandths are halves.
fn inside(comparison: &mut Comparison, random: &mut Random) {
    let mut asked = Vec::new();
    for _ in 0..comparison.amount(2000) {
        asked.push(Numbers {
            raw: random.between(-32768, 65535),
            e: random.between(0, 31),
            f: random.between(0, 2047),
        });
    }
    for _ in 0..comparison.amount(500) {
        asked.push(Numbers {
            raw: inputs::number(random, (-32768, 65535)),
            e: inputs::number(random, (0, 31)),
            f: inputs::number(random, (0, 2047)),
        });
    }
    for _ in 0..comparison.amount(300) {
        // The scale 2000 of P12: every odd raw is a half.
        let raw = 2 * random.between(-16384, 32767) + 1;
        asked.push(Numbers {
            raw,
            e: 26,
            f: 1952,
        });
        // With F 0 an odd multiple of 2^(E - 20) is one.
        let e = random.between(20, 31);
        let unit = 1 << (e - 20);
        let raw = (2 * random.between(-16384 / unit, 32767 / unit) + 1) * unit;
        asked.push(Numbers { raw, e, f: 0 });
    }
    let answered = ask_both(comparison, INSIDE, &asked);
    for (numbers, pair) in asked.into_iter().zip(answered.chunks_exact(2)) {
        let both = [&pair[0], &pair[1]];
        claims::of_one(comparison, numbers, both[0]);
        claims::of_both(comparison, numbers, both);
        claims::of_refusals(comparison, both);
    }
}

/// Every subset of raw, E and F outside, then any.
fn outside(comparison: &mut Comparison, random: &mut Random) {
    let of = |[raw, e, f]: [i64; 3]| Numbers { raw, e, f };
    let mut asked: Vec<Numbers> = every_subset().into_iter().map(of).collect();
    for _ in 0..comparison.amount(800) {
        asked.push(Numbers {
            raw: inputs::number(random, (-32768 - 20_000, 65535 + 20_000)),
            e: random.between(0, 40),
            f: random.between(0, 2600),
        });
    }
    let answered = ask_both(comparison, OUTSIDE, &asked);
    for pair in answered.chunks_exact(2) {
        claims::of_refusals(comparison, [&pair[0], &pair[1]]);
        check::judge(comparison, &pair[0]);
    }
}
