//! Runs of doubles: one scale, raw numbers ascending.

use super::{claims, Numbers};
use crate::compare::{Answered, Comparison};
use crate::random::Random;
use crate::thousandths::{ES, FS, RAWS};

const ASKED: &str = "doubles in runs";
const ZEROS: &str = "zeros as doubles";

/// The raw numbers ascend without repeats.
struct Run {
    e: i64,
    f: i64,
    raws: Vec<i64>,
}

impl Run {
    fn numbers(&self, raw: i64) -> Numbers {
        let Run { e, f, .. } = *self;
        Numbers { raw, e, f }
    }
}

pub fn ask_all(comparison: &mut Comparison, random: &mut Random) {
    let runs = all_runs(comparison, random);
    let lines_of = |run: &Run| -> Vec<String> {
        let line = |raw: &i64| run.numbers(*raw).line("double");
        run.raws.iter().map(line).collect()
    };
    let lines: Vec<String> = runs.iter().flat_map(lines_of).collect();
    let answered = comparison.answers_to(ASKED, &lines);
    let mut left = answered.as_slice();
    for run in &runs {
        let (of_run, behind) = left.split_at(run.raws.len());
        judge(comparison, run, of_run);
        left = behind;
    }
    zeros(comparison, random);
}

/// Every E with F 0 and 1952 and many raw numbers; with F 1, 1024, 2047 and any others and some raw
/// numbers.
fn all_runs(comparison: &Comparison, random: &mut Random) -> Vec<Run> {
    let mut runs = Vec::new();
    for f in [0, 1952, 1, 1024, 2047] {
        let middles = near_middles(f);
        for e in ES {
            let telling = match f {
                0 | 1952 => powers_of_two(),
                _ => telling_raws(f),
            };
            let raws = some_raws(random, &[&telling[..], &middles].concat());
            runs.push(Run { e, f, raws });
        }
    }
    for _ in 0..comparison.amount(64) {
        let (e, f) = (random.between(0, 31), random.between(0, 2047));
        let raws = some_raws(random, &[telling_raws(f), near_middles(f)].concat());
        runs.push(Run { e, f, raws });
    }
    runs
}

/// Powers of two and the numbers beside them.
fn powers_of_two() -> Vec<i64> {
    (0..=16)
        .flat_map(|power| [(1 << power) - 1, 1 << power, (1 << power) + 1])
        .collect()
}

/// The ends and the least; then some that the fraction is exact with, though F may not be 0, and
/// those beside them. These are multiples of 2048 + F with its twos taken out.
fn telling_raws(f: i64) -> Vec<i64> {
    let odd = (2048 + f) >> (2048 + f).trailing_zeros();
    let last = 65535 / odd * odd;
    let exact = [odd, 3 * odd, last];
    let mut raws = vec![1, 2, 3, 5, 10, 32767, 32768, 65534, 65535];
    raws.extend(exact.into_iter().flat_map(|raw| [raw - 1, raw, raw + 1]));
    raws
}

/// The raw numbers whose fractions come nearest to the middle of two doubles, where rounding twice
/// would show. E has no part in it: it moves the exponent alone. With F 0 all are as far from it.
fn near_middles(f: i64) -> Vec<i64> {
    let below = u128::from((2048 + f).unsigned_abs());
    let mut found: Vec<(u128, i64)> = (1..=65535)
        .map(|raw: i64| (from_middle(u128::from(raw.unsigned_abs()), below), raw))
        .collect();
    found.sort_unstable();
    found.truncate(6);
    found.into_iter().map(|(_, raw)| raw).collect()
}

/// How far the fraction is from the middle of the two numbers of 53 digits around it, in parts of
/// their distance, of which there are twice `below`.
fn from_middle(raw: u128, below: u128) -> u128 {
    let mut above = raw << (52 + below.ilog2() - raw.ilog2());
    // Both have as many digits now, but above may still be the lesser.
    if above < below << 52 {
        above *= 2;
    }
    (2 * (above % below)).abs_diff(below)
}

/// These and any others, each with a minus too, and 0; those that are raw numbers.
fn some_raws(random: &mut Random, given: &[i64]) -> Vec<i64> {
    let mut above = given.to_vec();
    above.extend([0; 3].map(|_| random.between(1, 65535)));
    above.extend([0; 2].map(|_| random.between(1, 32768)));
    let mut raws: Vec<i64> = above.into_iter().flat_map(|raw| [raw, -raw]).collect();
    raws.extend([0, -32768, 65535]);
    raws.retain(|raw| RAWS.contains(raw));
    raws.sort_unstable();
    raws.dedup();
    raws
}

/// Neighbours in a run are judged, which says of all of it that the doubles ascend.
fn judge(comparison: &mut Comparison, run: &Run, answered: &[Answered]) {
    for (raw, each) in run.raws.iter().zip(answered) {
        claims::of_one(comparison, run.numbers(*raw), each);
        if *raw <= 0 {
            continue;
        }
        if let Ok(place) = run.raws.binary_search(&-raw) {
            claims::of_mirrored(comparison, each, &answered[place]);
        }
    }
    for pair in answered.windows(2) {
        claims::of_order(comparison, &pair[0], &pair[1]);
    }
}

/// Raw 0 with every E, and F from one end to the other: 2047 is 23 times 89.
fn zeros(comparison: &mut Comparison, random: &mut Random) {
    let mut zeros = Vec::new();
    for e in ES {
        let mut fs: Vec<i64> = FS.step_by(89).collect();
        fs.extend([0; 4].map(|_| random.between(0, 2047)));
        zeros.extend(fs.into_iter().map(|f| Numbers { raw: 0, e, f }));
    }
    let lines: Vec<String> = zeros.iter().map(|zero| zero.line("double")).collect();
    let answered = comparison.answers_to(ZEROS, &lines);
    for (zero, each) in zeros.into_iter().zip(&answered) {
        claims::of_one(comparison, zero, each);
    }
}
