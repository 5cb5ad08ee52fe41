//! Request L11, order is kept by readings, tried on what the program itself answers.
//! Every answer is compared as elsewhere. Besides, neighbours in a run are judged.

use crate::compare::{Answered, Comparison};
use crate::random::Random;
use crate::thousandths::{first_shared, scale_at_most_1000, ES, RAWS};
use crate::words;

const ORDERED: &str = "a greater raw number never has a smaller reading";
const DIFFERENT: &str = "up to scale 1000 different raw numbers have different readings";
const SHARED: &str =
    "from the first to the second some neighbours share a reading (scale above 1000)";

/// The question of the runs, and the kinds that its questions and claims are counted as.
struct Sort {
    question: &'static str,
    asked: &'static str,
    ordered: &'static str,
    different: &'static str,
    shared: &'static str,
}

const NUMBERS: Sort = Sort {
    question: "thousandths",
    asked: "thousandths in runs",
    ordered: "order of readings",
    different: "different readings",
    shared: "shared readings above scale 1000",
};

const PLACES: Sort = Sort {
    question: "place",
    asked: "places in runs",
    ordered: "order of readings of places",
    different: "different readings of places",
    shared: "shared readings of places above scale 1000",
};

/// Questions of one scale, their raw numbers ascending without repeats.
struct Run {
    e: i64,
    f: i64,
    /// The words of the scale, behind the raw number.
    scale: String,
    raws: Vec<i64>,
}

pub fn ask_all(comparison: &mut Comparison, random: &mut Random) {
    let runs = runs_of_numbers(comparison, random);
    try_runs(comparison, &NUMBERS, &runs);
    let runs = runs_of_places(comparison, random);
    try_runs(comparison, &PLACES, &runs);
}

fn runs_of_numbers(comparison: &Comparison, random: &mut Random) -> Vec<Run> {
    let mut scales = of_every_e(random, &[0, 1, 1023, 1024, 2046, 2047]);
    scales.extend(around_1000(random, comparison.amount(20)));
    let run = |e, f, raws| Run {
        e,
        f,
        scale: format!("{e} {f}"),
        raws,
    };
    let some = scales
        .into_iter()
        .map(|(e, f)| run(e, f, some_raws(comparison, random, e, f)));
    // All raw numbers at scale 1000 itself, and at the next scale above it.
    let all = [1952, 1953].map(|f| run(25, f, RAWS.collect()));
    some.chain(all).collect()
}

/// A scaling value is 2048 * E + F. Without one there is no reading, so no order to keep.
fn runs_of_places(comparison: &Comparison, random: &mut Random) -> Vec<Run> {
    let mut scales = of_every_e(random, &[0]);
    scales.extend(around_1000(random, comparison.amount(8)));
    let run = |(e, f)| Run {
        e,
        f,
        scale: (2048 * e + f).to_string(),
        raws: some_raws(comparison, random, e, f),
    };
    scales.into_iter().map(run).collect()
}

/// E 24 with F 2047 and E 26 with F 0 are among them: only E 25 has both sides of the bound.
fn of_every_e(random: &mut Random, fs: &[i64]) -> Vec<(i64, i64)> {
    let mut scales = vec![(24, 2047)];
    for e in ES {
        scales.extend(fs.iter().map(|f| (e, *f)));
        scales.extend([0; 2].map(|_| (e, random.between(0, 2047))));
    }
    scales
}

/// E 25, F 1952 is scale 1000.
fn around_1000(random: &mut Random, amount: usize) -> Vec<(i64, i64)> {
    let mut scales = vec![(25, 1951), (25, 1952), (25, 1953), (25, 1954)];
    scales.extend((0..amount).map(|_| (25, random.between(1900, 2004))));
    scales
}

/// The ends, around zero, the end of the signed, some runs anywhere, and some others.
fn some_raws(comparison: &Comparison, random: &mut Random, e: i64, f: i64) -> Vec<i64> {
    let mut raws: Vec<i64> = (-32768..-32763).chain(65531..65536).collect();
    raws.extend((-6..7).chain(32766..32770));
    // Above scale 1000, neighbours that share a reading; up to it, those that do so at the
    // next scale above 1000.
    let first = first_shared(e, f).unwrap_or(2000);
    raws.extend((first - 1..first + 3).flat_map(|raw| [raw, -raw]));
    for _ in 0..comparison.amount(4) {
        let from = random.between(-32768, 65526);
        raws.extend(from..from + 10);
    }
    raws.extend((0..comparison.amount(30)).map(|_| random.between(-32768, 65535)));
    raws.sort_unstable();
    raws.dedup();
    raws
}

fn try_runs(comparison: &mut Comparison, sort: &Sort, runs: &[Run]) {
    let mut lines = Vec::new();
    for Run { scale, raws, .. } in runs {
        let line = |raw| format!("{} {raw} {scale}", sort.question);
        lines.extend(raws.iter().map(line));
    }
    let answered = comparison.answers_to(sort.asked, &lines);
    let mut left = answered.as_slice();
    for run in runs {
        let (of_run, behind) = left.split_at(run.raws.len());
        judge(comparison, sort, run, of_run);
        left = behind;
    }
}

/// Judges neighbours in a run. If no reading is smaller than the one before it and none is
/// equal to it, they ascend: then all of the run are different, not the neighbours alone.
fn judge(comparison: &mut Comparison, sort: &Sort, run: &Run, answered: &[Answered]) {
    let at_most_1000 = scale_at_most_1000(run.e, run.f);
    let mut shared = false;
    for pair in answered.windows(2) {
        let both = [&pair[0], &pair[1]];
        // All numbers of a run are in range, so an answer that is no reading breaks a claim.
        let step = distance(both);
        let ordered = step.is_some_and(|step| step >= 0);
        comparison.claim((sort.ordered, ORDERED), &both, ordered);
        if at_most_1000 {
            let different = step.is_some_and(|step| step != 0);
            comparison.claim((sort.different, DIFFERENT), &both, different);
        }
        shared |= step == Some(0);
    }
    if at_most_1000 {
        return;
    }
    // The bound is sharp: every run above it has raw numbers that share a reading.
    if let [first, .., last] = answered {
        comparison.claim((sort.shared, SHARED), &[first, last], shared);
    }
}

/// From the first reading to the second, if both answers are readings.
fn distance([first, second]: [&Answered; 2]) -> Option<i64> {
    Some(reading(second)? - reading(first)?)
}

/// The number that the program answered, if it answered with a reading.
pub fn reading(answered: &Answered) -> Option<i64> {
    let number = answered.theirs.as_deref()?.strip_prefix(b"thousandths ")?;
    words::number(number, words::ANY)
}
