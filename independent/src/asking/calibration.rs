//! Request L3, no scaling value means no calibration, tried on what the program itself answers.
//! Every answer is compared as elsewhere. Besides, the answers to one place are judged by twos.

use super::order::reading;
use super::readings::{numbers_of_each_sort, places_of_each_sort, raws};
use crate::compare::{Answered, Claim, Comparison};
use crate::random::Random;

const ASKED: &str = "places with and without a scaling value";

const UNKNOWN: Claim = (
    "no reading without a scaling value",
    "without a scaling value a place that isn't absent is refused with 20",
);
const FLAG: Claim = (
    "a scaling value by its flag alone",
    "a number without its flag gives 20; with its flag it gives a reading or 12, never 20",
);
const ABSENT: Claim = (
    "absent places stay absent",
    "an absent place is absent with and without a scaling value",
);

/// A place, and the numbers that stand beside it where the scaling value has its place.
struct Tried {
    place: String,
    numbers: Vec<i64>,
}

impl Tried {
    /// No number first; then each number without its flag and with it.
    fn lines(&self) -> Vec<String> {
        let Tried { place, numbers } = self;
        let mut lines = vec![format!("place {place} !")];
        for number in numbers {
            lines.push(format!("place {place} !{number}"));
            lines.push(format!("place {place} {number}"));
        }
        lines
    }
}

pub fn ask_all(comparison: &mut Comparison, random: &mut Random) {
    let tried = all_tried(comparison, random);
    let lines: Vec<String> = tried.iter().flat_map(Tried::lines).collect();
    let answered = comparison.answers_to(ASKED, &lines);
    let mut left = answered.as_slice();
    for Tried { place, numbers } in &tried {
        let (of_place, behind) = left.split_at(1 + 2 * numbers.len());
        judge(comparison, place, of_place);
        left = behind;
    }
}

/// The ends of the raw numbers and what is beside them, then places of each sort many times.
fn all_tried(comparison: &Comparison, random: &mut Random) -> Vec<Tried> {
    let mut places: Vec<String> = raws(random).iter().map(i64::to_string).collect();
    for _ in 0..comparison.amount(40) {
        places.extend(places_of_each_sort(random));
    }
    let with_numbers = |place| Tried {
        place,
        numbers: some_numbers(random),
    };
    places.into_iter().map(with_numbers).collect()
}

/// Both ends and one outside, the scales 1 and 1000, and numbers of each sort.
fn some_numbers(random: &mut Random) -> Vec<i64> {
    let mut numbers = vec![-1, 0, 1, 32768, 53152, 65535, 65536];
    for _ in 0..3 {
        numbers.extend(numbers_of_each_sort(random));
    }
    numbers.sort_unstable();
    numbers.dedup();
    numbers
}

/// Judges what `lines` asked of one place.
fn judge(comparison: &mut Comparison, place: &str, answered: &[Answered]) {
    let [none, others @ ..] = answered else {
        return;
    };
    for pair in others.chunks_exact(2) {
        let (without, with) = (&pair[0], &pair[1]);
        if place == "." {
            claim(comparison, ABSENT, [none, without], is_absent);
            claim(comparison, ABSENT, [without, with], is_absent);
        } else {
            claim(comparison, UNKNOWN, [none, without], is_unknown);
            let holds = is_unknown(without) && is_judged(with);
            comparison.claim(FLAG, &[without, with], holds);
        }
    }
}

/// A claim that both answers must hold alike.
fn claim(
    comparison: &mut Comparison,
    claim: Claim,
    both: [&Answered; 2],
    holds: fn(&Answered) -> bool,
) {
    comparison.claim(claim, &both, both.into_iter().all(holds));
}

fn is_absent(answered: &Answered) -> bool {
    is(answered, b"absent")
}

/// Calibration unknown.
fn is_unknown(answered: &Answered) -> bool {
    is(answered, b"refused 20")
}

/// Taken with its scaling value: there is a reading, or a number is outside its range. Which one
/// is judged in `naming`; it is the place's own or the scaling value.
fn is_judged(answered: &Answered) -> bool {
    let refused = ["refused 12 raw", "refused 12 E"];
    reading(answered).is_some() || refused.iter().any(|text| is(answered, text.as_bytes()))
}

fn is(answered: &Answered, answer: &[u8]) -> bool {
    answered.theirs.as_deref() == Some(answer)
}
