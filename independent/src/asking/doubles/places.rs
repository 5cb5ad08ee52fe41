//! Doubles of places, with a scaling value, with a number without its flag, and with none.

use super::{claims, Numbers};
use crate::asking::naming::check;
use crate::asking::naming::readings::{PLACE_WORDS, SCALINGS};
use crate::asking::readings::{numbers_of_each_sort, places_of_each_sort};
use crate::compare::Comparison;
use crate::random::Random;

const ASKED: &str = "doubles of places";

/// A place, and the word of its scaling value.
struct Tried {
    place: String,
    scaling: String,
}

impl Tried {
    /// Raw, E and F, where the place isn't absent and a scaling value in its range is given.
    fn numbers(&self) -> Option<Numbers> {
        let raw = match self.place.as_str() {
            "." => return None,
            "-" => 1,
            number => number.parse().ok()?,
        };
        let scaling: i64 = self.scaling.parse().ok()?;
        Some(Numbers {
            raw,
            e: scaling / 2048,
            f: scaling % 2048,
        })
        .filter(|_| (0..=65535).contains(&scaling))
    }

    /// As a double, as thousandths, and as the double of raw, E and F where there are these.
    fn lines(&self) -> Vec<String> {
        let Tried { place, scaling } = self;
        let line = |question: &str| format!("{question} {place} {scaling}");
        let numbers = self.numbers().map(|numbers| numbers.line("double"));
        let lines = [line("double-place"), line("place")];
        lines.into_iter().chain(numbers).collect()
    }
}

pub fn ask_all(comparison: &mut Comparison, random: &mut Random) {
    let tried = all_tried(comparison, random);
    let lines: Vec<String> = tried.iter().flat_map(Tried::lines).collect();
    let answered = comparison.answers_to(ASKED, &lines);
    let mut left = answered.as_slice();
    for each in &tried {
        let (of_place, behind) = left.split_at(each.lines().len());
        if let [place, reading, numbers @ ..] = of_place {
            claims::of_refusals(comparison, [place, reading]);
            check::judge(comparison, place);
            for double in numbers {
                claims::of_place(comparison, place, double);
            }
        }
        left = behind;
    }
}

/// Every place with every number, with its flag and without it, and with none; then any.
fn all_tried(comparison: &Comparison, random: &mut Random) -> Vec<Tried> {
    let mut tried = Vec::new();
    for place in PLACE_WORDS.split(' ') {
        try_place(&mut tried, place, &SCALINGS);
    }
    for _ in 0..comparison.amount(30) {
        for place in places_of_each_sort(random) {
            let numbers = numbers_of_each_sort(random);
            try_place(&mut tried, &place, &numbers);
        }
    }
    for _ in 0..comparison.amount(500) {
        let place = random.between(-32768, 65535).to_string();
        let place = random.pick(&["-", &place, &place, &place]).to_string();
        let scaling = random.between(0, 65535).to_string();
        tried.push(Tried { place, scaling });
    }
    tried
}

fn try_place(tried: &mut Vec<Tried>, place: &str, numbers: &[i64]) {
    let with_and_without = |number: &i64| [number.to_string(), format!("!{number}")];
    let scalings = numbers.iter().flat_map(with_and_without);
    let with = |scaling| Tried {
        place: place.to_string(),
        scaling,
    };
    tried.extend(scalings.chain(["!".to_string()]).map(with));
}
