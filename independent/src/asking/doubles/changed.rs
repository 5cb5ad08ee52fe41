//! The questions of request L6 spelled oddly, and with something changed so that most of them
//! cannot be read.

use super::claims;
use crate::asking::lines::{change_line, spell_line};
use crate::compare::Comparison;
use crate::random::Random;

const SPELLED: &str = "lines of doubles spelled oddly";
const CHANGED: &str = "lines of doubles with something changed";

/// Each question, and the one that takes the same words.
const ALIKE: [(&str, &str); 2] = [("double ", "thousandths "), ("double-place ", "place ")];

pub fn ask_all(comparison: &mut Comparison, random: &mut Random) {
    for _ in 0..comparison.amount(400) {
        let line = any_line(random);
        comparison.ask(SPELLED, spell_line(random, &line));
    }
    let mut lines = Vec::new();
    for _ in 0..comparison.amount(1600) {
        let line = any_line(random);
        let changed = change_line(random, line);
        match in_thousandths(&changed) {
            Some(pair) => lines.extend(pair),
            // Its first word was changed, or it is no text.
            None => comparison.ask(CHANGED, changed),
        }
    }
    for pair in comparison.answers_to(CHANGED, &lines).chunks_exact(2) {
        claims::of_refusals(comparison, [&pair[0], &pair[1]]);
    }
}

fn any_line(random: &mut Random) -> String {
    let raw = random.between(-33000, 66000);
    let scaling = random.between(-100, 65700).to_string();
    if random.one_in(2) {
        let (e, f) = (random.between(0, 33), random.between(0, 2100));
        return format!("double {raw} {e} {f}");
    }
    let place = random.pick(&[".", "-", "0", &raw.to_string()]).to_string();
    let scaling = random
        .pick(&["!", &format!("!{scaling}"), &scaling, &scaling])
        .to_string();
    format!("double-place {place} {scaling}")
}

/// The line, and the same words asked in thousandths.
fn in_thousandths(line: &[u8]) -> Option<[String; 2]> {
    let line = std::str::from_utf8(line).ok()?;
    let other = |(own, other): &(&str, &str)| Some(format!("{other}{}", line.strip_prefix(own)?));
    ALIKE
        .iter()
        .find_map(other)
        .map(|other| [line.to_string(), other])
}
