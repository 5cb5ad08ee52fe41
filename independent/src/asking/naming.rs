//! Request L2, which number was out of range, tried on what the program itself answers.
//! Every answer is compared as elsewhere. Besides, each is held against its question by the plain
//! check in `check`, and answers to questions that differ in one thing are judged by twos.

pub mod attributes;
pub mod check;
pub mod readings;
pub mod values;

use super::writes::ENDS;
use crate::compare::{Answered, Claim, Comparison};
use crate::questions::words_before_description;
use crate::random::Random;

const TURNED: Claim = (
    "numbers named with the words in another order",
    "the order of the words changes nothing",
);
const FLAG: Claim = (
    "numbers named by their flag alone",
    "a number without its flag is refused with 11 and never named; with it, it alone may be named",
);

pub fn ask_all(comparison: &mut Comparison, random: &mut Random) {
    attributes::ask_all(comparison, random);
    values::ask_all(comparison, random);
    readings::ask_all(comparison, random);
}

/// Asks the lines and judges each answer.
fn try_all(comparison: &mut Comparison, kind: &'static str, lines: &[String]) -> Vec<Answered> {
    let answered = comparison.answers_to(kind, lines);
    for each in &answered {
        check::judge(comparison, each);
    }
    answered
}

/// Asks each line as it is and with its words turned, and judges that both are answered alike.
fn try_turned(comparison: &mut Comparison, kind: &'static str, lines: &[String]) {
    let both = |line: &String| [line.clone(), turned(line)];
    let lines: Vec<String> = lines.iter().flat_map(both).collect();
    for pair in try_all(comparison, kind, &lines).chunks_exact(2) {
        let alike = pair[0].theirs.is_some() && pair[0].theirs == pair[1].theirs;
        comparison.claim(TURNED, &[&pair[0], &pair[1]], alike);
    }
}

/// A question with a number that has its flag, the same without the flag, and the number's name.
/// No other number of them is out of its range.
struct Flagged {
    with: String,
    without: String,
    name: String,
}

fn try_flags(comparison: &mut Comparison, kind: &'static str, tried: &[Flagged]) {
    let both = |each: &Flagged| [each.with.clone(), each.without.clone()];
    let lines: Vec<String> = tried.iter().flat_map(both).collect();
    let answered = try_all(comparison, kind, &lines);
    for (Flagged { name, .. }, pair) in tried.iter().zip(answered.chunks_exact(2)) {
        let [with, without] = [&pair[0], &pair[1]].map(check::refusal);
        let may_be = with.is_none_or(|refusal| refusal == format!("12 {name}"));
        let holds = may_be && without.as_deref() == Some("11");
        comparison.claim(FLAG, &[&pair[0], &pair[1]], holds);
    }
}

/// A line of a writer with its channels in another order, and in each channel its parts.
fn reordered(line: &str, mut order: impl FnMut(&mut [String])) -> String {
    let fixed = words_before_description(line);
    let mut words: Vec<String> = line.split(' ').map(String::from).collect();
    for word in &mut words[fixed..] {
        let mut parts: Vec<String> = word.split('.').map(String::from).collect();
        order(&mut parts[1..]);
        *word = parts.join(".");
    }
    order(&mut words[fixed..]);
    words.join(" ")
}

/// The later ones first.
fn turned(line: &str) -> String {
    reordered(line, |words| words.reverse())
}

fn shuffled(random: &mut Random, line: &str) -> String {
    reordered(line, |words| {
        for place in (1..words.len()).rev() {
            words.swap(place, random.below(place + 1));
        }
    })
}

/// A number just below a range, just above it, or far away.
pub fn outside(random: &mut Random, (low, high): (i64, i64)) -> i64 {
    let far = random.pick(&ENDS);
    random.pick(&[low - 1, low - 1, high + 1, high + 1, far])
}
