//! Marks of descriptions (request L4). Each question of a writer is asked without a mark, with that
//! of the format that it writes, and with the other format's. The three answers are judged beside
//! being compared as elsewhere.

use super::answer_words::asked;
use super::naming::attributes;
use super::naming::check;
use super::templates;
use super::writes::{self, untidy_ways};
use crate::compare::{Answered, Claim, Comparison};
use crate::description::{Description, Format};
use crate::inputs::{self, Constants, X_AND_Y};
use crate::questions::{self, with_mark};
use crate::random::Random;
use crate::template::Template;
use crate::writing::Parts;

const MARKED: &str = "written with each mark and without one";

const OWN: Claim = (
    "the mark of the format that is written",
    "it changes nothing: with it the same is answered as without a mark",
);
const OTHER: Claim = (
    "the other format's mark",
    "4 stays; all else is 11, and no byte changes; it is not looked at where no description is \
     wanted",
);

pub fn ask_all(comparison: &mut Comparison, random: &mut Random) {
    let mut lines = stages(comparison, random);
    for format in [Format::Full, Format::Compact] {
        lines.extend(good(comparison, random, format));
        lines.extend(at_both_ends(random, format));
        lines.extend(untidy(random, format));
    }
    let lines: Vec<String> = lines.iter().flat_map(|line| with_each_mark(line)).collect();
    let answered = comparison.answers_to(MARKED, &lines);
    for three in answered.chunks_exact(3) {
        let [without, own, other] = [&three[0], &three[1], &three[2]];
        let same = without.theirs.is_some() && without.theirs == own.theirs;
        comparison.claim(OWN, &[without, own], same);
        let holds = other.text().is_some() && other.text() == under_other(without).as_deref();
        comparison.claim(OTHER, &[without, other], holds);
        // What request L2 has of the number named, and that none is named under the other mark.
        for each in three {
            check::judge(comparison, each);
        }
    }
}

/// Without a mark, with its own and with the other.
fn with_each_mark(line: &str) -> [String; 3] {
    let own = match line.starts_with("write-template ") {
        true => Format::Compact,
        false => Format::Full,
    };
    let [own, other] = [own, own.other()].map(|mark| with_mark(line, mark));
    [line.to_string(), own, other]
}

/// What must be answered under the other mark, by what was answered without one.
fn under_other(without: &Answered) -> Option<String> {
    let words = asked(without);
    let (room, unwanted) = match words[..] {
        ["write-template", _, room, ref said @ ..] => (room, said.first() == Some(&"!")),
        [_, _, _, _, room, ..] => (room, false),
        _ => return None,
    };
    let answer = without.text()?;
    if unwanted || answer.starts_with("refused 4 ") {
        return Some(answer.to_string());
    }
    let lent = match room.parse().ok()? {
        0 => "-".to_string(),
        room => "AA".repeat(room),
    };
    Some(format!("refused 11 {lent}"))
}

/// Every set of stages broken at once, from points, from columns, and in templates, whose
/// description is wanted or only lent.
fn stages(comparison: &Comparison, random: &mut Random) -> Vec<String> {
    let mut lines = Vec::new();
    for _ in 0..comparison.amount(6) {
        for broken in 0..128 {
            let parts = inputs::small_parts(random);
            let length = inputs::bytes(&parts).len();
            let (parts, room) = writes::break_stages(random, parts, length, broken);
            lines.push(questions::write(&parts, room));
            let by_column = inputs::in_columns(&parts);
            lines.push(questions::write_columns(&by_column, room));
        }
    }
    for _ in 0..comparison.amount(12) {
        for broken in 0..32 {
            lines.extend(template_stages(random, broken));
        }
    }
    lines
}

fn template_stages(random: &mut Random, broken: u8) -> [String; 3] {
    let templates::Broken {
        description,
        maximum,
        room,
    } = templates::break_stages(random, broken);
    let line = |maximum| {
        let template = Template {
            description: Some(description),
            maximum,
        };
        questions::write_template(&template, room)
    };
    let word = maximum.to_string();
    let lent = questions::write_template_unwanted(&word, room, &description);
    [line(Some(maximum)), line(None), lent]
}

/// The question that writes this description: with points, or with a maximum.
fn writing(random: &mut Random, description: Description, more: usize) -> String {
    match description.mark {
        Format::Full => {
            let count = random.between(0, 2);
            let parts: Parts = inputs::of_description(random, description, count);
            let room = (inputs::bytes(&parts).len() + more).saturating_sub(1);
            questions::write(&parts, room)
        }
        Format::Compact => {
            let template = Template {
                description: Some(description),
                maximum: Some(inputs::maximum(random)).filter(|_| random.one_in(2)),
            };
            let room = (inputs::template_bytes(&template).len() + more).saturating_sub(1);
            questions::write_template(&template, room)
        }
    }
}

/// Numbers of the narrower ranges fit both marks, those of the wider often one only. The room is
/// one too small, right or larger.
fn good(comparison: &Comparison, random: &mut Random, format: Format) -> Vec<String> {
    let mut lines = Vec::new();
    for _ in 0..comparison.amount(200) {
        for numbers in [Format::Full, Format::Compact] {
            let description = inputs::small_description(random, numbers).marked(format);
            let more = random.below(3);
            lines.push(writing(random, description, more));
        }
    }
    lines
}

/// Each attribute at the ends of its ranges in both formats, and outside.
fn at_both_ends(random: &mut Random, format: Format) -> Vec<String> {
    let mut lines = Vec::new();
    for attribute in attributes::all() {
        let ranges = [Format::Full, Format::Compact].map(|format| attribute.range(format));
        let ends = ranges.into_iter();
        let mut numbers: Vec<i64> = ends
            .flat_map(|(low, high)| [low - 1, low, high, high + 1])
            .collect();
        numbers.sort_unstable();
        numbers.dedup();
        for number in numbers {
            let description = attribute.only(format, true, number);
            lines.push(attributes::line(random, description, format));
        }
    }
    lines
}

fn untidy(random: &mut Random, format: Format) -> Vec<String> {
    let mut lines = Vec::new();
    for said in untidy_ways() {
        for _ in 0..4 {
            let mut description = inputs::description(random, format, X_AND_Y, Constants::Some);
            description[random.below(16)] = said;
            lines.push(attributes::line(random, description, format));
        }
    }
    lines
}
