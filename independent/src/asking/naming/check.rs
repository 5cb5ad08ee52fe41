//! A plain check of what a program answers (request L2), written apart from the rules that work
//! our answers out. The ranges are typed here from document 01, and the question's words are
//! read here once more. What is judged is laid out in its order; an answer must tell the first
//! that is wrong.

use crate::compare::{Answered, Claim, Comparison};

type Range = (i64, i64);
/// In a record and in a template.
type Ranges = [Range; 2];

const SIGNED: Ranges = [(-32768, 32767), (-128, 127)];
const UNSIGNED: Ranges = [(0, 65535), (0, 255)];
const SCALINGS: Ranges = [(0, 65535), (0, 65535)];
const COUNTS: Range = (0, 16_777_215);
const RAWS: Range = (-32768, 65535);
const ES: Range = (0, 31);
const FS: Range = (0, 2047);

/// Each channel with the ranges of its minimum, maximum and mean, and that of its value in a
/// point. A deviation has no sign in any of them.
const CHANNELS: [(&str, Ranges, Range); 16] = [
    ("X", SIGNED, (-32768, 32767)),
    ("Y", SIGNED, (-32768, 32767)),
    ("Z", UNSIGNED, (0, 65535)),
    ("VX", SIGNED, (-32768, 32767)),
    ("VY", SIGNED, (-32768, 32767)),
    ("AX", SIGNED, (-32768, 32767)),
    ("AY", SIGNED, (-32768, 32767)),
    ("T", UNSIGNED, (0, 65535)),
    ("DT", UNSIGNED, (0, 65535)),
    ("F", UNSIGNED, (0, 65535)),
    ("S", UNSIGNED, (0, 1)),
    ("TX", SIGNED, (-32768, 32767)),
    ("TY", SIGNED, (-32768, 32767)),
    ("Az", UNSIGNED, (0, 65535)),
    ("El", UNSIGNED, (0, 65535)),
    ("R", UNSIGNED, (0, 65535)),
];

/// One thing that is judged: what is answered if it is wrong, and whether it is.
struct Stage {
    refusal: String,
    wrong: bool,
}

fn stage(refusal: &str, wrong: bool) -> Stage {
    let refusal = refusal.to_string();
    Stage { refusal, wrong }
}

/// A number that stands with its flag: 12 with its name if it is outside its range.
fn number(name: &str, text: &str, (low, high): Range) -> Stage {
    // A text that is no number fits nowhere, so that a slip here shows.
    let good = text
        .parse()
        .is_ok_and(|number: i64| low <= number && number <= high);
    stage(&format!("12 {name}"), !good)
}

/// Everything that is judged in a question, in its order. Extended data too long aren't asked
/// here, and 15 comes behind all of it.
fn stages(question: &str) -> Option<Vec<Stage>> {
    let words: Vec<&str> = question.split(' ').collect();
    Some(match words[..] {
        ["write" | "write-columns", count, values, _, _, ref channels @ ..] => {
            let mut stages = of_description(channels, 0);
            stages.push(number("count", count, COUNTS));
            let by_column = words[0] == "write-columns";
            stages.extend(of_values(by_column, count, values, channels));
            stages
        }
        ["write-template", maximum, _, ref channels @ ..] => of_template(maximum, channels),
        ["thousandths" | "double", raw, e, f] => {
            let (raw, e) = (number("raw", raw, RAWS), number("E", e, ES));
            vec![raw, e, number("F", f, FS)]
        }
        ["place" | "double-place", ".", _] => Vec::new(),
        ["place" | "double-place", place, scaling] => {
            let raw = if place == "-" { "1" } else { place };
            let unknown = stage("20", scaling.starts_with('!'));
            let scaling = number("E", scaling, SCALINGS[0]);
            vec![unknown, number("raw", raw, RAWS), scaling]
        }
        _ => return None,
    })
}

/// A description or a maximum that is only lent isn't judged.
fn of_template(maximum: &str, channels: &[&str]) -> Vec<Stage> {
    let mut stages = match channels {
        ["!", ..] => Vec::new(),
        _ => of_description(channels, 1),
    };
    if !maximum.starts_with('!') {
        stages.push(number("maximum", maximum, COUNTS));
    }
    stages
}

/// The last word of a channel, which is the one that counts.
fn word_of<'a>(words: &[&'a str], channel: &str) -> Option<&'a str> {
    let named = |word: &&&str| word.trim_start_matches('!').split('.').next() == Some(channel);
    words.iter().rev().find(named).copied()
}

/// The last part of a word that is about this, with its `!` if there is one.
fn part_of<'a>(word: &'a str, about: &str) -> Option<&'a str> {
    let named = |part: &&str| part.trim_start_matches('!').split('=').next() == Some(about);
    word.split('.').skip(1).filter(named).last()
}

fn is_included(words: &[&str], channel: &str) -> bool {
    word_of(words, channel).is_some_and(|word| !word.starts_with('!'))
}

const ATTRIBUTES: [&str; 5] = ["scaling", "minimum", "maximum", "mean", "deviation"];

/// The marks of a record's and of a template's description (request L4).
const MARKS: [&str; 2] = ["full", "compact"];

/// 4, 11, and each number that stands with its flag. `format` is 0 for a record, 1 for a template.
fn of_description(words: &[&str], format: usize) -> Vec<Stage> {
    let missing = !is_included(words, "X") || !is_included(words, "Y");
    let said: Vec<(&str, &str, Ranges)> = CHANNELS
        .iter()
        .filter_map(|(name, ranges, _)| Some((*name, word_of(words, name)?, *ranges)))
        .collect();
    let untidy = said.iter().any(|(_, word, _)| is_untidy(word));
    // A mark is the first word, or there is none.
    let other = words.first() == Some(&MARKS[1 - format]);
    let mut stages = vec![stage("4", missing), stage("11", untidy || other)];
    for (name, word, ranges) in said {
        for attribute in ATTRIBUTES {
            let range = match attribute {
                "scaling" => SCALINGS[format],
                "deviation" => UNSIGNED[format],
                _ => ranges[format],
            };
            let given = part_of(word, attribute).and_then(|part| part.strip_prefix(attribute));
            if let Some(text) = given {
                let text = text.trim_start_matches('=');
                stages.push(number(&format!("{name} {attribute}"), text, range));
            }
        }
    }
    stages
}

/// A number that isn't zero without its flag, or anything said of a channel not included.
fn is_untidy(word: &str) -> bool {
    let is_not_zero = |part: &str| part.starts_with('!') && !part.ends_with("=0");
    let numbers = || ATTRIBUTES.iter().filter_map(|about| part_of(word, about));
    let flags = || {
        ["constant", "removed"]
            .into_iter()
            .filter_map(|about| part_of(word, about))
    };
    if word.starts_with('!') {
        let mut all = flags().chain(numbers());
        return numbers().any(is_not_zero) || all.any(|part| !part.starts_with('!'));
    }
    numbers().any(is_not_zero)
}

/// 13, and each value with its index among all of them and its channel. They are judged in point
/// order, also where they stand column after column.
fn of_values(by_column: bool, count: &str, values: &str, words: &[&str]) -> Vec<Stage> {
    let is_stored = |name: &str| {
        let constant = word_of(words, name).and_then(|word| part_of(word, "constant"));
        is_included(words, name) && constant != Some("constant")
    };
    let stored: Vec<_> = CHANNELS.iter().filter(|row| is_stored(row.0)).collect();
    let values: Vec<&str> = values.split(',').filter(|text| *text != "-").collect();
    let wanted = count
        .parse::<i128>()
        .map(|count| count * stored.len() as i128);
    let mut stages = vec![stage("13", wanted != Ok(values.len() as i128))];
    // If there are too few or too many, 13 comes before anything that is said of one of them.
    let points = values.len().checked_div(stored.len()).unwrap_or(0);
    for point in 0..points {
        for (column, row) in stored.iter().enumerate() {
            let index = match by_column {
                true => column * points + point,
                false => point * stored.len() + column,
            };
            let name = format!("value {index} {}", row.0);
            stages.push(number(&name, values[index], row.2));
        }
    }
    stages
}

const NAMED: Claim = (
    "numbers named by 12",
    "the number named stands in the question with its flag and is out of its range",
);
const FIRST: Claim = (
    "numbers before the one named",
    "what is judged before the number named is good, every earlier number in its range",
);
const UNNAMED: Claim = (
    "answers that name no number",
    "what is answered is so, and no number judged before it is out of its range",
);

/// The same of `write-columns` (request L9).
const OF_COLUMNS: [Claim; 3] = [
    (
        "values in columns: numbers named by 12",
        "the number named stands in the question with its flag and is out of its range",
    ),
    (
        "values in columns: numbers before the one named",
        "what is judged before the number named is good; the values are judged in point order",
    ),
    (
        "values in columns: answers that name no number",
        "what is answered is so, and no number judged before it is out of its range",
    ),
];

/// The same of `double` and `double-place` (request L6).
const OF_DOUBLES: [Claim; 3] = [
    (
        "doubles: numbers named by 12",
        "the number named stands in the question with its flag and is out of its range",
    ),
    (
        "doubles: numbers before the one named",
        "what is judged before the number named is good: raw, then E, then F",
    ),
    (
        "doubles: answers that name no number",
        "what is answered is so, and no number judged before it is out of its range",
    ),
];

/// The claims that are judged on the answer to a question.
fn claims_of(question: &[u8]) -> [Claim; 3] {
    if question.starts_with(b"write-columns ") {
        OF_COLUMNS
    } else if question.starts_with(b"double") {
        OF_DOUBLES
    } else {
        [NAMED, FIRST, UNNAMED]
    }
}

/// The claims on one answer.
pub fn judge(comparison: &mut Comparison, answered: &Answered) {
    let said = refusal(answered);
    let [named, first, unnamed] = claims_of(&answered.question);
    let mut claim = |claim, holds| comparison.claim(claim, &[answered], holds);
    let Some(stages) = stages(&text(&answered.question)) else {
        // Nothing is known of such a question, so nothing can be said for its answer.
        return claim(unnamed, false);
    };
    let place = said
        .as_ref()
        .and_then(|said| stages.iter().position(|stage| stage.refusal == *said));
    let is_wrong = place.is_some_and(|place| stages[place].wrong);
    let is_first = place.is_some_and(|place| stages[..place].iter().all(|stage| !stage.wrong));
    match said {
        Some(said) if said.split(' ').next() == Some("12") => {
            claim(named, is_wrong);
            claim(first, is_first);
        }
        Some(_) => claim(unnamed, is_wrong && is_first),
        None => claim(
            unnamed,
            is_done(answered) && stages.iter().all(|stage| !stage.wrong),
        ),
    }
}

/// The refusal's number with the name behind it, as in `12 X minimum`. 15 isn't told here: it
/// comes behind everything, so it is as good as a record written.
pub fn refusal(answered: &Answered) -> Option<String> {
    let answer = text(answered.theirs.as_deref()?);
    let refusal = answer.strip_prefix("refused ")?;
    let said = match answered.question.starts_with(b"write") {
        // The last word is the room's HEX.
        true => refusal.rsplit_once(' ')?.0,
        false => refusal,
    };
    Some(said.to_string()).filter(|said| said != "15")
}

/// Whether the answer is one behind which nothing is judged any more.
fn is_done(answered: &Answered) -> bool {
    let answer = text(answered.theirs.as_deref().unwrap_or_default());
    [
        "written ",
        "refused 15 ",
        "thousandths ",
        "double ",
        "absent",
    ]
    .iter()
    .any(|begin| answer.starts_with(begin))
}

fn text(bytes: &[u8]) -> String {
    String::from_utf8_lossy(bytes).into_owned()
}
