//! The words of the program's own answers, taken apart, so that claims can be judged on them.
//! Nothing is shared with the rules that work our answers out.

use crate::channels::CHANNELS;
use crate::compare::Answered;

/// DESCRIPTION of an answer.
pub struct Description<'a> {
    pub mark: &'a str,
    pub channels: Vec<&'a str>,
}

impl<'a> Description<'a> {
    /// None where the first word is no mark.
    fn of(words: &[&'a str]) -> Option<Description<'a>> {
        match words {
            [mark @ ("full" | "compact"), channels @ ..] => Some(Description {
                mark,
                channels: channels.to_vec(),
            }),
            _ => None,
        }
    }

    pub fn words(&self) -> String {
        self.marked(self.mark)
    }

    /// The same with this mark.
    pub fn marked(&self, mark: &str) -> String {
        [&[mark], &self.channels[..]].concat().join(" ")
    }

    /// The names of the channels that have numbers in a point.
    pub fn stored(&self) -> Vec<&'a str> {
        let stored = self.channels.iter().filter(|word| !is_constant(word));
        stored.map(|word| name(word)).collect()
    }

    /// What `point` must answer, with the number of each stored channel, counted from 0.
    pub fn point<'b>(&self, number: impl Fn(usize) -> Option<&'b str>) -> Option<String> {
        let mut answer = "point".to_string();
        let mut stored = 0;
        for channel in CHANNELS {
            let named = |word: &&&str| name(word) == channel.name;
            let place = match self.channels.iter().find(named) {
                None => ".",
                Some(word) if is_constant(word) => "-",
                Some(_) => {
                    stored += 1;
                    number(stored - 1)?
                }
            };
            answer += &format!(" {place}");
        }
        Some(answer)
    }
}

fn name(word: &str) -> &str {
    word.split('.').next().unwrap_or(word)
}

fn is_constant(word: &str) -> bool {
    word.split('.').any(|part| part == "constant")
}

/// An answer of `whole` that is a record.
pub struct Record<'a> {
    pub length: &'a str,
    pub count: usize,
    pub presence: &'a str,
    pub description: Description<'a>,
}

impl<'a> Record<'a> {
    /// None for a refusal, or if the answer has another form.
    pub fn of(whole: &'a Answered) -> Option<Record<'a>> {
        let words = words(whole)?;
        let ["record", length, count, presence, ref said @ ..] = words[..] else {
            return None;
        };
        Some(Record {
            length,
            count: count.parse::<u32>().ok()? as usize,
            presence,
            description: Description::of(said)?,
        })
    }
}

/// An answer of `template` that isn't a refusal.
pub struct Template<'a> {
    pub maximum: Option<usize>,
    /// None where it has no 81.
    pub description: Option<Description<'a>>,
}

impl<'a> Template<'a> {
    pub fn of(template: &'a Answered) -> Option<Template<'a>> {
        let words = words(template)?;
        let ["template", maximum, ref said @ ..] = words[..] else {
            return None;
        };
        let maximum = match maximum {
            "!" => None,
            _ => Some(maximum.parse().ok()?),
        };
        let description = match said {
            ["!"] => None,
            _ => Some(Description::of(said)?),
        };
        Some(Template {
            maximum,
            description,
        })
    }
}

/// COUNT of an answer of `body`. None for a refusal, or if the answer has another form.
pub fn count_of_body(body: &Answered) -> Option<usize> {
    let words = words(body)?;
    let ["body", count, ref said @ ..] = words[..] else {
        return None;
    };
    Description::of(said).and(count.parse().ok())
}

/// The words of an answer.
pub fn words(answered: &Answered) -> Option<Vec<&str>> {
    Some(answered.text()?.split(' ').collect())
}

/// The words of a question. All of ours are texts.
pub fn asked(answered: &Answered) -> Vec<&str> {
    let question = std::str::from_utf8(&answered.question).unwrap_or_default();
    question.split(' ').collect()
}

/// The numbers of VALUES, as texts.
pub fn numbers(values: &str) -> Vec<&str> {
    match values {
        "-" => Vec::new(),
        _ => values.split(',').collect(),
    }
}

/// VALUES of the answers of `point` or `body-point`, in stored order. A refusal has none, so that
/// what is answered to them breaks a claim.
pub fn numbers_of_points(points: &[Answered]) -> String {
    let numbers: Vec<&str> = points.iter().flat_map(numbers_of_point).collect();
    match numbers[..] {
        [] => "-".to_string(),
        _ => numbers.join(","),
    }
}

fn numbers_of_point(point: &Answered) -> Vec<&str> {
    let words = words(point).unwrap_or_default();
    let ["point", ref places @ ..] = words[..] else {
        return Vec::new();
    };
    let is_number = |place: &&&str| !matches!(**place, "." | "-");
    places.iter().filter(is_number).copied().collect()
}

pub fn is_refusal(answered: &Answered) -> bool {
    answered
        .text()
        .is_some_and(|text| text.starts_with("refused "))
}

/// Whether HEX is that of so many bytes that are AA still.
pub fn is_untouched(hex: &str, room: usize) -> bool {
    match room {
        0 => hex == "-",
        _ => hex.len() == 2 * room && hex.bytes().all(|digit| digit == b'A'),
    }
}

/// HEX of the first bytes of a room. None unless so many are there and all others are AA still.
pub fn first_bytes(hex: &str, length: usize, room: usize) -> Option<&str> {
    let left = room.checked_sub(length)?;
    if length == 0 {
        return Some("-").filter(|_| is_untouched(hex, room));
    }
    let (first, behind) = hex.split_at_checked(2 * length)?;
    let behind = if behind.is_empty() { "-" } else { behind };
    Some(first).filter(|_| is_untouched(behind, left))
}
