//! The claims of request L4 on bodies, judged on what the program itself answered.

use super::layout::Layout;
use super::Found;
use crate::answers::hex;
use crate::asking::answer_words::{asked, count_of_body, first_bytes, is_untouched};
use crate::asking::answer_words::{numbers_of_points, words, Template};
use crate::compare::{Answered, Claim, Comparison};

const TEMPLATE: Claim = (
    "templates of bodies refused as `template` refuses",
    "`template refused` is answered exactly with what `template` refuses, and with 16 where it has \
     no 81",
);
const SHORT: Claim = (
    "bodies that are short",
    "1 is answered exactly where no S byte that is there is bad and the bytes end inside a point",
);
const READ: Claim = (
    "bodies by their bytes",
    "the first wrong S byte, short, 9, 18; else the template's own description and a point for each \
     so many bytes as there are stored channels",
);
const POINT: Claim = (
    "points of bodies",
    "refused with what `body` refuses, with 10 exactly where the index isn't below the count; else \
     each number is that of its byte",
);
const AGAIN: Claim = (
    "bodies read and written again",
    "count and points as they were answered are written as the same bytes",
);
const ROOM: Claim = (
    "rooms of bodies written",
    "a refusal leaves every lent byte AA; behind a body they are AA still",
);
const BACK: Claim = (
    "bodies written and read back",
    "`body` answers the count that was written, and the points have the values",
);

/// The layout, by what `template` answered. None where the template is no template of a body.
fn layout<'a>(found: &Found<'a>) -> Option<Layout<'a>> {
    Layout::of(Template::of(found.template)?)
}

pub fn judge_body(comparison: &mut Comparison, found: &Found) {
    let (template, body) = (found.template, found.body);
    let said = body.text().and_then(|text| text.strip_prefix("template "));
    let expected = match Template::of(template) {
        Some(template) if template.description.is_none() => Some("refused 16"),
        Some(_) => None,
        None => template.text(),
    };
    let holds = body.text().is_some() && said == expected;
    comparison.claim(TEMPLATE, &[template, body], holds);
    let Some(layout) = layout(found) else {
        return;
    };
    let bytes = &found.tried.body;
    let is_short = body.text() == Some("refused 1");
    let holds = is_short == layout.is_short(bytes);
    comparison.claim(SHORT, &[template, body], holds);
    let holds = body.text() == Some(&layout.verdict(bytes));
    comparison.claim(READ, &[template, body], holds);
}

pub fn judge_points(comparison: &mut Comparison, found: &Found) {
    let count = count_of_body(found.body);
    let layout = layout(found);
    for (index, point) in found.tried.indices.iter().zip(found.points) {
        let expected = match (count, &layout) {
            (Some(count), _) if *index >= count as i64 => Some("refused 10".to_string()),
            (Some(_), Some(layout)) => layout.point(&found.tried.body, *index),
            _ => found.body.text().map(String::from),
        };
        let holds = expected.is_some() && expected.as_deref() == point.text();
        comparison.claim(POINT, &[found.body, point], holds);
    }
}

/// The question that writes the body again: count and numbers are those that were answered. None
/// where it is no body, or not all of its points were asked for.
pub fn write_again(found: &Found) -> Option<String> {
    let count = count_of_body(found.body)?;
    let is_next = |(place, index): (usize, &i64)| *index == place as i64;
    let indices = found.tried.indices.iter().take(count).enumerate();
    if found.points.len() < count || !indices.into_iter().all(is_next) {
        return None;
    }
    let values = numbers_of_points(&found.points[..count]);
    let room = found.tried.body.len();
    let template = *asked(found.template).get(1)?;
    Some(format!("write-body {count} {values} ! {room} {template}"))
}

pub fn judge_again(comparison: &mut Comparison, found: &Found, written: &Answered) {
    let bytes = &found.tried.body;
    let expected = format!("written {} {}", bytes.len(), hex(bytes));
    let holds = written.text() == Some(&expected);
    comparison.claim(AGAIN, &[found.body, written], holds);
}

/// The room of a question of `write-body`.
fn room(written: &Answered) -> Option<usize> {
    asked(written).get(4)?.parse().ok()
}

/// HEX of what was written. None where it was refused, or if a byte behind it isn't AA.
pub fn written_bytes(written: &Answered) -> Option<&str> {
    let words = words(written)?;
    let ["written", length, hex] = words[..] else {
        return None;
    };
    first_bytes(hex, length.parse().ok()?, room(written)?)
}

pub fn judge_room(comparison: &mut Comparison, written: &Answered) {
    let words = words(written).unwrap_or_default();
    let holds = match words[..] {
        ["written", ..] => written_bytes(written).is_some(),
        ["refused", .., hex] | ["template", "refused", .., hex] => {
            room(written).is_some_and(|room| is_untouched(hex, room))
        }
        _ => false,
    };
    comparison.claim(ROOM, &[written], holds);
}

/// `read` has the judgement of what was written, and then each of its points.
pub fn judge_back(comparison: &mut Comparison, written: &Answered, read: &[Answered]) {
    let Some((body, points)) = read.split_first() else {
        return;
    };
    let asked = asked(written);
    let count = count_of_body(body).map(|count| count.to_string());
    let holds = count.as_deref() == Some(asked[1]) && numbers_of_points(points) == asked[2];
    comparison.claim(BACK, &[written, body], holds);
}
