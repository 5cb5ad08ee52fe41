//! The claims of request L4 on turning, judged on what the program itself answered.

use super::{Found, Tried, AMPLE};
use crate::answers::hex;
use crate::asking::answer_words::{first_bytes, is_refusal, is_untouched, numbers_of_points};
use crate::asking::answer_words::{words, Record, Template};
use crate::compare::{Answered, Claim, Comparison};

const REFUSED: Claim = (
    "turning refused as the whole slice is",
    "where `whole` refuses it refuses the same; else with 21 or 15, or it turns",
);
const ROOMS: Claim = (
    "rooms of turned records",
    "a refusal leaves every lent byte of both AA; behind template and body they are AA still",
);
const WRITERS: Claim = (
    "turning by the writers of templates and bodies",
    "it answers what `write-template` with the description marked compact and `write-body` with the \
     points answer, 21 for 12",
);
const TEMPLATE: Claim = (
    "turned templates",
    "the template has the record's description marked compact and no maximum, the body its count",
);
const POINTS: Claim = (
    "points of turned records",
    "`body-point` of template and body answers what `point` of the record does",
);
const AGAIN: Claim = (
    "turned records written again",
    "from the description marked full and the points of the body the same record is written",
);

/// A refusal without its two rooms, if both are as they were.
fn refusal<'a>(tried: &Tried, turned: &'a Answered) -> Option<&'a str> {
    let (front, body) = turned.text()?.rsplit_once(' ')?;
    let (said, template) = front.rsplit_once(' ')?;
    let [first, second] = tried.rooms;
    let untouched = is_untouched(template, first) && is_untouched(body, second);
    Some(said).filter(|said| said.starts_with("refused ") && untouched)
}

/// HEX of template and body. None where it was refused, or if a byte behind them isn't AA.
fn both<'a>(tried: &Tried, turned: &'a Answered) -> Option<[&'a str; 2]> {
    let words = words(turned)?;
    let ["turned", length, of_body, template, body] = words[..] else {
        return None;
    };
    let [first, second] = tried.rooms;
    Some([
        first_bytes(template, length.parse().ok()?, first)?,
        first_bytes(body, of_body.parse().ok()?, second)?,
    ])
}

/// `whole` of the bytes, and `turn`.
pub fn judge_refused(comparison: &mut Comparison, tried: &Tried, asked: [&Answered; 2]) {
    let [whole, turned] = asked;
    let said = refusal(tried, turned);
    let both = both(tried, turned);
    comparison.claim(ROOMS, &[turned], said.is_some() || both.is_some());
    let own = |said: &str| said == "refused 15" || said.starts_with("refused 21 ");
    let holds = match is_refusal(whole) {
        true => said == whole.text(),
        false => both.is_some() || said.is_some_and(own),
    };
    comparison.claim(REFUSED, &asked, holds);
}

/// HEX of what a writer wrote into this room. None for a refusal.
fn written(answered: &Answered, room: usize) -> Option<&str> {
    let words = words(answered)?;
    let ["written", length, hex] = words[..] else {
        return None;
    };
    first_bytes(hex, length.parse().ok()?, room)
}

/// The question that writes the body from the record's count, points and extended data. None where
/// no template was written.
pub fn write_body(found: &Found) -> Option<String> {
    let template = written(found.template, AMPLE)?;
    let record = Record::of(found.whole)?;
    let extended = match record.presence {
        "extended" => found.extended.text()?.strip_prefix("bytes ")?,
        _ => "!",
    };
    let (count, room) = (record.count, found.tried.rooms[1]);
    let values = numbers_of_points(found.points);
    Some(format!(
        "write-body {count} {values} {extended} {room} {template}"
    ))
}

/// A refusal of a writer, without its room.
fn refusal_of_writer(answered: &Answered) -> Option<&str> {
    let (said, _room) = answered.text()?.rsplit_once(' ')?;
    Some(said).filter(|said| said.starts_with("refused "))
}

/// `body` is what `write-body` answered, if it was asked.
pub fn judge_writers(comparison: &mut Comparison, found: &Found, body: Option<&Answered>) {
    let Found { turned, tried, .. } = found;
    let said = refusal(tried, turned);
    let holds = match (refusal_of_writer(found.template), body) {
        (Some(refused), _) => said == Some(&refused.replacen(" 12 ", " 21 ", 1)),
        (None, Some(body)) => match refusal_of_writer(body) {
            Some(refused) => said == Some(refused),
            None => same_bytes(found, body) == Some(true),
        },
        (None, None) => false,
    };
    comparison.claim(WRITERS, &[turned, found.template], holds);
}

/// Whether both writers wrote what was turned, or 15 was answered for the template's room.
fn same_bytes(found: &Found, body: &Answered) -> Option<bool> {
    let Found { turned, tried, .. } = found;
    let template = written(found.template, AMPLE)?;
    let body = written(body, tried.rooms[1])?;
    Some(match template.len() / 2 > tried.rooms[0] {
        true => refusal(tried, turned) == Some("refused 15"),
        false => both(tried, turned) == Some([template, body]),
    })
}

/// The questions that read what was turned: the template, the body, and as many points as were
/// asked for of the record. None where it was refused.
pub fn read_turned(found: &Found) -> Option<Vec<String>> {
    let [template, body] = both(found.tried, found.turned)?;
    let body = body.trim_start_matches('-');
    let mut lines = vec![
        format!("template {template}"),
        format!("body {template} {body}"),
    ];
    let point = |index: usize| format!("body-point {index} {template} {body}");
    lines.extend((0..found.points.len()).map(point));
    Some(lines)
}

/// `read` has what was answered to these questions.
pub fn judge_turned(comparison: &mut Comparison, found: &Found, read: &[Answered]) {
    let [template, body, points @ ..] = read else {
        return;
    };
    let expected = Record::of(found.whole).map(|record| {
        let said = record.description.marked("compact");
        (
            format!("template ! {said}"),
            format!("body {} {said}", record.count),
        )
    });
    let holds = expected.is_some_and(|(of_template, of_body)| {
        template.text() == Some(&of_template) && body.text() == Some(&of_body)
    });
    comparison.claim(TEMPLATE, &[found.whole, template, body], holds);
    for (of_record, of_body) in found.points.iter().zip(points) {
        let same = of_record.theirs.is_some() && of_record.theirs == of_body.theirs;
        comparison.claim(POINTS, &[of_record, of_body], same);
    }
}

/// The question that writes the full record again: the description is that of the turned template
/// with the mark changed, the values are those of the body's points.
pub fn write_again(found: &Found, read: &[Answered]) -> Option<String> {
    let [template, _, points @ ..] = read else {
        return None;
    };
    let record = Record::of(found.whole)?;
    let said = Template::of(template)?.description?.marked("full");
    let (count, room, values) = (record.count, record.length, numbers_of_points(points));
    Some(format!("write {count} {values} ! {room} {said}"))
}

pub fn judge_again(comparison: &mut Comparison, found: &Found, written: &Answered) {
    let bytes = &found.tried.bytes;
    let expected = format!("written {} {}", bytes.len(), hex(bytes));
    let holds = written.text() == Some(&expected);
    comparison.claim(AGAIN, &[found.turned, written], holds);
}
