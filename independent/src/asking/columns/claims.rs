//! The claims of request L9, judged on what the program itself answered. Where a number stands is
//! told from the words of the answers, apart from the rules that work our answers out.

use super::Found;
use crate::answers::digits;
use crate::asking::answer_words::{is_refusal, numbers, Record};
use crate::compare::{Answered, Claim, Comparison};

const REFUSED: Claim = (
    "columns refused as the whole slice is, then with 13",
    "it refuses with what `whole` refuses, and with 13 exactly where `whole` does not refuse and \
     another amount is lent",
);
const UNTOUCHED: Claim = (
    "lent numbers behind a refusal",
    "behind a refusal each lent number is 99999 still",
);
const FILLED: Claim = (
    "lent numbers that are filled",
    "where as many are lent as there are, all are filled, with what `columns` answers",
);
const SAME: Claim = (
    "points in their columns",
    "stored channel j of point p stands at j * count + p, and `point` has it in that channel's \
     place",
);
const BACK: Claim = (
    "columns written back",
    "what `columns` answered is written back as the same bytes",
);
const ALIKE: Claim = (
    "records written from both orders alike",
    "the same bytes or the same refusal; 12 of a value has the index of the same point and channel",
);

/// What a lent number is before the question.
const BEFORE: &str = "99999";

/// How many numbers the points of a record have.
fn amount(record: &Record) -> usize {
    record.count * record.description.stored().len()
}

/// VALUES of an answer of `columns`. None for a refusal.
fn values_of(columns: &Answered) -> Option<&str> {
    columns.text()?.strip_prefix("columns ")
}

/// `columns` lends as many as there are, so it has no refusal of its own.
pub fn judge_columns(comparison: &mut Comparison, found: &Found) {
    let Found { whole, columns } = found;
    let holds = match Record::of(whole) {
        Some(_) => values_of(columns).is_some(),
        None => is_refusal(whole) && whole.theirs == columns.theirs,
    };
    comparison.claim(REFUSED, &[whole, columns], holds);
}

pub fn judge_lent(comparison: &mut Comparison, found: &Found, amount: usize, lent: &Answered) {
    let Found { whole, columns } = found;
    let expected = match Record::of(whole) {
        Some(record) if self::amount(&record) == amount => Some("columns"),
        Some(_) => Some("refused 13"),
        None => whole.text(),
    };
    // The last word is VALUES.
    let Some((said, values)) = lent.text().and_then(|text| text.rsplit_once(' ')) else {
        return comparison.claim(REFUSED, &[whole, lent], false);
    };
    comparison.claim(REFUSED, &[whole, lent], expected == Some(said));
    let numbers = numbers(values);
    let is_before = |number: &&str| *number == BEFORE;
    if said == "columns" {
        let filled = numbers.len() == amount && !numbers.iter().any(is_before);
        let holds = filled && lent.theirs == columns.theirs;
        comparison.claim(FILLED, &[columns, lent], holds);
    } else {
        let holds = numbers.len() == amount && numbers.iter().all(is_before);
        comparison.claim(UNTOUCHED, &[lent], holds);
    }
}

pub fn judge_point(comparison: &mut Comparison, found: &Found, index: i64, point: &Answered) {
    let Found { whole, columns } = found;
    let expected = || {
        let (record, values) = (Record::of(whole)?, numbers(values_of(columns)?));
        let place = |column| values.get(column * record.count + index as usize).copied();
        let point = record.description.point(place);
        point.filter(|_| values.len() == amount(&record))
    };
    let expected = expected();
    let holds = expected.is_some() && expected.as_deref() == point.text();
    comparison.claim(SAME, &[whole, columns, point], holds);
}

/// The question that writes a record back: description, count, values and extended data are those
/// that were answered. None where an answer has another form.
pub fn write_back(found: &Found, extended: &Answered) -> Option<String> {
    let record = Record::of(&found.whole)?;
    let (count, values) = (record.count, values_of(&found.columns)?);
    let bytes = extended.text()?.strip_prefix("bytes ")?;
    let extended = match record.presence {
        "extended" => bytes,
        _ => "!",
    };
    let (room, said) = (record.length, record.description.words());
    Some(format!(
        "write-columns {count} {values} {extended} {room} {said}"
    ))
}

pub fn judge_back(comparison: &mut Comparison, bytes: &[u8], found: &Found, written: &Answered) {
    let expected = format!("written {} {}", bytes.len(), digits(bytes));
    let holds = written.text() == Some(&expected);
    comparison.claim(BACK, &[&found.columns, written], holds);
}

/// The first is `write`, the second `write-columns` with the same numbers.
pub fn judge_alike(comparison: &mut Comparison, both: [&Answered; 2]) {
    let [by_point, by_column] = both;
    let holds = match (Named::of(by_point), Named::of(by_column)) {
        (Some(by_point), Some(by_column)) => same_value(&by_point, &by_column) == Some(true),
        (None, None) => by_point.theirs.is_some() && by_point.theirs == by_column.theirs,
        _ => false,
    };
    comparison.claim(ALIKE, &both, holds);
}

/// A value that 12 named: its index and what else was answered, and the question's own count and
/// values.
struct Named<'a> {
    index: usize,
    name: &'a str,
    room: &'a str,
    count: usize,
    values: Vec<&'a str>,
}

impl<'a> Named<'a> {
    /// None where no value is named.
    fn of(answered: &'a Answered) -> Option<Named<'a>> {
        let named = answered.text()?.strip_prefix("refused 12 value ")?;
        let words: Vec<&str> = named.split(' ').collect();
        let [index, name, room] = words[..] else {
            return None;
        };
        let question = std::str::from_utf8(&answered.question).ok()?;
        let mut words = question.split(' ').skip(1);
        Some(Named {
            index: index.parse().ok()?,
            name,
            room,
            count: words.next()?.parse().ok()?,
            values: numbers(words.next()?),
        })
    }
}

/// Whether both names are those of the same point and channel, and of the same number. None where
/// an index is beyond the values.
fn same_value(by_point: &Named, by_column: &Named) -> Option<bool> {
    let count = by_column.count;
    let channels = by_point.values.len().checked_div(count)?;
    let (row, place) = (
        by_point.index.checked_div(channels)?,
        by_point.index.checked_rem(channels)?,
    );
    let (column, along) = (by_column.index / count, by_column.index % count);
    let number = by_point.values.get(by_point.index)?;
    let same_number = number == by_column.values.get(by_column.index)?;
    let same_words = (by_point.name, by_point.room) == (by_column.name, by_column.room);
    Some((row, place) == (along, column) && same_number && same_words)
}
