//! The claims of request L7, judged on what the program itself answered.

use crate::compare::{Answered, Claim, Comparison};
use crate::layout::Layout;
use crate::words;

const JOINED: Claim = (
    "points by the two requests joined",
    "where `judge` refuses, `point` refuses the same; else it answers what `look-up` does",
);
const BOUND: Claim = (
    "at most 222 bytes looked at",
    "at most 222 bytes were looked at, and no more than there are",
);
const COUNTED: Claim = (
    "bytes looked at by the answer",
    "so many bytes were looked at as the readings of request L7 have it for this answer",
);
const SAME: Claim = (
    "answers by the bytes looked at alone",
    "two slices that agree on the bytes looked at have the same answer",
);
const LAST: Claim = (
    "the last byte looked at decides",
    "without the last byte looked at it is 1, and one byte fewer was looked at",
);

/// The greatest count, as the readings have it.
const GREATEST: usize = 222;

/// An answer of `look-up` taken apart.
pub struct Said {
    /// The same without LOOKED, which is how `point` says it.
    single: String,
    pub looked: usize,
}

impl Said {
    pub fn is_short(&self) -> bool {
        self.single == "refused 1"
    }
}

/// None if the answer has another form.
pub fn said(answered: &Answered) -> Option<Said> {
    let answer = answered.text()?;
    let (single, looked) = match answer.strip_prefix("point ") {
        Some(behind) => {
            let (looked, places) = behind.split_once(' ')?;
            (format!("point {places}"), looked)
        }
        None => {
            let (refused, looked) = answer.rsplit_once(" looked ")?;
            (refused.to_string(), looked)
        }
    };
    let looked = words::number(looked.as_bytes(), words::NOT_NEGATIVE)? as usize;
    Some(Said { single, looked })
}

/// Document 01's single request on the same bytes, whatever they are.
pub fn judge_joined(comparison: &mut Comparison, answered: [&Answered; 3]) {
    let [judged, single, looked_up] = answered;
    let joined = match judged.text() {
        Some(judged) if judged.starts_with("refused ") => Some(judged.to_string()),
        _ => said(looked_up).map(|said| said.single),
    };
    let holds = joined.is_some() && joined.as_deref() == single.text();
    comparison.claim(JOINED, &answered, holds);
}

pub fn judge_count(comparison: &mut Comparison, bytes: &[u8], index: i64, answered: &Answered) {
    let said = said(answered);
    let bounded = |said: &Said| said.looked <= GREATEST.min(bytes.len());
    let counted = |said: &Said| count_of(bytes, index, &said.single) == Some(said.looked);
    comparison.claim(BOUND, &[answered], said.as_ref().is_some_and(bounded));
    comparison.claim(COUNTED, &[answered], said.as_ref().is_some_and(counted));
}

/// How many bytes are looked at where this is answered. None if it can't be answered here.
fn count_of(bytes: &[u8], index: i64, single: &str) -> Option<usize> {
    let words: Vec<&str> = single.split(' ').collect();
    let layout = Layout::of(bytes);
    match words[..] {
        ["point", ..] => layout.map(|layout| layout.points + layout.size),
        ["refused", "1"] => Some(there(bytes, index, layout)),
        ["refused", "2" | "3" | "4" | "5" | "6" | "7", place] => Some(behind(place)?),
        // As if the point were the first.
        ["refused", "8", place] => {
            let layout = layout?;
            behind(place)?.checked_sub(layout.start(index) - layout.points)
        }
        ["refused", "10"] => layout.map(|layout| layout.points),
        _ => None,
    }
}

/// One more than a place.
fn behind(place: &str) -> Option<usize> {
    place.parse::<usize>().ok()?.checked_add(1)
}

/// How many there are of what is looked at, in its order.
fn there(bytes: &[u8], index: i64, layout: Option<Layout>) -> usize {
    match layout {
        Some(layout) if layout.points <= bytes.len() => {
            let left = bytes.len().saturating_sub(layout.start(index));
            layout.points + left.min(layout.size)
        }
        _ => bytes.len(),
    }
}

pub fn judge_same(comparison: &mut Comparison, both: [&Answered; 2]) {
    let [first, second] = both;
    let holds = first.theirs.is_some() && first.theirs == second.theirs;
    comparison.claim(SAME, &both, holds);
}

pub fn judge_without_last(comparison: &mut Comparison, both: [&Answered; 2]) {
    let [first, second] = both.map(said);
    let holds = match (first, second) {
        (Some(first), Some(second)) => second.is_short() && second.looked + 1 == first.looked,
        _ => false,
    };
    comparison.claim(LAST, &both, holds);
}
