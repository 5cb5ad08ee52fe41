//! Request L7, a point looked up by itself, tried on what the program itself answers.
//! Every answer is compared as elsewhere. Besides, `look-up` is held against `judge` and `point` of
//! the same bytes, and against itself on other bytes.

mod claims;
mod shapes;
mod wrong;

use crate::compare::{Answered, Comparison};
use crate::looked_at::LookedAt;
use crate::questions;
use crate::random::Random;

const GOOD: &str = "points looked up in records";
const WRONG: &str = "points looked up in wrong records";
const OTHERS: &str = "points looked up with other bytes changed";
const CUT: &str = "points looked up without the byte that decided";

/// Some bytes, and the indices of the points that are asked for.
struct Tried {
    bytes: Vec<u8>,
    indices: Vec<i64>,
}

impl Tried {
    /// The judgement first; then each point by the single request and looked up.
    fn lines(&self) -> Vec<String> {
        let mut lines = vec![questions::of_bytes("judge", &self.bytes)];
        for index in &self.indices {
            lines.push(questions::point(*index, &self.bytes));
            lines.push(questions::look_up(*index, &self.bytes));
        }
        lines
    }
}

/// What was answered to a lookup.
struct Found<'a> {
    bytes: &'a [u8],
    index: i64,
    answered: &'a Answered,
}

impl Found<'_> {
    /// By the program's own count. None where its answer has none that can be.
    fn looked_at(&self) -> Option<LookedAt<'_>> {
        let said = claims::said(self.answered)?;
        LookedAt::new(self.bytes, self.index, said.looked, said.is_short())
    }
}

/// The bytes of wrong records, for other requests.
pub fn wrong_slices(comparison: &Comparison, random: &mut Random) -> Vec<Vec<u8>> {
    let tried = wrong::all(comparison, random).into_iter();
    tried.map(|tried| tried.bytes).collect()
}

pub fn ask_all(comparison: &mut Comparison, random: &mut Random) {
    // Both are made before anything is asked, so that they don't depend on the answers.
    let good = shapes::all(comparison, random);
    let wrong = wrong::all(comparison, random);
    try_all(comparison, random, GOOD, &good);
    try_all(comparison, random, WRONG, &wrong);
}

fn try_all(comparison: &mut Comparison, random: &mut Random, kind: &'static str, tried: &[Tried]) {
    let lines: Vec<String> = tried.iter().flat_map(Tried::lines).collect();
    let answered = comparison.answers_to(kind, &lines);
    let mut left = answered.as_slice();
    let mut found = Vec::new();
    for Tried { bytes, indices } in tried {
        let (of_bytes, behind) = left.split_at(1 + 2 * indices.len());
        let pairs = of_bytes[1..].chunks_exact(2);
        for (&index, pair) in indices.iter().zip(pairs) {
            let answered = &pair[1];
            claims::judge_joined(comparison, [&of_bytes[0], &pair[0], answered]);
            claims::judge_count(comparison, bytes, index, answered);
            found.push(Found {
                bytes,
                index,
                answered,
            });
        }
        left = behind;
    }
    try_others(comparison, random, &found);
    try_without_last(comparison, random, &found);
}

/// Most lookups once more, in other slices that agree with theirs on the bytes looked at.
fn try_others(comparison: &mut Comparison, random: &mut Random, found: &[Found]) {
    let other = |each: &Found| match random.one_in(4) {
        true => None,
        false => each.looked_at()?.another(random),
    };
    try_again(comparison, OTHERS, found, other, claims::judge_same);
}

/// Some lookups once more, cut before the byte that decided.
fn try_without_last(comparison: &mut Comparison, random: &mut Random, found: &[Found]) {
    let front = |each: &Found| match random.one_in(3) {
        true => each.looked_at()?.without_last().map(<[u8]>::to_vec),
        false => None,
    };
    try_again(comparison, CUT, found, front, claims::judge_without_last);
}

/// Looks up the same points in other bytes, where there are any, and judges both answers.
fn try_again(
    comparison: &mut Comparison,
    kind: &'static str,
    found: &[Found],
    mut other: impl FnMut(&Found) -> Option<Vec<u8>>,
    judge: fn(&mut Comparison, [&Answered; 2]),
) {
    let (mut firsts, mut lines) = (Vec::new(), Vec::new());
    for each in found {
        if let Some(bytes) = other(each) {
            firsts.push(each.answered);
            lines.push(questions::look_up(each.index, &bytes));
        }
    }
    let answered = comparison.answers_to(kind, &lines);
    for (first, second) in firsts.into_iter().zip(&answered) {
        judge(comparison, [first, second]);
    }
}
