//! Request L9, points by column, tried on what the program itself answers.
//! Every answer is compared as elsewhere. Besides, `columns` and `columns-in` are held against
//! `whole` and `point` of the same bytes, and `write-columns` against `write`; and what `columns`
//! answered is written back.

mod claims;
mod long;
mod records;
mod writes;

use super::naming::check;
use crate::compare::{Answered, Comparison};
use crate::inputs;
use crate::questions;
use crate::random::Random;
use crate::writing::Parts;

const GOOD: &str = "columns of records";
const WRONG: &str = "columns of wrong records";
const POINTS: &str = "points of records read in columns";
const BACK: &str = "columns written back, with what was answered";
const WRITTEN: &str = "records written from both orders";

/// Some bytes, how many numbers are lent for their columns, and the indices of the points that are
/// asked for.
struct Tried {
    bytes: Vec<u8>,
    amounts: Vec<usize>,
    indices: Vec<i64>,
}

impl Tried {
    /// The judgement first, then the columns, then the columns in lent numbers.
    fn lines(&self) -> Vec<String> {
        let mut lines = vec![
            questions::of_bytes("whole", &self.bytes),
            questions::of_bytes("columns", &self.bytes),
        ];
        let lent = |amount: &usize| questions::columns_in(*amount, &self.bytes);
        lines.extend(self.amounts.iter().map(lent));
        lines
    }

    fn points(&self) -> impl Iterator<Item = String> + '_ {
        let indices = self.indices.iter();
        indices.map(|index| questions::point(*index, &self.bytes))
    }
}

/// What `whole` and `columns` answered.
struct Found {
    whole: Answered,
    columns: Answered,
}

/// What is written, its values point after point, and the room.
struct Write {
    parts: Parts,
    room: usize,
}

impl Write {
    /// From values point after point, and from the same column after column.
    fn lines(&self) -> [String; 2] {
        let by_column = inputs::in_columns(&self.parts);
        [
            questions::write(&self.parts, self.room),
            questions::write_columns(&by_column, self.room),
        ]
    }
}

pub fn ask_all(comparison: &mut Comparison, random: &mut Random) {
    let good = records::good(comparison, random);
    let wrong = records::wrong(comparison, random);
    let found = try_columns(comparison, GOOD, &good);
    try_points(comparison, &good, &found);
    try_back(comparison, &good, &found);
    try_columns(comparison, WRONG, &wrong);
    let writes = writes::all(comparison, random);
    try_writes(comparison, &writes);
    long::ask_all(comparison, random);
}

fn try_columns(comparison: &mut Comparison, kind: &'static str, tried: &[Tried]) -> Vec<Found> {
    let lines: Vec<String> = tried.iter().flat_map(Tried::lines).collect();
    let mut answered = comparison.answers_to(kind, &lines).into_iter();
    let mut all = Vec::new();
    for Tried { amounts, .. } in tried {
        let (Some(whole), Some(columns)) = (answered.next(), answered.next()) else {
            break;
        };
        let found = Found { whole, columns };
        claims::judge_columns(comparison, &found);
        for (amount, lent) in amounts.iter().zip(answered.by_ref()) {
            claims::judge_lent(comparison, &found, *amount, &lent);
        }
        all.push(found);
    }
    all
}

fn try_points(comparison: &mut Comparison, tried: &[Tried], found: &[Found]) {
    let lines: Vec<String> = tried.iter().flat_map(Tried::points).collect();
    let mut answered = comparison.answers_to(POINTS, &lines).into_iter();
    for (Tried { indices, .. }, found) in tried.iter().zip(found) {
        for (index, point) in indices.iter().zip(answered.by_ref()) {
            claims::judge_point(comparison, found, *index, &point);
        }
    }
}

/// Writes every record from what the program answered of it.
fn try_back(comparison: &mut Comparison, tried: &[Tried], found: &[Found]) {
    let of_extended = |each: &Tried| questions::of_bytes("extended", &each.bytes);
    let lines: Vec<String> = tried.iter().map(of_extended).collect();
    let extended = comparison.answers_to(BACK, &lines);
    // Where the answers cannot be used the line is empty, and what is answered breaks the claim.
    let back = |(found, extended)| claims::write_back(found, extended).unwrap_or_default();
    let lines: Vec<String> = found.iter().zip(&extended).map(back).collect();
    let written = comparison.answers_to(BACK, &lines);
    for ((each, found), written) in tried.iter().zip(found).zip(&written) {
        claims::judge_back(comparison, &each.bytes, found, written);
    }
}

fn try_writes(comparison: &mut Comparison, writes: &[Write]) {
    let lines: Vec<String> = writes.iter().flat_map(Write::lines).collect();
    let answered = comparison.answers_to(WRITTEN, &lines);
    for pair in answered.chunks_exact(2) {
        claims::judge_alike(comparison, [&pair[0], &pair[1]]);
        // What request L2 has of the number named, with the values as they stand.
        check::judge(comparison, &pair[1]);
    }
}
