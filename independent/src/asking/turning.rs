//! Request L4, full records turned into a template and a body, tried on what the program itself
//! answers. Every answer is compared as elsewhere. Besides, `turn` is held against the writers of
//! templates and of bodies, and what it gave is read and written as a full record again.

mod claims;
mod records;

use super::answer_words::Record;
use crate::compare::{Answered, Comparison};
use crate::questions;
use crate::random::Random;

const TURNED: &str = "records turned";
const PARTS: &str = "records turned: their parts by other questions";
const WRITTEN: &str = "records turned: bodies written from their parts";
const READ: &str = "turned templates and bodies read";
const AGAIN: &str = "turned records written again, with what was answered";

/// All points of a record are asked for up to so many.
const MOST_POINTS: usize = 300;
/// Room for every template of 81 alone, which has at most 114 bytes.
const AMPLE: usize = 118;

/// Some bytes, and the rooms for the template and for the body.
struct Tried {
    bytes: Vec<u8>,
    rooms: [usize; 2],
}

/// A whole record that the program was asked to turn, and what else it answered of it.
struct Found<'a> {
    tried: &'a Tried,
    whole: &'a Answered,
    turned: &'a Answered,
    extended: &'a Answered,
    template: &'a Answered,
    points: &'a [Answered],
}

pub fn ask_all(comparison: &mut Comparison, random: &mut Random) {
    let tried = records::all(comparison, random);
    let lines = |tried: &Tried| {
        let turn = questions::turn(tried.rooms, &tried.bytes);
        [questions::of_bytes("whole", &tried.bytes), turn]
    };
    let lines: Vec<String> = tried.iter().flat_map(lines).collect();
    let answered = comparison.answers_to(TURNED, &lines);
    let mut records = Vec::new();
    for (tried, pair) in tried.iter().zip(answered.chunks_exact(2)) {
        claims::judge_refused(comparison, tried, [&pair[0], &pair[1]]);
        if let Some(record) = Record::of(&pair[0]) {
            let lines = lines_of_parts(tried, &record);
            records.push((tried, pair, lines));
        }
    }
    let lines: Vec<String> = records
        .iter()
        .flat_map(|(.., lines)| lines.clone())
        .collect();
    let parts = comparison.answers_to(PARTS, &lines);
    let mut left = parts.as_slice();
    let mut found = Vec::new();
    for (tried, pair, lines) in records {
        let (of_record, behind) = left.split_at(lines.len());
        found.push(Found {
            tried,
            whole: &pair[0],
            turned: &pair[1],
            extended: &of_record[0],
            template: &of_record[1],
            points: &of_record[2..],
        });
        left = behind;
    }
    try_writers(comparison, &found);
    try_turned(comparison, &found);
}

/// The extended data, the template written from the description, and the points and the first
/// index that no point has.
fn lines_of_parts(tried: &Tried, record: &Record) -> Vec<String> {
    let said = record.description.marked("compact");
    let mut lines = vec![
        questions::of_bytes("extended", &tried.bytes),
        format!("write-template ! {AMPLE} {said}"),
    ];
    let count = match record.description.stored().len() {
        0 => 0,
        _ => record.count.min(MOST_POINTS),
    };
    let point = |index: usize| questions::point(index as i64, &tried.bytes);
    lines.extend((0..=count).map(point));
    lines
}

/// The body written from the record's own points, with the template that was written from its
/// description.
fn try_writers(comparison: &mut Comparison, found: &[Found]) {
    let line = |found| claims::write_body(found).unwrap_or_default();
    let lines: Vec<String> = found.iter().map(line).collect();
    // Where no template was written there is no body to write, and the line is empty.
    let asked: Vec<String> = lines
        .iter()
        .filter(|line| !line.is_empty())
        .cloned()
        .collect();
    let mut written = comparison.answers_to(WRITTEN, &asked).into_iter();
    for (found, line) in found.iter().zip(&lines) {
        let body = match line.is_empty() {
            true => None,
            false => written.next(),
        };
        claims::judge_writers(comparison, found, body.as_ref());
    }
}

/// Reads what was turned, and writes the record again from it.
fn try_turned(comparison: &mut Comparison, found: &[Found]) {
    let with_lines = |found| Some((found, claims::read_turned(found)?));
    let all: Vec<(&Found, Vec<String>)> = found.iter().filter_map(with_lines).collect();
    let lines: Vec<String> = all.iter().flat_map(|(_, lines)| lines.clone()).collect();
    let read = comparison.answers_to(READ, &lines);
    let mut left = read.as_slice();
    let (mut records, mut lines) = (Vec::new(), Vec::new());
    for (found, own) in &all {
        let (of_turned, behind) = left.split_at(own.len());
        claims::judge_turned(comparison, found, of_turned);
        // Where the answers cannot be used the line is empty, and what is answered breaks the claim.
        lines.push(claims::write_again(found, of_turned).unwrap_or_default());
        records.push(*found);
        left = behind;
    }
    let written = comparison.answers_to(AGAIN, &lines);
    for (found, written) in records.iter().zip(&written) {
        claims::judge_again(comparison, found, written);
    }
}
