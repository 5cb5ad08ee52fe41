//! Request L4, compact bodies, tried on what the program itself answers.
//! Every answer is compared as elsewhere. Besides, `body` and `body-point` are held against what
//! `template` answers of the same template, what was read is written again, and what was written is
//! read back.

mod claims;
mod layout;
mod long;
mod reads;
mod sets;
mod templates;
pub mod writes;

use super::answer_words::asked;
use crate::body::Points;
use crate::compare::{Answered, Comparison};
use crate::questions;
use crate::random::Random;

const READ: &str = "bodies";
const WRONG: &str = "bodies with wrong templates";
const AGAIN: &str = "bodies written again, with what was answered";
const WRITTEN: &str = "bodies written";
const BACK: &str = "bodies read back, with what was answered";
/// More points than these are not asked for, whatever the program says that it wrote.
const MOST_POINTS: usize = 100;

/// A template, a body, and the indices of the points that are asked for.
struct Tried {
    template: Vec<u8>,
    body: Vec<u8>,
    indices: Vec<i64>,
}

impl Tried {
    /// The template by itself first, then the judgement, then the points.
    fn lines(&self) -> Vec<String> {
        let Tried { template, body, .. } = self;
        let mut lines = vec![
            questions::of_bytes("template", template),
            questions::body(template, body),
        ];
        let point = |index: &i64| questions::body_point(*index, template, body);
        lines.extend(self.indices.iter().map(point));
        lines
    }
}

/// What was answered to these lines.
struct Found<'a> {
    tried: &'a Tried,
    template: &'a Answered,
    body: &'a Answered,
    points: &'a [Answered],
}

/// What a body is written from, and the room. `lent` is the EXTENDED word where bytes are lent and
/// not wanted.
pub struct Write {
    template: Vec<u8>,
    points: Points,
    lent: Option<String>,
    room: usize,
}

impl Write {
    fn line(&self) -> String {
        let Write {
            template, points, ..
        } = self;
        match &self.lent {
            Some(lent) => questions::write_body_with(template, points, lent, self.room),
            None => questions::write_body(template, points, self.room),
        }
    }
}

pub fn ask_all(comparison: &mut Comparison, random: &mut Random) {
    let good = reads::all(comparison, random);
    let wrong = reads::with_wrong_templates(comparison, random);
    try_reads(comparison, READ, &good);
    try_reads(comparison, WRONG, &wrong);
    let writes = writes::all(comparison, random);
    try_writes(comparison, &writes);
    sets::ask_all(comparison, random);
    long::ask_all(comparison, random);
}

fn try_reads(comparison: &mut Comparison, kind: &'static str, tried: &[Tried]) {
    let lines: Vec<String> = tried.iter().flat_map(Tried::lines).collect();
    let answered = comparison.answers_to(kind, &lines);
    let mut left = answered.as_slice();
    let mut all = Vec::new();
    for tried in tried {
        let (of_tried, behind) = left.split_at(2 + tried.indices.len());
        let found = Found {
            tried,
            template: &of_tried[0],
            body: &of_tried[1],
            points: &of_tried[2..],
        };
        claims::judge_body(comparison, &found);
        claims::judge_points(comparison, &found);
        all.push(found);
        left = behind;
    }
    try_again(comparison, &all);
}

/// Writes every body of which all points were asked for from what the program answered of it.
fn try_again(comparison: &mut Comparison, found: &[Found]) {
    let with_line = |found| Some((found, claims::write_again(found)?));
    let all: Vec<(&Found, String)> = found.iter().filter_map(with_line).collect();
    let lines: Vec<String> = all.iter().map(|(_, line)| line.clone()).collect();
    let written = comparison.answers_to(AGAIN, &lines);
    for ((found, _), written) in all.iter().zip(&written) {
        claims::judge_again(comparison, found, written);
    }
}

fn try_writes(comparison: &mut Comparison, writes: &[Write]) {
    let lines: Vec<String> = writes.iter().map(Write::line).collect();
    let answered = comparison.answers_to(WRITTEN, &lines);
    for each in &answered {
        claims::judge_room(comparison, each);
    }
    // Each body that was written, and the lines that read it back.
    let with_lines = |written| Some((written, read_back(written)?));
    let all: Vec<(&Answered, Vec<String>)> = answered.iter().filter_map(with_lines).collect();
    let lines: Vec<String> = all.iter().flat_map(|(_, lines)| lines.clone()).collect();
    let read = comparison.answers_to(BACK, &lines);
    let mut left = read.as_slice();
    for (written, lines) in all {
        let (of_written, behind) = left.split_at(lines.len());
        claims::judge_back(comparison, written, of_written);
        left = behind;
    }
}

/// The judgement of what was written, and each of its points. None where nothing was written.
fn read_back(written: &Answered) -> Option<Vec<String>> {
    let body = claims::written_bytes(written)?;
    let body = body.trim_start_matches('-');
    let words = asked(written);
    let (count, template) = (words[1].parse::<usize>().ok()?, words[5]);
    let mut lines = vec![format!("body {template} {body}")];
    let indices = 0..count.min(MOST_POINTS);
    lines.extend(indices.map(|index| format!("body-point {index} {template} {body}")));
    Some(lines)
}
