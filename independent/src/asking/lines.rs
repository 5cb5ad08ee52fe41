//! Lines that cannot be read, lines spelled oddly, and the ends of lines and inputs.

use crate::answers::LONGEST_LINE;
use crate::body::Points;
use crate::body_examples::BODY_UNREADABLE;
use crate::columns_examples::COLUMNS_UNREADABLE;
use crate::compare::Comparison;
use crate::description::{Description, Format};
use crate::double_examples::DOUBLE_UNREADABLE;
use crate::examples::UNREADABLE;
use crate::inputs;
use crate::questions;
use crate::random::Random;
use crate::template::Template;

const TYPED: &str = "lines that cannot be read, typed from the paper";
const CHANGED: &str = "lines with something changed";
const SPELLED: &str = "lines spelled oddly";
const INPUTS: &str = "whole inputs: long lines, last lines, empty lines";

pub fn ask_all(comparison: &mut Comparison, random: &mut Random) {
    let unreadable = [
        UNREADABLE,
        COLUMNS_UNREADABLE,
        BODY_UNREADABLE,
        DOUBLE_UNREADABLE,
    ];
    for (line, answer) in unreadable.into_iter().flatten() {
        comparison.ask_typed(TYPED, line, answer);
    }
    limits(comparison);
    spelled(comparison, random);
    changed(comparison, random);
    whole_inputs(comparison);
    random_inputs(comparison, random);
}

/// The longest line and one longer, the greatest room and the greatest amount.
fn limits(comparison: &mut Comparison) {
    let long = "cannot read: a line has at most 262144 bytes";
    for (length, answer) in [(262_144, "absent"), (262_145, long)] {
        let line = format!("place . !{}", " ".repeat(length - 9));
        comparison.ask_typed(TYPED, &line, answer);
    }
    let untouched = "AA".repeat(131_070);
    let answer = format!("refused 4 {untouched}AAAA");
    comparison.ask_typed(TYPED, "write 0 - ! 131072", &answer);
    let answer = format!("written 2 B100{untouched}");
    comparison.ask_typed(TYPED, "write-template ! 131072 !", &answer);
    let lent = ",99999".repeat(131_072);
    let answer = format!("refused 2 1 {}", &lent[1..]);
    comparison.ask_typed(TYPED, "columns-in 131072 53 45", &answer);
    let answer = format!("written 0 {untouched}AAAA");
    let line = "write-body 0 - ! 131072 B1068104C0000000";
    comparison.ask_typed(TYPED, line, &answer);
    let answer = format!("refused 2 1 {untouched}AAAA {untouched}AAAA");
    comparison.ask_typed(TYPED, "turn 131072 131072 53 45", &answer);
}

/// A short question of any of the nineteen sorts that are not of request L6, now and then with a
/// mark. Those two are spelled and changed in `doubles`.
fn any_question(random: &mut Random) -> String {
    let parts = inputs::small_parts(random);
    let bytes = inputs::bytes(&parts);
    let template = inputs::template(random);
    let room = random.below(40);
    let index = random.between(0, 3);
    match random.below(20) {
        0 => questions::of_bytes("judge", &bytes),
        1 => questions::of_bytes("whole", &bytes),
        2 => questions::of_bytes("extended", &bytes),
        3 => questions::of_bytes("rest", &bytes),
        4 => questions::point(index, &bytes),
        5 => questions::step(index as usize, &bytes),
        6 => questions::of_bytes("template", &inputs::template_bytes(&template)),
        7 | 8 => {
            let line = questions::write(&parts, bytes.len());
            perhaps_marked(random, line)
        }
        9 => {
            let line = questions::write_template(&template, room);
            perhaps_marked(random, line)
        }
        10 => format!(
            "thousandths {} {} {}",
            index * 1000 - 1500,
            room,
            index * 500
        ),
        11 => questions::look_up(index, &bytes),
        12 => questions::of_bytes("columns", &bytes),
        13 => questions::columns_in(parts.values.len() + index as usize % 2, &bytes),
        14 => questions::write_columns(&inputs::in_columns(&parts), bytes.len()),
        15..=18 => of_compact(random, &template),
        _ => any_place(random, template),
    }
}

fn perhaps_marked(random: &mut Random, line: String) -> String {
    match random.below(4) {
        0 => questions::with_mark(&line, Format::Full),
        1 => questions::with_mark(&line, Format::Compact),
        _ => line,
    }
}

/// One of the questions of request L4.
fn of_compact(random: &mut Random, template: &Template) -> String {
    let bytes = inputs::template_bytes(template);
    let narrow = template
        .description
        .unwrap_or(Description::empty(Format::Compact));
    let count = random.between(0, 2);
    let body = inputs::points(random, &narrow, count);
    match random.below(4) {
        0 => questions::body(&bytes, &body),
        1 => questions::body_point(count - count.min(1), &bytes, &body),
        2 => {
            let points = Points {
                count,
                values: inputs::values(random, &narrow, count),
                extended: inputs::extended(random).filter(|_| random.one_in(3)),
            };
            questions::write_body(&bytes, &points, body.len())
        }
        _ => {
            let record = inputs::bytes(&inputs::fitting_parts(random));
            questions::turn([random.below(60), body.len()], &record)
        }
    }
}

fn any_place(random: &mut Random, template: Template) -> String {
    let number = random.between(-5, 70000).to_string();
    let place = random.pick(&[".", "-", "5", "-7", &number]).to_string();
    let scaling = template
        .maximum
        .map_or("!".to_string(), |maximum| maximum.to_string());
    format!("place {place} {scaling}")
}

/// The same words apart by other blanks, and hex digits in either case.
fn spelled(comparison: &mut Comparison, random: &mut Random) {
    for _ in 0..comparison.amount(3000) {
        let line = any_question(random);
        let odd = spell_line(random, &line);
        comparison.ask(SPELLED, odd);
    }
}

pub fn spell_line(random: &mut Random, line: &str) -> Vec<u8> {
    let mut odd: Vec<u8> = blanks(random, 0).into();
    for word in line.split(' ') {
        odd.extend(spell_word(random, word));
        odd.extend(blanks(random, 1).bytes());
    }
    odd
}

fn blanks(random: &mut Random, least: usize) -> String {
    let amount = least + if random.one_in(3) { random.below(3) } else { 0 };
    (0..amount)
        .map(|_| random.pick(&[' ', ' ', ' ', '\t', '\r']))
        .collect()
}

/// Long runs of hex digits get spaces between pairs; any hex digit may be small.
fn spell_word(random: &mut Random, word: &str) -> Vec<u8> {
    let is_hex = word.len() > 12 && word.bytes().all(|byte| byte.is_ascii_hexdigit());
    if !is_hex {
        return word.into();
    }
    let mut spelled = Vec::new();
    for pair in word.as_bytes().chunks(2) {
        let mut pair = pair.to_vec();
        if random.one_in(2) {
            pair.make_ascii_lowercase();
        }
        spelled.extend(pair);
        if random.one_in(3) {
            spelled.extend(blanks(random, 1).bytes());
        }
    }
    spelled
}

fn changed(comparison: &mut Comparison, random: &mut Random) {
    for _ in 0..comparison.amount(14000) {
        let line = any_question(random);
        let line = change_line(random, line);
        comparison.ask(CHANGED, line);
    }
}

/// A line with one to three changes of letters or words.
pub fn change_line(random: &mut Random, line: String) -> Vec<u8> {
    let mut line = line.into_bytes();
    for _ in 0..1 + random.below(3) {
        if random.one_in(3) {
            change_words(random, &mut line);
        } else {
            change_letter(random, &mut line);
        }
    }
    line
}

/// Letters that mean something in a question, and some that mean nothing; no line feed.
const LETTERS: &[u8] = b"  \t\r!!--,..==+0123456789aAbfFgGXYZTVSRxmn_#\x00\x0B\x0C\x7F\x80\xFF";

fn change_letter(random: &mut Random, line: &mut Vec<u8>) {
    let letter = random.pick(LETTERS);
    let place = place_of_change(random, line);
    match random.below(4) {
        0 if place < line.len() => line[place] = letter,
        1 if place < line.len() => {
            line.remove(place);
        }
        2 => line.truncate(place),
        _ => line.insert(place.min(line.len()), letter),
    }
}

/// Seldom in the question's own word; often near it, where the words differ.
fn place_of_change(random: &mut Random, line: &[u8]) -> usize {
    let own = line.iter().position(|byte| *byte == b' ').unwrap_or(0);
    let first = if random.one_in(8) { 0 } else { own };
    let behind = line.len() - first;
    let most = if random.one_in(2) {
        behind.min(16)
    } else {
        behind
    };
    first + random.below(most)
}

/// Words that can stand somewhere.
const WORDS: &str = "! - . 0 -1 -0 1 131072 131073 4294967296 2147483648 X !X Az.constant \
    !Y.mean=3 X.!mean=5 X.!constant X.mean=5.mean=6 R.deviation=-1 S.removed.constant \
    X.scaling=65536 00 B1 !00 !- judge place 1,2 000000000000000001 full compact !full \
    B1068104C0000000";

/// A word put in, left out, doubled or exchanged for another.
fn change_words(random: &mut Random, line: &mut Vec<u8>) {
    let mut words: Vec<Vec<u8>> = line
        .split(|byte| *byte == b' ')
        .map(<[u8]>::to_vec)
        .collect();
    let first = usize::from(words.len() > 1 && !random.one_in(8));
    let place = first + random.below(words.len() - first);
    let others: Vec<&str> = WORDS.split_whitespace().collect();
    let other = random.pick(&others).as_bytes().to_vec();
    match random.below(4) {
        0 => words.insert(place, other),
        1 => {
            words.remove(place);
        }
        2 => {
            let double = words[place].clone();
            words.insert(place, double);
        }
        _ => words[place] = other,
    }
    *line = words.join(&b' ');
}

/// Empty lines, blanks, carriage returns, and last lines without a line feed.
const SHORT_INPUTS: &[&str] = &[
    "",
    "\n",
    "\n\n\n",
    " ",
    "\r\n",
    "judge",
    "judge 53 45",
    "judge 53 45\n\njudge",
    "judge 53 45\r\nrest\r\n",
    "\tjudge\t53\t45\r",
    "no\n\njudge 53 45\n ",
    "place . !",
];

/// Each of these goes to a process of its own.
fn whole_inputs(comparison: &mut Comparison) {
    for input in SHORT_INPUTS {
        comparison.ask_input(INPUTS, input.as_bytes().to_vec());
    }
    let most = LONGEST_LINE;
    for length in [
        65536,
        65537,
        most - 2,
        most - 1,
        most,
        most + 1,
        most + 2,
        2 * most + 1,
        1_000_000,
    ] {
        for (front, filling) in [
            ("judge ", b'5'),
            ("judge 53", b' '),
            ("place . !", b'\r'),
            ("", b' '),
        ] {
            long_line(comparison, front, filling, length);
        }
    }
}

/// A line filled up to a length: last of its input, and with lines before and behind.
fn long_line(comparison: &mut Comparison, front: &str, filling: u8, length: usize) {
    let mut line = front.as_bytes().to_vec();
    line.resize(length, filling);
    let next: &[u8] = b"\njudge 53 45\n";
    comparison.ask_input(INPUTS, [&line[..], next].concat());
    comparison.ask_input(INPUTS, [next, &line, next, &line, next].concat());
    comparison.ask_input(INPUTS, line);
}

/// Several lines, some long, the last perhaps without a line feed.
fn random_inputs(comparison: &mut Comparison, random: &mut Random) {
    for _ in 0..comparison.amount(60) {
        let mut input = Vec::new();
        for _ in 0..random.below(30) {
            if random.one_in(12) {
                let length = LONGEST_LINE - 6 + random.below(12);
                let line = any_question(random).into_bytes();
                let mut long = line;
                long.resize(length, b' ');
                input.extend(long);
            } else if !random.one_in(8) {
                input.extend(any_question(random).bytes());
            }
            input.extend(random.pick(&["\n", "\n", "\r\n", " \n", "\n\n"]).bytes());
        }
        if random.one_in(2) {
            input.extend(any_question(random).bytes());
        }
        comparison.ask_input(INPUTS, input);
    }
}
