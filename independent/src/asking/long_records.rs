//! Reading long records: the longest extended data, many points, and as long as a line can be.

use super::{all_questions, OF_BYTES};
use crate::answers::{digits, LONGEST_LINE};
use crate::channels::{bit, S};
use crate::compare::Comparison;
use crate::description::{point_size, Format};
use crate::inputs::{self, Constants, X_AND_Y};
use crate::questions;
use crate::random::Random;
use crate::writing::{Parts, LONGEST_EXTENDED};

const EXTENDED: &str = "records with long extended data";
const POINTS: &str = "records of many points";
const FILLED: &str = "records as long as a line";
const LISTED: &str = "listings of long records";

pub fn ask_all(comparison: &mut Comparison, random: &mut Random) {
    longest_extended(comparison, random);
    two_long(comparison, random);
    many_points(comparison, random);
    wrong_points(comparison, random);
    points_of_one_byte(comparison);
    filled(comparison, random);
}

/// The 19 bytes before extended data of 65,535 bytes, in a record with no points.
const FRONT: &str = "5344490020313000C00000000080000000FFFF";
const M: &str = "5344490020313000C00000000000000000";

/// Whole, cut short within the extended data and before them, and with bytes behind.
fn longest_extended(comparison: &mut Comparison, random: &mut Random) {
    let data = digits(&random.bytes(65535));
    let whole = format!("{FRONT}{data}");
    let good = "record 65554 0 extended full X Y";
    let mut typed = |line: &str, answer: &str| comparison.ask_typed(EXTENDED, line, answer);
    typed(&format!("judge {whole}"), good);
    typed(&format!("whole {whole}"), good);
    typed(&format!("extended {whole}"), &format!("bytes {data}"));
    typed(&format!("rest {whole}"), "bytes -");
    let stepped = "record 65554 0 extended next 65554";
    typed(&format!("step 0 {whole}"), stepped);
    typed(&format!("step 65554 {whole}"), "end next 65554");
    for length in [17, 18, 19, 20, 32787, 65552, 65553] {
        let cut = &whole[..2 * length];
        typed(&format!("judge {cut}"), "refused 1");
        typed(&format!("whole {cut}"), "refused 1");
        typed(&format!("extended {cut}"), "bytes -");
        typed(&format!("rest {cut}"), "bytes -");
        typed(&format!("step 0 {cut}"), "refused 1 next 0");
    }
    for (behind, next) in [
        ("00", "refused 2 65554 next 65554"),
        ("53", "refused 1 next 65554"),
        (&M[..32], "refused 1 next 65554"),
        (M, "record 17 0 plain next 65571"),
        ("5344490021", "refused 3 65558 next 65554"),
    ] {
        let longer = format!("{whole}{behind}");
        typed(&format!("judge {longer}"), good);
        typed(&format!("whole {longer}"), "refused 9 65554");
        typed(&format!("extended {longer}"), &format!("bytes {data}"));
        typed(&format!("rest {longer}"), &format!("bytes {behind}"));
        typed(&format!("point 0 {longer}"), "refused 10");
        typed(&format!("step 0 {longer}"), stepped);
        typed(&format!("step 65554 {longer}"), next);
    }
    comparison.list(LISTED, &with_extended(random, LONGEST_EXTENDED));
    for _ in 0..comparison.amount(2) {
        let bytes = with_extended(random, LONGEST_EXTENDED);
        all_questions(comparison, EXTENDED, &bytes, 2);
        let cut = bytes.len() - 1 - random.below(LONGEST_EXTENDED);
        all_questions(comparison, EXTENDED, &bytes[..cut], 2);
    }
}

fn with_extended(random: &mut Random, amount: usize) -> Vec<u8> {
    let mut parts = inputs::any_parts(random);
    parts.extended = Some(random.bytes(amount));
    inputs::bytes(&parts)
}

/// Two records with long extended data, walked over whole and cut by a byte.
fn two_long(comparison: &mut Comparison, random: &mut Random) {
    for _ in 0..comparison.amount(2) {
        let mut file = with_extended(random, LONGEST_EXTENDED);
        let second = file.len();
        file.extend(with_extended(random, 64_500));
        let end = file.len();
        for place in [0, second, second + 1, end] {
            comparison.ask(EXTENDED, questions::step(place, &file));
        }
        comparison.ask(EXTENDED, questions::step(second, &file[..end - 1]));
        for question in OF_BYTES {
            comparison.ask(EXTENDED, questions::of_bytes(question, &file));
        }
    }
}

/// As many points as there is room for, besides so many bytes of extended data.
fn of_points(random: &mut Random, set: u16, amount: Option<usize>, room: usize) -> Parts {
    let description = inputs::description(random, Format::Full, set, Constants::None);
    let mut parts = Parts {
        description,
        count: 0,
        values: Vec::new(),
        extended: amount.map(|amount| random.bytes(amount)),
    };
    let left = room - inputs::bytes(&parts).len();
    parts.count = (left / point_size(&description)) as i64;
    parts.values = inputs::values(random, &description, parts.count);
    parts
}

/// The first, a middle, the last point and those past the end; alone and behind another record.
fn many_points(comparison: &mut Comparison, random: &mut Random) {
    let any = inputs::set(random);
    for (set, room) in [
        (X_AND_Y, 100_000),
        (0xFFFF, 100_000),
        (X_AND_Y | bit(S), 70_000),
        (any, 66_000),
        (any, 33_000),
    ] {
        let parts = of_points(random, set, None, room);
        let (bytes, count) = (inputs::bytes(&parts), parts.count);
        comparison.ask(POINTS, questions::of_bytes("judge", &bytes));
        let far = count + random.between(1, 100_000);
        for index in [0, 1, count / 2, count - 2, count - 1, count, far] {
            comparison.ask(POINTS, questions::point(index, &bytes));
        }
        for index in [count / 2, count - 1, count] {
            comparison.ask(POINTS, questions::look_up(index, &bytes));
        }
        comparison.ask(POINTS, questions::step(0, &bytes));
        let before = inputs::small_record(random);
        let joined = [&before[..], &bytes, &before].concat();
        for place in [before.len(), before.len() + bytes.len()] {
            comparison.ask(POINTS, questions::step(place, &joined));
        }
        comparison.list(LISTED, &bytes);
    }
}

/// Cut within the last point, and an S not admitted in the first, a middle and the last point.
fn wrong_points(comparison: &mut Comparison, random: &mut Random) {
    let parts = of_points(random, X_AND_Y | bit(S), None, 90_000);
    let bytes = inputs::bytes(&parts);
    let before = inputs::small_record(random);
    let mut ask = |wrong: &[u8]| {
        comparison.ask(POINTS, questions::of_bytes("judge", wrong));
        comparison.ask(POINTS, questions::point(0, wrong));
        let joined = [&before[..], wrong].concat();
        comparison.ask(POINTS, questions::step(before.len(), &joined));
    };
    ask(&bytes[..bytes.len() - 1]);
    ask(&bytes[..bytes.len() - 5]);
    let places = inputs::ruled_places(&parts);
    let last = places.len() - 1;
    for number in [last + 1 - parts.count as usize, last - 5000, last] {
        let mut wrong = bytes.clone();
        wrong[places[number]] = 2;
        ask(&wrong);
    }
}

/// A hundred thousand points of one byte: the count needs its three bytes.
fn points_of_one_byte(comparison: &mut Comparison) {
    let zeros = "00".repeat(65536);
    let others = "01".repeat(100_000 - 65536);
    let count = "0186A0";
    let bytes = format!("5344490020313000C0200404000000{count}{zeros}{others}");
    let said = "X.constant Y.constant S";
    let mut typed = |line: &str, answer: &str| comparison.ask_typed(POINTS, line, answer);
    let good = format!("record 100018 100000 plain full {said}");
    typed(&format!("judge {bytes}"), &good);
    typed(&format!("whole {bytes}"), &good);
    let cut = &bytes[..bytes.len() - 2];
    typed(&format!("judge {cut}"), "refused 1");
    let stepped = "record 100018 100000 plain next 100018";
    typed(&format!("step 0 {bytes}"), stepped);
    for (index, state) in [(0, 0), (50_000, 0), (65535, 0), (65536, 1), (99_999, 1)] {
        let places = format!("- - . . . . . . . . {state} . . . . .");
        typed(
            &format!("point {index} {bytes}"),
            &format!("point {places}"),
        );
        let looked_up = format!("point 19 {places}");
        typed(&format!("look-up {index} {bytes}"), &looked_up);
    }
    typed(&format!("point 100000 {bytes}"), "refused 10");
    let beyond = "refused 10 looked 18";
    typed(&format!("look-up 100000 {bytes}"), beyond);
    let short = "refused 1 looked 18";
    typed(&format!("look-up 99999 {cut}"), short);
    let column = format!("{}{}", "0,".repeat(65536), "1,".repeat(100_000 - 65536));
    let answer = format!("columns {}", column.trim_end_matches(','));
    typed(&format!("columns {bytes}"), &answer);
    let wrong = format!("{cut}02");
    typed(&format!("judge {wrong}"), "refused 8 100017");
    typed(&format!("columns {wrong}"), "refused 8 100017");
    typed(&format!("point 0 {wrong}"), "refused 8 100017");
    let unseen = "point 19 - - . . . . . . . . 0 . . . . .";
    typed(&format!("look-up 0 {wrong}"), unseen);
    let seen = "refused 8 100017 looked 19";
    typed(&format!("look-up 99999 {wrong}"), seen);
}

/// Filled by points, and by points and the longest extended data, as far as a line goes.
fn filled(comparison: &mut Comparison, random: &mut Random) {
    // `point` with an index of five digits is the longest of what stands before the bytes.
    let room = (LONGEST_LINE - "point 12345 ".len()) / 2;
    for amount in [None, Some(LONGEST_EXTENDED), Some(1000)] {
        let set = inputs::set(random);
        let parts = of_points(random, set, amount, room);
        let bytes = inputs::bytes(&parts);
        all_questions(comparison, FILLED, &bytes, parts.count);
        comparison.list(LISTED, &bytes);
    }
}
