//! The few long questions of request L4, with typed answers: many points, numbers far behind, and
//! extended data longer than any record has.

use crate::answers::digits;
use crate::compare::Comparison;
use crate::random::Random;

const MANY: &str = "bodies of many points";
const LATE: &str = "values far behind that don't fit";
const EXTENDED: &str = "bodies with long extended data";

pub fn ask_all(comparison: &mut Comparison, random: &mut Random) {
    many_points(comparison);
    many_turned(comparison);
    late_values(comparison);
    long_extended(comparison, random);
}

/// A hundred thousand points of Y alone, which is 0 up to the 65,536th and 5 behind it.
fn many_points(comparison: &mut Comparison) {
    let template = "B1068104C0000400";
    let body = "80".repeat(65536) + &"85".repeat(100_000 - 65536);
    let good = "body 100000 compact X.constant Y";
    let mut typed = |line: &str, answer: &str| comparison.ask_typed(MANY, line, answer);
    typed(&format!("body {template} {body}"), good);
    for (index, y) in [(0, 0), (34_464, 0), (65535, 0), (65536, 5), (99_999, 5)] {
        let places = format!("point - {y} . . . . . . . . . . . . . .");
        typed(&format!("body-point {index} {template} {body}"), &places);
    }
    for index in [100_000, 131_072, 4_294_967_296i64] {
        let line = format!("body-point {index} {template} {body}");
        typed(&line, "refused 10");
    }
    // Maxima of 100,000, one less, 65,535 and 34,464, which is what sixteen bits leave.
    typed(&format!("body B10B8104C000040082030186A0 {body}"), good);
    for template in [
        "B10B8104C0000400820301869F",
        "B10A8104C00004008202FFFF",
        "B10A8104C0000400820286A0",
    ] {
        typed(&format!("body {template} {body}"), "refused 18");
    }
    // With X beside it there are half as many, and a byte less ends inside a point.
    let two = "B1068104C0000000";
    typed(&format!("body {two} {body}"), "body 50000 compact X Y");
    let cut = &body[2..];
    typed(&format!("body {two} {cut}"), "refused 1");
}

/// As many points of S alone: read, with a wrong one far behind, and turned.
fn many_turned(comparison: &mut Comparison) {
    let template = "B1078105C020040400";
    let body = "00".repeat(70_000) + &"01".repeat(30_000);
    let mut typed = |line: &str, answer: &str| comparison.ask_typed(MANY, line, answer);
    let good = "body 100000 compact X.constant Y.constant S";
    typed(&format!("body {template} {body}"), good);
    let wrong = format!("{}02", &body[..2 * 70_000]);
    typed(&format!("body {template} {wrong}"), "refused 8 70000");
    let record = format!("5344490020313000C02004040000000186A0{body}");
    let turned = format!("turned 9 100000 {template} {body}");
    typed(&format!("turn 9 100000 {record}"), &turned);
    let untouched = "AA".repeat(99_999);
    let refused = format!("refused 15 AAAAAAAAAAAAAAAAAA {untouched}");
    typed(&format!("turn 9 99999 {record}"), &refused);
    typed(&format!("turn 0 1 {record}00"), "refused 9 100018 - AA");
}

/// A value's index has as many bits as it takes. X has the even ones, Y the odd ones.
fn late_values(comparison: &mut Comparison) {
    for (index, channel) in [(255, "Y"), (256, "X"), (65535, "Y"), (65536, "X")] {
        let mut values = vec!["0"; index / 2 * 2 + 2];
        values[index] = "128";
        let count = values.len() / 2;
        let values = values.join(",");
        let line = format!("write-body {count} {values} ! 1 B1068104C0000000");
        let answer = format!("refused 21 value {index} {channel} AA");
        comparison.ask_typed(LATE, &line, &answer);
    }
    // Y alone of 256, 257 and 65,000 points, the last of which is 128.
    for (count, field) in [(256, "000100"), (257, "000101"), (65_000, "00FDE8")] {
        let points = "8000".repeat(count - 1);
        let record = format!("5344490020313000C00004000000{field}{points}8080");
        let line = format!("turn 1 0 {record}");
        let answer = format!("refused 21 value {} Y AA -", count - 1);
        comparison.ask_typed(LATE, &line, &answer);
    }
}

/// 21 however many bytes there are, behind 13 and before 18 and 15; lent bytes don't count. A record
/// with the longest that there are is refused with 21 too.
fn long_extended(comparison: &mut Comparison, random: &mut Random) {
    let data = digits(&random.bytes(65536));
    let at_most_none = "B1098104C0000000820100";
    let mut typed = |line: &str, answer: &str| comparison.ask_typed(EXTENDED, line, answer);
    for (values, extended, answer) in [
        ("0,0", data.as_str(), "refused 21 extended AA"),
        ("0,0", &data[2..], "refused 21 extended AA"),
        ("0", &data, "refused 13 AA"),
        ("0,128", &data, "refused 21 value 1 Y AA"),
        ("0,0", &format!("!{data}"), "refused 18 AA"),
    ] {
        let line = format!("write-body 1 {values} {extended} 1 {at_most_none}");
        typed(&line, answer);
    }
    let line = format!("write-body 1 0,5 !{data} 3 B1068104C0000000");
    typed(&line, "written 2 8085AA");
    let longest = &data[2..];
    let record = format!("5344490020313000C00000000080000000FFFF{longest}");
    typed(
        &format!("turn 8 1 {record}"),
        "refused 21 extended AAAAAAAAAAAAAAAA AA",
    );
    typed(&format!("turn 0 0 {}", &record[2..]), "refused 2 0 - -");
    let cut = &record[..record.len() - 2];
    typed(&format!("turn 0 0 {cut}"), "refused 1 - -");
}
