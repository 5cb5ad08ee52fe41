//! Writing long records: extended data as long as their length field holds and longer, and
//! records as long as the greatest room.

use super::writes::with_broken;
use crate::answers::digits;
use crate::compare::Comparison;
use crate::description::stored;
use crate::inputs::{self, Constants, X_AND_Y};
use crate::questions;
use crate::random::Random;
use crate::words::ROOM;
use crate::writing::{Parts, LONGEST_EXTENDED};

const EXTENDED: &str = "writing long extended data";
const STAGES: &str = "writing too long extended data with stages broken";
const LONG: &str = "long records written";
const LATE: &str = "values out of range far behind";

pub fn ask_all(comparison: &mut Comparison, random: &mut Random) {
    wanted(comparison, random);
    too_long(comparison, random);
    only_lent(comparison, random);
    with_another(comparison, random);
    with_others(comparison, random);
    full_room(comparison, random);
    many_values(comparison, random);
    late_values(comparison);
}

/// A record of one point without its opening byte: what is before it and what is behind.
const FRONT: &str = "5344490020313000C000000000";
const POINT: &str = "0000017FFF8000";

/// A refusal leaves the whole room as it was.
fn refused(why: &str, room: usize) -> String {
    match room {
        0 => format!("refused {why} -"),
        _ => format!("refused {why} {}", "AA".repeat(room)),
    }
}

/// Extended data that are wanted, with the two bytes of their length; rooms around the record.
fn wanted(comparison: &mut Comparison, random: &mut Random) {
    for (amount, field) in [
        (255, "00FF"),
        (256, "0100"),
        (32767, "7FFF"),
        (32768, "8000"),
        (65280, "FF00"),
        (65534, "FFFE"),
        (65535, "FFFF"),
    ] {
        let data = digits(&random.bytes(amount));
        let length = 23 + amount;
        let record = format!("{FRONT}80{POINT}{field}{data}");
        for room in [length, length + 1, 131_072] {
            let line = format!("write 1 -1,0 {data} {room} X Y");
            let untouched = "AA".repeat(room - length);
            let answer = format!("written {length} {record}{untouched}");
            comparison.ask_typed(EXTENDED, &line, &answer);
        }
        for room in [length - 1, 22, 0] {
            let line = format!("write 1 -1,0 {data} {room} X Y");
            comparison.ask_typed(EXTENDED, &line, &refused("15", room));
        }
    }
    for _ in 0..comparison.amount(4) {
        let mut parts = inputs::any_parts(random);
        parts.extended = Some(random.bytes(LONGEST_EXTENDED));
        around_its_length(comparison, random, &parts);
    }
}

fn around_its_length(comparison: &mut Comparison, random: &mut Random, parts: &Parts) {
    let length = inputs::bytes(parts).len();
    for room in [length, length - 1, length + random.below(9)] {
        let room = room.min(ROOM.1 as usize);
        comparison.ask(LONG, questions::write(parts, room));
    }
}

/// 14 alone, and with too little room. The last amount makes the longest line there is, and no
/// room would do for it. Cut to two bytes the lengths would be 0, 1, 5 and so on.
fn too_long(comparison: &mut Comparison, random: &mut Random) {
    for amount in [65536, 65537, 65541, 98_304, 131_060] {
        let data = digits(&random.bytes(amount));
        let length = 23 + amount;
        for room in [length, 131_072, length - 1, 28, 23, 0] {
            let room = room.min(131_072);
            let line = format!("write 1 -1,0 {data} {room} X Y");
            comparison.ask_typed(EXTENDED, &line, &refused("14", room));
        }
    }
}

/// Bytes that are lent and not wanted don't count, however many they are.
fn only_lent(comparison: &mut Comparison, random: &mut Random) {
    for amount in [65535, 65536, 65541, 131_059] {
        let data = digits(&random.bytes(amount));
        for (room, untouched) in [(21, ""), (23, "AAAA")] {
            let line = format!("write 1 -1,0 !{data} {room} X Y");
            let answer = format!("written 21 {FRONT}00{POINT}{untouched}");
            comparison.ask_typed(EXTENDED, &line, &answer);
        }
        let line = format!("write 1 -1,0 !{data} 20 X Y");
        comparison.ask_typed(EXTENDED, &line, &refused("15", 20));
    }
}

/// COUNT, VALUES and CHANNEL.. with one stage broken, its number, and for 12 which it was.
const BROKEN: [(&str, &str, &str, &str); 11] = [
    ("1", "0", "Y", "4"),
    ("1", "-1", "X !Y", "4"),
    ("1", "-1,0", "X Y.!mean=5", "11"),
    ("1", "-1,0", "X Y !Z.constant", "11"),
    ("1", "-1,0", "X.mean=32768 Y", "12 X mean"),
    ("1", "-1,0", "X Y.scaling=65536", "12 Y scaling"),
    ("16777216", "-", "X.constant Y.constant", "12 count"),
    ("1", "-1", "X Y", "13"),
    ("1", "-1,0,0", "X Y", "13"),
    ("1", "-1,32768", "X Y", "12 value 1 Y"),
    ("1", "-1,0,2", "X Y S", "12 value 2 S"),
];

/// Each of them comes before 14, with room and without; with data not too long, or only lent,
/// it is the only one, or 15 comes behind it.
fn with_another(comparison: &mut Comparison, random: &mut Random) {
    let data = digits(&random.bytes(65536));
    let fewer = &data[2..];
    for (count, values, channels, why) in BROKEN {
        for (extended, room) in [
            (data.clone(), 65600),
            (data.clone(), 3),
            (fewer.to_string(), 65600),
            (format!("!{data}"), 100),
        ] {
            let line = format!("write {count} {values} {extended} {room} {channels}");
            comparison.ask_typed(STAGES, &line, &refused(why, room));
        }
    }
}

/// Sets of stages broken at once besides 14; few at a time, so that 14 often decides.
fn with_others(comparison: &mut Comparison, random: &mut Random) {
    for number in 0..comparison.amount(40) {
        let mut parts = inputs::any_parts(random);
        parts.extended = Some(Vec::new());
        // Each stage alone with 14, then any, now and then without 14.
        let (set, more) = match number {
            0..=6 => (1 << number, 1),
            _ => (
                random.byte() & random.byte() & random.byte(),
                random.pick(&[0, 1, 1, 2, 256, 20_000]),
            ),
        };
        let amount = LONGEST_EXTENDED + more;
        let length = inputs::bytes(&parts).len() + amount;
        parts.extended = Some(random.bytes(amount));
        let line = with_broken(random, parts, length, set);
        comparison.ask(STAGES, line);
    }
}

/// Records as long as the greatest room and one byte longer, of points and extended data.
fn full_room(comparison: &mut Comparison, random: &mut Random) {
    for (count, amount) in [(32763, 1), (32763, 2), (16378, 65535), (16379, 65534)] {
        let mut parts = inputs::parts(random, X_AND_Y, Constants::None, 0);
        for said in &mut parts.description[..2] {
            said.given = [false; 5];
            said.numbers = [0; 5];
        }
        parts.count = count;
        // Small numbers, so that the line isn't too long.
        let values = (0..2 * count).map(|_| random.between(-9, 9));
        parts.values = values.collect();
        parts.extended = Some(random.bytes(amount));
        around_its_length(comparison, random, &parts);
    }
}

/// Values of any size, nearly as many as a line can hold.
fn many_values(comparison: &mut Comparison, random: &mut Random) {
    for number in 0..comparison.amount(3) {
        let set = [X_AND_Y, 0xFFFF, inputs::set(random)][number % 3];
        let mut parts = inputs::parts(random, set, Constants::None, 0);
        parts.count = (35_000 / stored(&parts.description).len()) as i64;
        parts.values = inputs::values(random, &parts.description, parts.count);
        around_its_length(comparison, random, &parts);
        // The last value outside its range, and one value missing.
        if let Some(last) = parts.values.last_mut() {
            *last = 65536;
        }
        comparison.ask(LONG, questions::write(&parts, 9));
        parts.values.pop();
        comparison.ask(LONG, questions::write(&parts, 9));
    }
}

/// A value's index has as many bits as it takes: these are around eight and sixteen of them. X has
/// the even ones, Y the odd ones.
fn late_values(comparison: &mut Comparison) {
    for (index, channel) in [(255, "Y"), (256, "X"), (65535, "Y"), (65536, "X")] {
        let mut values = vec!["0"; index / 2 * 2 + 2];
        values[index] = "32768";
        let count = values.len() / 2;
        let line = format!("write {count} {} ! 1 X Y", values.join(","));
        let answer = format!("refused 12 value {index} {channel} AA");
        comparison.ask_typed(LATE, &line, &answer);
    }
}
