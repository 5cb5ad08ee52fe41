//! The answer that `ask` should give to a line.

mod bodies;
mod doubles;

use crate::columns;
use crate::description::{words as description_words, Format};
use crate::lookup::{self, LookedUp};
use crate::record::{self, Place, Record, Step};
use crate::refusal::Refusal;
use crate::template::{self, Template};
use crate::thousandths::{of_place, thousandths, Reading};
use crate::values::{amount, Order};
use crate::words::{self, Read, Words};
use crate::writing::{self, Parts};

pub const LONGEST_LINE: usize = 262_144;
/// What each lent number is before a question: one that no point holds.
const UNTOUCHED: i64 = 99999;

/// The answers to a whole input: one for each line, the last perhaps without a line feed.
pub fn all(input: &[u8]) -> Vec<String> {
    let mut lines: Vec<&[u8]> = input.split(|byte| *byte == b'\n').collect();
    // Behind the last line feed there is a line only if it has bytes.
    if lines.last().is_some_and(|last| last.is_empty()) {
        lines.pop();
    }
    lines.into_iter().map(answer).collect()
}

pub fn answer(line: &[u8]) -> String {
    match read(line) {
        Ok(answer) => answer,
        Err(why) => format!("cannot read: {why}"),
    }
}

fn read(line: &[u8]) -> Read<String> {
    if line.len() > LONGEST_LINE {
        return Err(words::LONG_LINE);
    }
    let mut words = Words::new(line);
    let question = words.next().unwrap_or(b"");
    match question {
        b"judge" => Ok(verdict(record::judge(&words.bytes()?))),
        b"whole" => Ok(verdict(record::whole(&words.bytes()?))),
        b"extended" => Ok(format!("bytes {}", hex(record::extended(&words.bytes()?)))),
        b"rest" => Ok(format!("bytes {}", hex(record::rest(&words.bytes()?)))),
        b"point" => point(&mut words),
        b"look-up" => look_up(&mut words),
        b"columns" => Ok(columns(&words.bytes()?)),
        b"columns-in" => columns_in(&mut words),
        b"write" => write(&mut words, Order::Points),
        b"write-columns" => write(&mut words, Order::Columns),
        b"step" => step(&mut words),
        b"template" => Ok(template(&words.bytes()?)),
        b"write-template" => write_template(&mut words),
        b"body" => bodies::judge(&mut words),
        b"body-point" => bodies::point(&mut words),
        b"write-body" => bodies::write(&mut words),
        b"turn" => bodies::turn(&mut words),
        b"thousandths" => of_numbers(&mut words),
        b"place" => place(&mut words),
        b"double" => doubles::of_numbers(&mut words),
        b"double-place" => doubles::of_place(&mut words),
        _ => Err(words::NO_QUESTION),
    }
}

/// HEX in capital letters, `-` for no bytes.
pub fn hex(bytes: &[u8]) -> String {
    if bytes.is_empty() {
        return "-".to_string();
    }
    digits(bytes)
}

/// Pairs of hex digits; nothing for no bytes.
pub fn digits(bytes: &[u8]) -> String {
    let digit = |number: u8| char::from(b"0123456789ABCDEF"[usize::from(number)]);
    bytes
        .iter()
        .flat_map(|byte| [digit(byte >> 4), digit(byte & 15)])
        .collect()
}

/// VALUES: numbers with commas, `-` for none.
pub fn values(values: &[i64]) -> String {
    if values.is_empty() {
        return "-".to_string();
    }
    let texts: Vec<String> = values.iter().map(i64::to_string).collect();
    texts.join(",")
}

fn verdict(judged: Result<Record, Refusal>) -> String {
    match judged {
        Ok(record) => {
            let said = description_words(&record.description);
            format!(
                "record {} {} {}{said}",
                record.length,
                record.count,
                record.presence()
            )
        }
        Err(refusal) => refusal.text(),
    }
}

fn point(words: &mut Words) -> Read<String> {
    let index = words.number(words::NOT_NEGATIVE)?;
    Ok(match record::point(&words.bytes()?, index) {
        Ok(places) => format!("point{}", sixteen(places)),
        Err(refusal) => refusal.text(),
    })
}

fn look_up(words: &mut Words) -> Read<String> {
    let index = words.number(words::NOT_NEGATIVE)?;
    let LookedUp { answer, looked } = lookup::look_up(&words.bytes()?, index);
    Ok(match answer {
        Ok(places) => format!("point {looked}{}", sixteen(places)),
        Err(refusal) => format!("{} looked {looked}", refusal.text()),
    })
}

/// The places of a point, a space before each.
fn sixteen(places: [Place; 16]) -> String {
    places.map(|place| format!(" {}", place.text())).concat()
}

/// As many numbers are lent as the record has; for bytes that are refused none are shown.
fn columns(bytes: &[u8]) -> String {
    let wanted = |record: Record| amount(&record.description, record.count) as usize;
    let mut lent = vec![UNTOUCHED; record::whole(bytes).map_or(0, wanted)];
    match columns::read(bytes, &mut lent) {
        Ok(()) => format!("columns {}", values(&lent)),
        Err(refusal) => refusal.text(),
    }
}

/// All the lent numbers are shown, also behind a refusal.
fn columns_in(words: &mut Words) -> Read<String> {
    let mut lent = vec![UNTOUCHED; words.number(words::AMOUNT)? as usize];
    let said = match columns::read(&words.bytes()?, &mut lent) {
        Ok(()) => "columns".to_string(),
        Err(refusal) => refusal.text(),
    };
    Ok(format!("{said} {}", values(&lent)))
}

fn write(words: &mut Words, order: Order) -> Read<String> {
    let count = words.number(words::NOT_NEGATIVE)?;
    let values = words::values(words.next()?).ok_or(words::NOT_NUMBER)?;
    let extended = words::wanted(words.next()?, words::hex).ok_or(words::NOT_BYTES)?;
    let room = words.number(words::ROOM)? as usize;
    let description = words.description(Format::Full)?;
    let parts = Parts {
        description,
        count,
        values,
        extended,
    };
    Ok(written(writing::write_from(order, &parts, room), room))
}

fn written(result: Result<Vec<u8>, Refusal>, room: usize) -> String {
    match result {
        Ok(bytes) => format!("written {} {}", bytes.len(), output(&bytes, room)),
        Err(refusal) => format!("{} {}", refusal.text(), output(&[], room)),
    }
}

/// HEX of a room. Every byte of it was AA before, and those not written are so still.
fn output(bytes: &[u8], room: usize) -> String {
    let mut output = vec![0xAA; room];
    output.splice(..bytes.len().min(room), bytes.iter().copied());
    hex(&output)
}

fn step(words: &mut Words) -> Read<String> {
    let place = words.number(words::NOT_NEGATIVE)? as usize;
    let file = words.bytes()?;
    Ok(match record::step(&file, place) {
        Step::End => format!("end next {place}"),
        Step::Refused(refusal) => format!("{} next {place}", refusal.text()),
        Step::Record(record) => {
            let (length, presence) = (record.length, record.presence());
            format!(
                "record {length} {} {presence} next {}",
                record.count,
                place + length
            )
        }
    })
}

fn template(bytes: &[u8]) -> String {
    match template::read(bytes) {
        Ok(Template {
            description,
            maximum,
        }) => {
            let maximum = maximum.map_or("!".to_string(), |maximum| maximum.to_string());
            let said = description.map_or(" !".to_string(), |said| description_words(&said));
            format!("template {maximum}{said}")
        }
        Err(refusal) => refusal.text(),
    }
}

fn write_template(words: &mut Words) -> Read<String> {
    let maximum = |word: &[u8]| words::number(word, words::MAXIMUM);
    let maximum = words::wanted(words.next()?, maximum).ok_or(words::NOT_NUMBER)?;
    let room = words.number(words::ROOM)? as usize;
    let wanted = !words.none_wanted();
    let description = Some(words.description(Format::Compact)?).filter(|_| wanted);
    let template = Template {
        description,
        maximum,
    };
    Ok(written(template::write(&template, room), room))
}

/// RAW, E and F.
fn three(words: &mut Words) -> Read<[i64; 3]> {
    let raw = words.number(words::ANY)?;
    let e = words.number(words::NOT_NEGATIVE)?;
    let f = words.number(words::NOT_NEGATIVE)?;
    words.end()?;
    Ok([raw, e, f])
}

fn of_numbers(words: &mut Words) -> Read<String> {
    let [raw, e, f] = three(words)?;
    Ok(match thousandths(raw, e, f) {
        Ok(number) => format!("thousandths {number}"),
        Err(refusal) => refusal.text(),
    })
}

/// PLACE and SCALING.
fn place_and_scaling(words: &mut Words) -> Read<(Place, Option<i64>)> {
    let place = words::place(words.next()?).ok_or(words::NOT_PLACE)?;
    let scaling = |word: &[u8]| words::number(word, words::OF_A_CHANNEL);
    let scaling = words::wanted(words.next()?, scaling).ok_or(words::NOT_NUMBER)?;
    words.end()?;
    Ok((place, scaling))
}

fn place(words: &mut Words) -> Read<String> {
    let (place, scaling) = place_and_scaling(words)?;
    Ok(match of_place(place, scaling) {
        Reading::Absent => "absent".to_string(),
        Reading::Thousandths(number) => format!("thousandths {number}"),
        Reading::Refused(refusal) => refusal.text(),
    })
}
