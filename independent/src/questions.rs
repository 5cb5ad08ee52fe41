//! Makes the lines of questions. The marks of descriptions are left out, unless they are put in.

use crate::answers::{digits, hex, values};
use crate::body::Points;
use crate::description::{channel_words, Description, Format};
use crate::template::Template;
use crate::writing::Parts;

/// A question whose only words are BYTES: judge, whole, extended, rest, columns, template.
pub fn of_bytes(question: &str, bytes: &[u8]) -> String {
    format!("{question} {}", digits(bytes))
}

pub fn point(index: i64, bytes: &[u8]) -> String {
    format!("point {index} {}", digits(bytes))
}

pub fn look_up(index: i64, bytes: &[u8]) -> String {
    format!("look-up {index} {}", digits(bytes))
}

pub fn step(place: usize, bytes: &[u8]) -> String {
    format!("step {place} {}", digits(bytes))
}

pub fn columns_in(amount: usize, bytes: &[u8]) -> String {
    format!("columns-in {amount} {}", digits(bytes))
}

pub fn write(parts: &Parts, room: usize) -> String {
    write_with(parts, &wanted(parts.extended.as_deref()), room)
}

/// The values of the parts stand column after column.
pub fn write_columns(parts: &Parts, room: usize) -> String {
    let extended = wanted(parts.extended.as_deref());
    from_values("write-columns", parts, &extended, room)
}

/// With a given EXTENDED word.
pub fn write_with(parts: &Parts, extended: &str, room: usize) -> String {
    from_values("write", parts, extended, room)
}

/// EXTENDED of data that are wanted, or of none.
fn wanted(extended: Option<&[u8]>) -> String {
    extended.map_or("!".to_string(), hex)
}

fn from_values(question: &str, parts: &Parts, extended: &str, room: usize) -> String {
    let (count, values) = (parts.count, values(&parts.values));
    let said = channel_words(&parts.description);
    format!("{question} {count} {values} {extended} {room}{said}")
}

pub fn write_template(template: &Template, room: usize) -> String {
    let maximum = template
        .maximum
        .map_or("!".to_string(), |maximum| maximum.to_string());
    let said = template
        .description
        .as_ref()
        .map_or(" !".to_string(), channel_words);
    format!("write-template {maximum} {room}{said}")
}

/// A description that is lent and not wanted.
pub fn write_template_unwanted(maximum: &str, room: usize, lent: &Description) -> String {
    format!("write-template {maximum} {room} !{}", channel_words(lent))
}

/// How many words of a writer's question stand before DESCRIPTION.
pub fn words_before_description(line: &str) -> usize {
    let words: Vec<&str> = line.split(' ').collect();
    match words[..] {
        // None is wanted.
        ["write-template", _, _, "!", ..] => 4,
        ["write-template", ..] => 3,
        _ => 5,
    }
}

/// A writer's question with a mark put in.
pub fn with_mark(line: &str, mark: Format) -> String {
    let mut words: Vec<&str> = line.split(' ').collect();
    words.insert(words_before_description(line), mark.word());
    words.join(" ")
}

pub fn body(template: &[u8], body: &[u8]) -> String {
    format!("body {} {}", hex(template), digits(body))
}

pub fn body_point(index: i64, template: &[u8], body: &[u8]) -> String {
    format!("body-point {index} {} {}", hex(template), digits(body))
}

pub fn write_body(template: &[u8], points: &Points, room: usize) -> String {
    write_body_with(template, points, &wanted(points.extended.as_deref()), room)
}

/// With a given EXTENDED word.
pub fn write_body_with(template: &[u8], points: &Points, extended: &str, room: usize) -> String {
    let (count, values, template) = (points.count, values(&points.values), digits(template));
    format!("write-body {count} {values} {extended} {room} {template}")
}

/// Rooms for the template and for the body.
pub fn turn(rooms: [usize; 2], bytes: &[u8]) -> String {
    let [template, body] = rooms;
    format!("turn {template} {body} {}", digits(bytes))
}
