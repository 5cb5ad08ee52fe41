//! The answers to the questions of request L4: compact bodies, and full records turned into them.

use super::{output, sixteen};
use crate::body::{self, Body, Points};
use crate::description::words as description_words;
use crate::turning;
use crate::words::{self, Read, Words};

fn template(words: &mut Words) -> Read<Vec<u8>> {
    words::hex(words.next()?).ok_or(words::NOT_BYTES)
}

pub fn judge(words: &mut Words) -> Read<String> {
    let template = template(words)?;
    Ok(match body::judge(&template, &words.bytes()?) {
        Ok(Body { description, count }) => {
            format!("body {count}{}", description_words(&description))
        }
        Err(refused) => refused.text(),
    })
}

pub fn point(words: &mut Words) -> Read<String> {
    let index = words.number(words::NOT_NEGATIVE)?;
    let template = template(words)?;
    Ok(match body::point(&template, &words.bytes()?, index) {
        Ok(places) => format!("point{}", sixteen(places)),
        Err(refused) => refused.text(),
    })
}

pub fn write(words: &mut Words) -> Read<String> {
    let points = Points {
        count: words.number(words::NOT_NEGATIVE)?,
        values: words::values(words.next()?).ok_or(words::NOT_NUMBER)?,
        extended: words::wanted(words.next()?, words::hex).ok_or(words::NOT_BYTES)?,
    };
    let room = words.number(words::ROOM)? as usize;
    Ok(match body::write(&words.bytes()?, &points, room) {
        Ok(bytes) => format!("written {} {}", bytes.len(), output(&bytes, room)),
        Err(refused) => format!("{} {}", refused.text(), output(&[], room)),
    })
}

/// Of everything the template's comes first.
pub fn turn(words: &mut Words) -> Read<String> {
    let mut room = || Ok(words.number(words::ROOM)? as usize);
    let rooms @ [first, second] = [room()?, room()?];
    Ok(match turning::turn(&words.bytes()?, rooms) {
        Ok([template, body]) => format!(
            "turned {} {} {} {}",
            template.len(),
            body.len(),
            output(&template, first),
            output(&body, second)
        ),
        Err(refusal) => format!(
            "{} {} {}",
            refusal.text(),
            output(&[], first),
            output(&[], second)
        ),
    })
}
