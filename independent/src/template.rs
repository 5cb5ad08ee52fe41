//! The compact parameter template (002, 8.2, with the limits of document 01).

use crate::cursor::Cursor;
use crate::description::{self, put_number, Description, Format};
use crate::record::GREATEST_COUNT;
use crate::refusal::Refusal;
use crate::which::{check, Which};
use crate::writing::fits;

pub const TEMPLATE: u8 = 0xB1;
pub const DESCRIPTION: u8 = 0x81;
pub const MAXIMUM: u8 = 0x82;

#[derive(Clone, Debug, Default, PartialEq, Eq)]
pub struct Template {
    pub description: Option<Description>,
    pub maximum: Option<i64>,
}

pub fn read(bytes: &[u8]) -> Result<Template, Refusal> {
    let end = outer(bytes)?;
    let mut template = Template::default();
    let mut place = 2;
    while place < end {
        place = element(bytes, place, &mut template)?;
    }
    Ok(template)
}

/// Tag and length, settled in full before anything inside; answers where the content ends.
fn outer(bytes: &[u8]) -> Result<usize, Refusal> {
    match bytes {
        [] => Err(Refusal::bare(1)),
        [tag, ..] if *tag != TEMPLATE => Err(Refusal::bare(16)),
        [_] => Err(Refusal::bare(1)),
        [_, 128..=255, ..] => Err(Refusal::bare(17)),
        [_, length, content @ ..] => {
            let length = usize::from(*length);
            match content.len() {
                found if found < length => Err(Refusal::bare(1)),
                found if found > length => Err(Refusal::at(9, 2 + length)),
                _ => Ok(2 + length),
            }
        }
    }
}

/// One inner tag with its length and content; answers where it ends.
fn element(bytes: &[u8], place: usize, template: &mut Template) -> Result<usize, Refusal> {
    let mut front = Cursor::new(bytes, place, 17);
    let tag = front.next()?;
    // 81 before 82, each once.
    let expected = match tag {
        DESCRIPTION => template.description.is_none() && template.maximum.is_none(),
        MAXIMUM => template.maximum.is_none(),
        _ => false,
    };
    if !expected {
        return Err(Refusal::bare(16));
    }
    let end = inner_end(bytes, &mut front)?;
    let mut content = Cursor::new(&bytes[..end], front.place(), 17);
    if tag == DESCRIPTION {
        template.description = Some(read_description(&mut content, end)?);
    } else {
        template.maximum = Some(read_maximum(&mut content, end)?);
    }
    Ok(end)
}

/// A length larger than what is left is refused before its content is looked at.
fn inner_end(bytes: &[u8], front: &mut Cursor) -> Result<usize, Refusal> {
    let length = front.next()?;
    let end = front.place() + usize::from(length);
    if length > 127 || end > bytes.len() {
        return Err(Refusal::bare(17));
    }
    Ok(end)
}

fn read_description(content: &mut Cursor, end: usize) -> Result<Description, Refusal> {
    let description = description::read(content, Format::Compact)?;
    if content.place() < end {
        return Err(Refusal::bare(17));
    }
    Ok(description)
}

/// One to three bytes, without a needless leading zero.
fn read_maximum(content: &mut Cursor, end: usize) -> Result<i64, Refusal> {
    let length = end - content.place();
    if !(1..=3).contains(&length) {
        return Err(Refusal::bare(18));
    }
    let maximum = content.number(length)?;
    if length != shortest(maximum) {
        return Err(Refusal::bare(18));
    }
    Ok(maximum)
}

/// How many bytes a maximum takes; zero takes one.
fn shortest(maximum: i64) -> usize {
    match maximum {
        0..=0xFF => 1,
        0x100..=0xFFFF => 2,
        _ => 3,
    }
}

/// Only what is wanted is handed in, so only that is judged.
pub fn write(template: &Template, room: usize) -> Result<Vec<u8>, Refusal> {
    if let Some(description) = &template.description {
        description::judge(description, Format::Compact)?;
    }
    if let Some(maximum) = template.maximum {
        check(Which::Maximum, maximum, 0..=GREATEST_COUNT)?;
    }
    fits(put(template), room)
}

/// The bytes of a template that `write` doesn't refuse.
pub fn put(template: &Template) -> Vec<u8> {
    let mut content = Vec::new();
    if let Some(description) = &template.description {
        let mut inside = Vec::new();
        description::put(&mut inside, description);
        content.extend(tagged(DESCRIPTION, inside));
    }
    if let Some(maximum) = template.maximum {
        let mut inside = Vec::new();
        put_number(&mut inside, maximum, shortest(maximum));
        content.extend(tagged(MAXIMUM, inside));
    }
    tagged(TEMPLATE, content)
}

/// Every length fits one byte below 128: the content has at most 121 bytes.
fn tagged(tag: u8, content: Vec<u8>) -> Vec<u8> {
    let mut out = vec![tag, content.len() as u8];
    out.extend(content);
    out
}
