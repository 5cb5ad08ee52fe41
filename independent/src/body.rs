//! Compact bodies (002, clause 8.4; request L4): points and nothing else, with a byte for each
//! number, read and written by the description of their template.

use crate::cursor::Cursor;
use crate::description::{point_size, Description};
use crate::record::{read_places, Place, GREATEST_COUNT};
use crate::refusal::Refusal;
use crate::template;
use crate::values::{demand_amount, Order};
use crate::which::{check, Which};
use crate::writing::{fits, judge_values, put_values};

/// A body that was judged good.
#[derive(Clone, Debug, PartialEq, Eq)]
pub struct Body {
    pub description: Description,
    pub count: i64,
}

/// A refusal, and which of the two slices it is about.
#[derive(Clone, Copy, Debug, PartialEq, Eq)]
pub enum Refused {
    Template(Refusal),
    Body(Refusal),
}

impl Refused {
    pub fn text(self) -> String {
        match self {
            Refused::Template(refusal) => format!("template {}", refusal.text()),
            Refused::Body(refusal) => refusal.text(),
        }
    }
}

/// What a body is made by: the description of a template, and its maximum if it has one.
pub struct Made {
    pub description: Description,
    pub maximum: Option<i64>,
}

/// The template's own refusals, then 16 if it has no 81.
fn made_by(template: &[u8]) -> Result<Made, Refused> {
    let template = template::read(template).map_err(Refused::Template)?;
    let without = Refused::Template(Refusal::bare(16));
    Ok(Made {
        description: template.description.ok_or(without)?,
        maximum: template.maximum,
    })
}

impl Made {
    /// 18 comes behind all that is judged of the points themselves.
    fn demand_maximum(&self, count: i64) -> Result<(), Refusal> {
        match self.maximum {
            Some(maximum) if count > maximum => Err(Refusal::bare(18)),
            _ => Ok(()),
        }
    }
}

pub fn judge(template: &[u8], body: &[u8]) -> Result<Body, Refused> {
    let made = made_by(template)?;
    let judged = count_points(&made.description, body);
    let count = judged.map_err(Refused::Body)?;
    made.demand_maximum(count).map_err(Refused::Body)?;
    Ok(Body {
        description: made.description,
        count,
    })
}

/// 8 and 1 as the bytes come, and 9 where no point has bytes.
fn count_points(description: &Description, body: &[u8]) -> Result<i64, Refusal> {
    // Nothing can be made of these bytes, however they go on.
    if point_size(description) == 0 && !body.is_empty() {
        return Err(Refusal::at(9, 0));
    }
    let mut cursor = Cursor::new(body, 0, 1);
    let mut count = 0;
    while cursor.place() < body.len() {
        read_places(&mut cursor, description)?;
        count += 1;
    }
    Ok(count)
}

pub fn point(template: &[u8], body: &[u8], index: i64) -> Result<[Place; 16], Refused> {
    let Body { description, count } = judge(template, body)?;
    if index >= count {
        return Err(Refused::Body(Refusal::bare(10)));
    }
    let start = index as usize * point_size(&description);
    let mut cursor = Cursor::new(body, start, 1);
    read_places(&mut cursor, &description).map_err(Refused::Body)
}

/// What a body is written from besides its template. The values stand point after point; no
/// extended data are wanted where there are none.
#[derive(Clone, Debug, PartialEq, Eq)]
pub struct Points {
    pub count: i64,
    pub values: Vec<i64>,
    pub extended: Option<Vec<u8>>,
}

pub fn write(template: &[u8], points: &Points, room: usize) -> Result<Vec<u8>, Refused> {
    let made = made_by(template)?;
    let written = judge_points(&made, points).and_then(|()| fits(put(&made, points), room));
    written.map_err(Refused::Body)
}

/// The stages from the count on, but for 15.
pub fn judge_points(made: &Made, points: &Points) -> Result<(), Refusal> {
    let Points { count, values, .. } = points;
    // A body has no count, so it can't say how many points without bytes it has.
    let greatest = match point_size(&made.description) {
        0 => 0,
        _ => GREATEST_COUNT,
    };
    check(Which::Count, *count, 0..=greatest).map_err(Refusal::for_compact)?;
    demand_amount(values.len(), &made.description, *count)?;
    judge_values(Order::Points, values, &made.description).map_err(Refusal::for_compact)?;
    // Nor has it a place for extended data, not even for none of their bytes.
    if points.extended.is_some() {
        return Err(Refusal::unfit(Which::Extended));
    }
    made.demand_maximum(*count)
}

/// The bytes of points that `judge_points` finds good.
pub fn put(made: &Made, points: &Points) -> Vec<u8> {
    let mut out = Vec::new();
    put_values(&mut out, Order::Points, &points.values, &made.description);
    out
}
