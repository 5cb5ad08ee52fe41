//! A full record turned into a template of 81 alone and a compact body (request L4). Numbers go
//! over unchanged or not at all.

use crate::body::{self, Made, Points};
use crate::description::{judge_numbers, Format};
use crate::record;
use crate::refusal::Refusal;
use crate::template::{self, Template};
use crate::writing::fits;

/// Of the template and of the body, in this order: rooms, or bytes.
pub type Both<T> = [T; 2];

/// The whole slice's own refusals, 21 for attributes, count, values and extended data, then 15.
pub fn turn(bytes: &[u8], rooms: Both<usize>) -> Result<Both<Vec<u8>>, Refusal> {
    let record = record::whole(bytes)?;
    let description = record.description.marked(Format::Compact);
    judge_numbers(&description).map_err(Refusal::for_compact)?;
    let points = Points {
        count: record.count,
        values: record::read_values(bytes, &record)?,
        extended: record.extended.map(|_| record::extended(bytes).to_vec()),
    };
    let made = Made {
        description,
        maximum: None,
    };
    body::judge_points(&made, &points)?;
    let template = Template {
        description: Some(description),
        maximum: None,
    };
    let template = fits(template::put(&template), rooms[0])?;
    let body = fits(body::put(&made, &points), rooms[1])?;
    Ok([template, body])
}
