//! Every set of the fourteen channels beside X and Y, stored or not: a question for each, of
//! reading, of a point, of writing or of turning.

use crate::body::Points;
use crate::channels::{bit, X, Y};
use crate::compare::Comparison;
use crate::description::{point_size, stored, Description, Format};
use crate::inputs::{self, X_AND_Y};
use crate::questions;
use crate::random::Random;
use crate::template::Template;

const SETS: &str = "every set of stored channels";

pub fn ask_all(comparison: &mut Comparison, random: &mut Random) {
    for others in 0..!X_AND_Y + 1 {
        let description = storing(random, others);
        comparison.ask(SETS, question(random, description));
    }
}

/// Stores these channels, and X and Y by chance. The others are constant or absent, with few
/// attributes.
fn storing(random: &mut Random, set: u16) -> Description {
    let mut description = Description::empty(Format::Compact);
    for channel in 0..16 {
        let few = random.byte() & random.byte() & random.byte() & !4;
        let is_stored = set & bit(channel) != 0;
        let must_be = channel == X || channel == Y;
        let flags = match (is_stored, must_be) {
            (true, _) => few,
            (_, true) => few | random.byte() & 4,
            _ if random.one_in(4) => few | 4,
            _ => continue,
        };
        description[channel] = inputs::said(random, Format::Compact, channel, flags);
    }
    description
}

/// Of one to three points; seldom cut.
fn question(random: &mut Random, description: Description) -> String {
    let count = random.between(1, 3).min(stored(&description).len() as i64);
    let template = inputs::template_bytes(&Template {
        description: Some(description),
        maximum: None,
    });
    let mut body = inputs::points(random, &description, count);
    if random.one_in(6) {
        body.truncate(random.below(body.len() + 1));
    }
    let index = random.between(0, count);
    match random.below(4) {
        0 => questions::body(&template, &body),
        1 => questions::body_point(index, &template, &body),
        2 => {
            let points = Points {
                count,
                values: inputs::values(random, &description, count),
                extended: None,
            };
            questions::write_body(&template, &points, points.values.len())
        }
        _ => {
            let record = inputs::bytes(&inputs::fitting_points(random, description, count));
            let room = point_size(&description) * count as usize;
            questions::turn([template.len(), room], &record)
        }
    }
}
