//! Where the numbers of a body stand, laid out plainly from the words of its template's answer and
//! from the specification of request L4, sections 2 and 4. Nothing is shared with the rules that
//! work the answers out.

use crate::asking::answer_words::{Description, Template};

/// Stored less 128.
const SIGNED: [&str; 8] = ["X", "Y", "VX", "VY", "AX", "AY", "TX", "TY"];

pub struct Layout<'a> {
    description: Description<'a>,
    maximum: Option<usize>,
    /// The names of the channels that have a byte in each point.
    stored: Vec<&'a str>,
}

impl<'a> Layout<'a> {
    /// None where the template has no 81.
    pub fn of(template: Template<'a>) -> Option<Layout<'a>> {
        let description = template.description?;
        Some(Layout {
            stored: description.stored(),
            description,
            maximum: template.maximum,
        })
    }

    /// The place of the first byte of S that isn't 00 or 01.
    fn wrong_state(&self, body: &[u8]) -> Option<usize> {
        let state = self.stored.iter().position(|name| *name == "S")?;
        let states = body.iter().enumerate().skip(state);
        let mut wrong = states
            .step_by(self.stored.len())
            .filter(|(_, byte)| **byte > 1);
        wrong.next().map(|(place, _)| place)
    }

    /// Whether it is the beginning of a body and none itself.
    pub fn is_short(&self, body: &[u8]) -> bool {
        let size = self.stored.len();
        size > 0 && !body.len().is_multiple_of(size) && self.wrong_state(body).is_none()
    }

    /// What `body` must answer.
    pub fn verdict(&self, body: &[u8]) -> String {
        if let Some(place) = self.wrong_state(body) {
            return format!("refused 8 {place}");
        }
        if self.is_short(body) {
            return "refused 1".to_string();
        }
        let count = match self.stored.len() {
            0 if !body.is_empty() => return "refused 9 0".to_string(),
            0 => 0,
            size => body.len() / size,
        };
        match self.maximum {
            Some(maximum) if count > maximum => "refused 18".to_string(),
            _ => format!("body {count} {}", self.description.words()),
        }
    }

    /// What `body-point` must answer of a body. None where there is no such point.
    pub fn point(&self, body: &[u8], index: i64) -> Option<String> {
        let start = (index as usize).checked_mul(self.stored.len())?;
        let bytes = body.get(start..)?.get(..self.stored.len())?;
        let number = |(byte, name): (&u8, &&str)| match SIGNED.contains(name) {
            true => (i32::from(*byte) - 128).to_string(),
            false => byte.to_string(),
        };
        let numbers: Vec<String> = bytes.iter().zip(&self.stored).map(number).collect();
        let of_stored = |stored: usize| numbers.get(stored).map(String::as_str);
        self.description.point(of_stored)
    }
}
