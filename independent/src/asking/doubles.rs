//! Request L6, readings as doubles, tried on what the program itself answers. Every answer is
//! compared as elsewhere. Besides, the claims of `claims` are judged on one, two or three of them.

mod beside;
mod changed;
mod claims;
mod places;
mod runs;
mod value;

use crate::compare::Comparison;
use crate::random::Random;

pub fn ask_all(comparison: &mut Comparison, random: &mut Random) {
    runs::ask_all(comparison, random);
    beside::ask_all(comparison, random);
    places::ask_all(comparison, random);
    changed::ask_all(comparison, random);
}

/// Raw, E and F of a question.
#[derive(Clone, Copy)]
struct Numbers {
    raw: i64,
    e: i64,
    f: i64,
}

impl Numbers {
    fn line(&self, question: &str) -> String {
        let Numbers { raw, e, f } = self;
        format!("{question} {raw} {e} {f}")
    }
}
