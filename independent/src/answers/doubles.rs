//! The answers to the questions of request L6: readings as doubles.

use super::{place_and_scaling, three};
use crate::doubles::{self, double};
use crate::refusal::Refusal;
use crate::words::{Read, Words};

pub fn of_numbers(words: &mut Words) -> Read<String> {
    let [raw, e, f] = three(words)?;
    Ok(said(double(raw, e, f)))
}

pub fn of_place(words: &mut Words) -> Read<String> {
    let (place, scaling) = place_and_scaling(words)?;
    Ok(doubles::of_place(place, scaling).map_or("absent".to_string(), said))
}

/// BITS: sixteen hex digits, the sign's bit first.
fn said(bits: Result<u64, Refusal>) -> String {
    match bits {
        Ok(bits) => format!("double {bits:016X}"),
        Err(refusal) => refusal.text(),
    }
}
