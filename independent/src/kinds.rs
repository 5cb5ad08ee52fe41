//! Channels of every kind: stored, constant or absent.

use crate::channels::{S, X, Y};
use crate::description::{Description, Format};
use crate::inputs;
use crate::random::Random;

/// Whether a channel has bytes in a point, is constant, or isn't there.
#[derive(Clone, Copy, PartialEq, Eq)]
pub enum Kind {
    Stored,
    Constant,
    Absent,
}

const KINDS: [Kind; 3] = [Kind::Stored, Kind::Constant, Kind::Absent];
const Z: usize = 2;
const R: usize = 15;

/// X, Y, S, a channel before S and one behind it, each of every kind that it can be.
pub fn every_combination() -> Vec<Vec<(usize, Kind)>> {
    let mut combinations: Vec<Vec<(usize, Kind)>> = vec![Vec::new()];
    for channel in [X, Y, Z, S, R] {
        let kinds = match channel {
            X | Y => &KINDS[..2],
            _ => &KINDS[..],
        };
        let with_one = |before: Vec<(usize, Kind)>| {
            let with = move |kind: &Kind| [&before[..], &[(channel, *kind)]].concat();
            kinds.iter().map(with)
        };
        combinations = combinations.into_iter().flat_map(with_one).collect();
    }
    combinations
}

/// With few attributes.
pub fn description(random: &mut Random, format: Format, kinds: &[(usize, Kind)]) -> Description {
    let mut description = Description::empty(format);
    for (channel, kind) in kinds.iter().filter(|(_, kind)| *kind != Kind::Absent) {
        let few = random.byte() & random.byte() & !4;
        let constant = if *kind == Kind::Constant { 4 } else { 0 };
        description[*channel] = inputs::said(random, format, *channel, few | constant);
    }
    description
}
