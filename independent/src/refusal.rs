//! The numbered refusals of document 01 and of requests L3 and L4, and what they carry.

use crate::which::Which;

/// What a refusal says besides its number.
#[derive(Clone, Copy, Debug, PartialEq, Eq)]
pub enum Carried {
    Nothing,
    /// Where the paper names a place.
    Place(usize),
    /// 12 of the writers and of readings (request L2), 21 of bodies and of turning (request L4).
    Which(Which),
}

#[derive(Clone, Copy, Debug, PartialEq, Eq)]
pub struct Refusal {
    pub number: u8,
    pub carried: Carried,
}

impl Refusal {
    pub const fn bare(number: u8) -> Refusal {
        let carried = Carried::Nothing;
        Refusal { number, carried }
    }

    pub fn at(number: u8, place: usize) -> Refusal {
        let carried = Carried::Place(place);
        Refusal { number, carried }
    }

    /// A number outside its range: 12, and which number it was.
    pub fn naming(which: Which) -> Refusal {
        Refusal {
            number: 12,
            carried: Carried::Which(which),
        }
    }

    /// 21, does not fit the compact format, and what it was.
    pub fn unfit(which: Which) -> Refusal {
        Refusal {
            number: 21,
            carried: Carried::Which(which),
        }
    }

    /// 21 for 12, with the same name; any other refusal stays.
    pub fn for_compact(self) -> Refusal {
        match (self.number, self.carried) {
            (12, Carried::Which(which)) => Refusal::unfit(which),
            _ => self,
        }
    }

    /// The same refusal, its place counted from `start` bytes earlier.
    pub fn later(self, start: usize) -> Refusal {
        match self.carried {
            Carried::Place(place) => Refusal::at(self.number, place + start),
            _ => self,
        }
    }

    pub fn text(self) -> String {
        let number = self.number;
        match self.carried {
            Carried::Nothing => format!("refused {number}"),
            Carried::Place(place) => format!("refused {number} {place}"),
            Carried::Which(which) => format!("refused {number} {}", which.text()),
        }
    }
}
