//! How the values of a record stand, and how many there must be.

use crate::description::{stored, Description};
use crate::refusal::Refusal;

/// Point after point, or column after column (request L9). A column is all values of one stored
/// channel.
#[derive(Clone, Copy, Debug, PartialEq, Eq)]
pub enum Order {
    Points,
    Columns,
}

impl Order {
    /// The index and the channel of each value, in point order, which is that of the record's
    /// bytes. There must be as many values as `demand_amount` wants.
    pub fn in_point_order(
        self,
        amount: usize,
        channels: &[usize],
    ) -> impl Iterator<Item = (usize, usize)> + '_ {
        (0..amount).map(move |number| {
            // Without channels there are no values, so nothing is divided by zero.
            let (point, column) = (number / channels.len(), number % channels.len());
            let count = amount / channels.len();
            let index = match self {
                Order::Points => number,
                Order::Columns => column * count + point,
            };
            (index, channels[column])
        })
    }
}

/// How many values so many points have.
pub fn amount(description: &Description, count: i64) -> i64 {
    count * stored(description).len() as i64
}

/// 13 for another amount.
pub fn demand_amount(found: usize, description: &Description, count: i64) -> Result<(), Refusal> {
    match found as i64 == amount(description, count) {
        true => Ok(()),
        false => Err(Refusal::bare(13)),
    }
}
