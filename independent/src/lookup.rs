//! Request L7: a point looked up by the header, the opening byte, the count and that point alone.
//! No other byte of the record is taken, so none can change the answer.

use crate::cursor::Cursor;
use crate::description::point_size;
use crate::record::{read_front, read_places, Place};
use crate::refusal::Refusal;

/// The header has at most 187 bytes; four follow it; fifteen channels have two bytes in a point
/// and S has one.
pub const MOST_LOOKED: usize = 187 + 4 + 31;

#[derive(Debug, PartialEq, Eq)]
pub struct LookedUp {
    pub answer: Result<[Place; 16], Refusal>,
    /// How many bytes were looked at: those taken, up to and with the one that decided.
    pub looked: usize,
}

pub fn look_up(bytes: &[u8], index: i64) -> LookedUp {
    let mut cursor = Cursor::new(bytes, 0, 1);
    let answer = go_along(&mut cursor, index);
    LookedUp {
        answer,
        looked: cursor.taken(),
    }
}

/// Refusals 1 to 7 before the points, then 10, then 1 or 8 for the point.
fn go_along(cursor: &mut Cursor, index: i64) -> Result<[Place; 16], Refusal> {
    let front = read_front(cursor)?;
    // Judged before anything is reckoned with the index, which may be any.
    if index >= front.count {
        return Err(Refusal::bare(10));
    }
    cursor.pass_over(index as usize * point_size(&front.description));
    read_places(cursor, &front.description)
}
