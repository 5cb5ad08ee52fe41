//! Request L9: a whole record's numbers put into lent ones, column after column.

use crate::cursor::Cursor;
use crate::description::stored;
use crate::record::{self, read_value};
use crate::refusal::Refusal;
use crate::values::{demand_amount, Order};

/// The whole slice's own refusals, then 13. The lent numbers change only where nothing is refused,
/// and then all of them do.
pub fn read(bytes: &[u8], lent: &mut [i64]) -> Result<(), Refusal> {
    let record = record::whole(bytes)?;
    demand_amount(lent.len(), &record.description, record.count)?;
    let channels = stored(&record.description);
    // The bytes are gone along once, so the time grows with the points and no faster.
    let mut cursor = Cursor::new(bytes, record.points, 1);
    for (index, channel) in Order::Columns.in_point_order(lent.len(), &channels) {
        // The record was judged good, so no value is refused any more.
        lent[index] = read_value(&mut cursor, record.description.mark, channel)?;
    }
    Ok(())
}
