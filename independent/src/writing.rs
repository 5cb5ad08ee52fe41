//! Writing a full record. The stages stand in the order of document 01.

use crate::description::{self, put_number, stored, value_range, value_width, Description, Format};
use crate::record::{GREATEST_COUNT, IDENTIFIER, VERSION};
use crate::refusal::Refusal;
use crate::values::{demand_amount, Order};
use crate::which::{check, Which};

/// What the length field of extended data holds: it has two bytes (notes A3).
pub const LONGEST_EXTENDED: usize = 65535;

/// What a record is written from. No extended data are wanted where there are none.
#[derive(Clone, Debug, PartialEq, Eq)]
pub struct Parts {
    pub description: Description,
    pub count: i64,
    pub values: Vec<i64>,
    pub extended: Option<Vec<u8>>,
}

/// From values that stand point after point.
pub fn write(parts: &Parts, room: usize) -> Result<Vec<u8>, Refusal> {
    write_from(Order::Points, parts, room)
}

/// From values that stand in this order. Only where a value is sought depends on it.
pub fn write_from(order: Order, parts: &Parts, room: usize) -> Result<Vec<u8>, Refusal> {
    judge(order, parts)?;
    let record = put(order, parts);
    fits(record, room)
}

/// 15 is the last stage of all writers.
pub fn fits(result: Vec<u8>, room: usize) -> Result<Vec<u8>, Refusal> {
    if result.len() > room {
        return Err(Refusal::bare(15));
    }
    Ok(result)
}

fn judge(order: Order, parts: &Parts) -> Result<(), Refusal> {
    description::judge(&parts.description, Format::Full)?;
    check(Which::Count, parts.count, 0..=GREATEST_COUNT)?;
    demand_amount(parts.values.len(), &parts.description, parts.count)?;
    judge_values(order, &parts.values, &parts.description)?;
    if parts
        .extended
        .as_ref()
        .is_some_and(|bytes| bytes.len() > LONGEST_EXTENDED)
    {
        return Err(Refusal::bare(14));
    }
    Ok(())
}

/// The values are judged point after point, however they stand. The index is that among the values
/// as they were lent; it does not begin again with each point or column.
pub fn judge_values(
    order: Order,
    values: &[i64],
    description: &Description,
) -> Result<(), Refusal> {
    for (index, channel) in order.in_point_order(values.len(), &stored(description)) {
        let (low, high) = value_range(description.mark, channel);
        check(Which::Value { index, channel }, values[index], low..=high)?;
    }
    Ok(())
}

fn put(order: Order, parts: &Parts) -> Vec<u8> {
    let mut out = [IDENTIFIER, VERSION].concat();
    description::put(&mut out, &parts.description);
    out.push(0);
    out.push(if parts.extended.is_some() { 0x80 } else { 0 });
    put_number(&mut out, parts.count, 3);
    put_values(&mut out, order, &parts.values, &parts.description);
    if let Some(bytes) = &parts.extended {
        put_number(&mut out, bytes.len() as i64, 2);
        out.extend(bytes);
    }
    out
}

/// The points, in the format of the description's mark.
pub fn put_values(out: &mut Vec<u8>, order: Order, values: &[i64], description: &Description) {
    let format = description.mark;
    for (index, channel) in order.in_point_order(values.len(), &stored(description)) {
        // What is stored is the number less the low end of its range.
        let stored = values[index] - value_range(format, channel).0;
        put_number(out, stored, value_width(format, channel));
    }
}
