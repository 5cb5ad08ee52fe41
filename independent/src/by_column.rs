//! Request L9 on this program's own rules, a part of its check of itself: points by column.

use std::collections::BTreeSet;

use crate::columns;
use crate::description::{stored, value_range, Format};
use crate::inputs;
use crate::itself::{parts_of, Counts};
use crate::mending::{names, outside};
use crate::random::Random;
use crate::record;
use crate::refusal::Refusal;
use crate::values::{amount, Order};
use crate::which::Which;
use crate::writing::{write_from, Parts};

/// No point holds it, so it tells which lent numbers were filled.
const UNTOUCHED: i64 = 99999;

pub fn check(counts: &mut Counts, random: &mut Random) {
    let parts = match random.one_in(3) {
        true => inputs::any_parts(random),
        false => inputs::small_parts(random),
    };
    there_and_back(counts, random, &parts);
    refused(counts, random);
    named(counts, random, parts);
}

fn there_and_back(counts: &mut Counts, random: &mut Random, parts: &Parts) {
    let mut bytes = inputs::bytes(parts);
    let by_column = inputs::in_columns(parts);
    let written = write_from(Order::Columns, &by_column, bytes.len());
    let same = written.as_ref() == Ok(&bytes);
    counts.check("from columns the same bytes are written", same);
    let mut lent = vec![UNTOUCHED; parts.values.len()];
    let read = columns::read(&bytes, &mut lent);
    let same = read == Ok(()) && lent == by_column.values;
    counts.check("what is written from columns is read back", same);
    // Damaged bytes that are still a record are written again from their columns.
    let place = random.below(bytes.len());
    inputs::damage(random, &mut bytes, place);
    if let Some(mut parts) = parts_of(&bytes) {
        parts.values.fill(UNTOUCHED);
        let again = columns::read(&bytes, &mut parts.values)
            .and_then(|()| write_from(Order::Columns, &parts, bytes.len()));
        let same = again.as_ref() == Ok(&bytes);
        counts.check("columns read are written again", same);
    }
}

/// Any slice and any amount: the whole slice's own refusals come before 13, and on each of them
/// nothing changes.
fn refused(counts: &mut Counts, random: &mut Random) {
    let bytes = inputs::any_slice(random);
    let judged = record::whole(&bytes);
    let wanted = judged.map(|record| amount(&record.description, record.count) as usize);
    let right = wanted.unwrap_or(0);
    let few = random.below(9);
    let mut lent = vec![UNTOUCHED; random.pick(&[right, right + 1, right.saturating_sub(1), few])];
    let read = columns::read(&bytes, &mut lent);
    let expected = match wanted {
        Ok(wanted) if wanted != lent.len() => Err(Refusal::bare(13)),
        Ok(_) => Ok(()),
        Err(refusal) => Err(refusal),
    };
    counts.check("the whole slice's refusals, then 13", read == expected);
    let filled = |number: &i64| (*number == UNTOUCHED) == read.is_err();
    let all = lent.iter().all(filled);
    counts.check("all lent numbers are filled, or none", all);
}

/// Values out of range are named in point order, each by its index among the columns, while they
/// are put right one after another.
fn named(counts: &mut Counts, random: &mut Random, mut parts: Parts) {
    let channels = stored(&parts.description);
    let mut put_out = BTreeSet::new();
    for _ in 0..random.below(5).min(parts.values.len()) {
        let number = random.below(parts.values.len());
        let range = value_range(Format::Full, channels[number % channels.len()]);
        parts.values[number] = outside(random, range);
        put_out.insert(number);
    }
    let count = parts.count as usize;
    let name = |number: &usize| Which::Value {
        index: number % channels.len() * count + number / channels.len(),
        channel: channels[number % channels.len()],
    };
    let expected: Vec<Which> = put_out.iter().map(name).collect();
    let mend = |parts: &mut Parts, which| {
        if let Which::Value { index, .. } = which {
            parts.values[index] = 0;
        }
    };
    let attempt = |parts: &Parts| write_from(Order::Columns, parts, usize::MAX).map(drop);
    let found = names(&mut inputs::in_columns(&parts), attempt, mend);
    let good = found == (expected, None);
    counts.check("values in columns are named in point order", good);
}
