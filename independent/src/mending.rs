//! Request L2 on this program's own rules, a part of its check of itself. Some numbers are put out
//! of their ranges. The one that is named is put right, and it is tried again, until nothing is
//! refused. The names must be those of the numbers put out, each once, in stored order.

use std::collections::BTreeSet;

use crate::description::{attribute_range, stored, value_range, Description, Format};
use crate::inputs;
use crate::itself::Counts;
use crate::random::Random;
use crate::record::GREATEST_COUNT;
use crate::refusal::{Carried, Refusal};
use crate::template::{self, Template};
use crate::thousandths::thousandths;
use crate::which::Which;
use crate::writing::{self, Parts};

pub fn check(counts: &mut Counts, random: &mut Random) {
    record(counts, random);
    template(counts, random);
    numbers(counts, random);
}

/// The names as they came while `mend` put the numbers right, and then the last refusal if it
/// names nothing.
pub fn names<T>(
    thing: &mut T,
    attempt: impl Fn(&T) -> Result<(), Refusal>,
    mend: impl Fn(&mut T, Which),
) -> (Vec<Which>, Option<Refusal>) {
    let mut names = Vec::new();
    while let Err(refusal) = attempt(thing) {
        match refusal.carried {
            // A name that comes twice wasn't that of the number to put right.
            Carried::Which(which) if !names.contains(&which) => {
                names.push(which);
                mend(thing, which);
            }
            _ => return (names, Some(refusal)),
        }
    }
    (names, None)
}

/// What was put out of range, in stored order: that of the cases of `Which`.
fn holds(found: (Vec<Which>, Option<Refusal>), put_out: BTreeSet<Which>) -> bool {
    found == (put_out.into_iter().collect(), None)
}

pub fn outside(random: &mut Random, (low, high): (i64, i64)) -> i64 {
    random.pick(&[low - 1, high + 1, low - 70000, high + 70000])
}

/// Puts up to five attributes of included channels out of range.
fn put_out(random: &mut Random, said: &mut Description, format: Format) -> BTreeSet<Which> {
    let mut out = BTreeSet::new();
    let included: Vec<usize> = (0..16).filter(|each| said[*each].included).collect();
    for _ in 0..random.below(6) {
        let (channel, attribute) = (random.pick(&included), random.below(5));
        let range = attribute_range(format, channel, attribute);
        said[channel].given[attribute] = true;
        said[channel].numbers[attribute] = outside(random, range);
        out.insert(Which::Attribute { channel, attribute });
    }
    out
}

fn record(counts: &mut Counts, random: &mut Random) {
    let mut parts = inputs::small_parts(random);
    let channels = stored(&parts.description);
    let mut out = put_out(random, &mut parts.description, Format::Full);
    for _ in 0..random.below(4).min(parts.values.len()) {
        let index = random.below(parts.values.len());
        let channel = channels[index % channels.len()];
        parts.values[index] = outside(random, value_range(Format::Full, channel));
        out.insert(Which::Value { index, channel });
    }
    let count = parts.count;
    if random.one_in(3) {
        parts.count = GREATEST_COUNT + 1;
        out.insert(Which::Count);
    }
    // 0 is in every range of an attribute and of a value.
    let mend = |parts: &mut Parts, which| match which {
        Which::Attribute { channel, attribute } => {
            parts.description[channel].numbers[attribute] = 0
        }
        Which::Value { index, .. } => {
            if let Some(value) = parts.values.get_mut(index) {
                *value = 0;
            }
        }
        _ => parts.count = count,
    };
    let attempt = |parts: &Parts| writing::write(parts, usize::MAX).map(drop);
    let good = holds(names(&mut parts, attempt, mend), out);
    counts.check("the numbers of a record are named in stored order", good);
}

fn template(counts: &mut Counts, random: &mut Random) {
    let mut template = inputs::template(random);
    let mut out = match &mut template.description {
        Some(description) => put_out(random, description, Format::Compact),
        None => BTreeSet::new(),
    };
    if random.one_in(2) {
        template.maximum = Some(GREATEST_COUNT + random.between(1, 9));
        out.insert(Which::Maximum);
    }
    let mend = |template: &mut Template, which| match (which, &mut template.description) {
        (Which::Attribute { channel, attribute }, Some(said)) => {
            said[channel].numbers[attribute] = 0
        }
        _ => template.maximum = None,
    };
    let attempt = |template: &Template| template::write(template, usize::MAX).map(drop);
    let good = holds(names(&mut template, attempt, mend), out);
    counts.check("the numbers of a template are named in stored order", good);
}

fn numbers(counts: &mut Counts, random: &mut Random) {
    let mut numbers = [0; 3];
    let mut out = BTreeSet::new();
    for (place, which, range) in [
        (0, Which::Raw, (-32768, 65535)),
        (1, Which::E, (0, 31)),
        (2, Which::F, (0, 2047)),
    ] {
        if random.one_in(2) {
            numbers[place] = outside(random, range);
            out.insert(which);
        }
    }
    let mend = |numbers: &mut [i64; 3], which| match which {
        Which::Raw => numbers[0] = 0,
        Which::E => numbers[1] = 0,
        _ => numbers[2] = 0,
    };
    let attempt = |[raw, e, f]: &[i64; 3]| thousandths(*raw, *e, *f).map(drop);
    let good = holds(names(&mut numbers, attempt, mend), out);
    counts.check("raw, E and F are named in this order", good);
}
