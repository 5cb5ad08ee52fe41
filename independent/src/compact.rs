//! Request L4 on this program's own rules, a part of its check of itself: marks, compact bodies,
//! and full records turned into them.

use std::collections::BTreeSet;

use crate::body::{self, Body, Points, Refused};
use crate::channels::{CHANNELS, S};
use crate::description::{self, stored, value_range, Description, Format};
use crate::inputs;
use crate::itself::{parts_of, Counts};
use crate::mending::{names, outside};
use crate::random::Random;
use crate::record::{self, Place};
use crate::refusal::Refusal;
use crate::template::{self, Template};
use crate::turning::turn;
use crate::which::Which;
use crate::writing::{self, Parts};

pub fn check(counts: &mut Counts, random: &mut Random) {
    marks(counts, random);
    let description = inputs::mixed_description(random, Format::Compact);
    let template = inputs::template_bytes(&Template {
        description: Some(description),
        maximum: Some(4).filter(|_| random.one_in(2)),
    });
    there_and_back(counts, random, &description, &template);
    any_bytes(counts, random, &description, &template);
    named(counts, random, &description, &template);
    turned(counts, random);
    refused(counts, random);
}

/// The other format's mark is 11 where 4 isn't before it, whatever the numbers.
fn marks(counts: &mut Counts, random: &mut Random) {
    let format = random.pick(&[Format::Full, Format::Compact]);
    let mut description = inputs::small_description(random, format);
    let narrow = inputs::small_description(random, Format::Compact).marked(Format::Full);
    let fits = description::judge_numbers(&narrow);
    counts.check("what fits one byte fits two", fits == Ok(()));
    let good = description::judge(&description, format);
    counts.check("a description fits its own mark", good == Ok(()));
    let other = description::judge(&description, format.other());
    counts.check("another mark is 11", other == Err(Refusal::bare(11)));
    description[random.below(2)].included = false;
    let missing = description::judge(&description, format.other());
    counts.check("4 is before 11", missing == Err(Refusal::bare(4)));
}

/// The numbers of a body's points, point after point.
fn values_of(template: &[u8], bytes: &[u8], count: i64) -> Vec<i64> {
    let places = (0..count).flat_map(|index| body::point(template, bytes, index));
    let number = |place| match place {
        Place::Number(number) => Some(number),
        _ => None,
    };
    places.flatten().filter_map(number).collect()
}

/// So many points with any values; none where no point has bytes.
fn points(random: &mut Random, description: &Description) -> Points {
    let count = match stored(description).len() {
        0 => 0,
        _ => random.between(0, 4),
    };
    Points {
        count,
        values: inputs::values(random, description, count),
        extended: None,
    }
}

fn there_and_back(
    counts: &mut Counts,
    random: &mut Random,
    description: &Description,
    template: &[u8],
) {
    let points = points(random, description);
    let Ok(bytes) = body::write(template, &points, points.values.len()) else {
        return counts.check("a body is written", false);
    };
    let length = bytes.len() == points.values.len();
    counts.check("a number has one byte", length);
    let read = Body {
        description: *description,
        count: points.count,
    };
    let judged = body::judge(template, &bytes) == Ok(read);
    counts.check("a body written is read back", judged);
    let same = values_of(template, &bytes, points.count) == points.values;
    counts.check("a body's points have the values", same);
    let room = points.values.len().checked_sub(1);
    let short = room.map(|room| body::write(template, &points, room));
    let refused = short.is_none_or(|short| short == Err(Refused::Body(Refusal::bare(15))));
    counts.check("one byte less is 15", refused);
}

/// Any bytes: a body is written again as it was; short exactly inside a point without a wrong S.
fn any_bytes(counts: &mut Counts, random: &mut Random, description: &Description, template: &[u8]) {
    let channels = stored(description);
    let length = random.below(3 * channels.len() + 2);
    let mut bytes = random.bytes(length);
    if random.one_in(2) {
        bytes.iter_mut().for_each(|byte| *byte %= 3);
    }
    let judged = body::judge(template, &bytes);
    if let Ok(Body { count, .. }) = judged {
        let points = Points {
            count,
            values: values_of(template, &bytes, count),
            extended: None,
        };
        let again = body::write(template, &points, bytes.len());
        counts.check("a body read is written again", again.as_ref() == Ok(&bytes));
    }
    let is_wrong = |(place, byte): (usize, &u8)| channels[place % channels.len()] == S && *byte > 1;
    let inside = !channels.is_empty() && !bytes.len().is_multiple_of(channels.len());
    let begins = inside && !bytes.iter().enumerate().any(is_wrong);
    let short = judged == Err(Refused::Body(Refusal::bare(1)));
    counts.check("a body is short exactly inside a point", short == begins);
}

/// Values that don't fit, a count and extended data are named in their order, each once, while they
/// are put right one after another.
fn named(counts: &mut Counts, random: &mut Random, description: &Description, template: &[u8]) {
    let channels = stored(description);
    let mut points = points(random, description);
    let mut out = BTreeSet::new();
    for _ in 0..random.below(4).min(points.values.len()) {
        let index = random.below(points.values.len());
        let channel = channels[index % channels.len()];
        points.values[index] = outside(random, value_range(Format::Compact, channel));
        out.insert(Which::Value { index, channel });
    }
    if random.one_in(3) {
        points.extended = Some(inputs::few_bytes(random));
        out.insert(Which::Extended);
    }
    let count = points.count;
    if random.one_in(3) {
        points.count = 16_777_216;
        out.insert(Which::Count);
    }
    let mend = |points: &mut Points, which| match which {
        Which::Value { index, .. } => points.values[index] = 0,
        Which::Extended => points.extended = None,
        _ => points.count = count,
    };
    let attempt = |points: &Points| match body::write(template, points, usize::MAX) {
        Ok(_) => Ok(()),
        Err(Refused::Body(refusal) | Refused::Template(refusal)) => Err(refusal),
    };
    let found = names(&mut points, attempt, mend);
    let good = found == (out.into_iter().collect(), None);
    counts.check("what doesn't fit a body is named in its order", good);
}

/// What is turned has the record's description, points and bytes.
fn turned(counts: &mut Counts, random: &mut Random) {
    let parts = inputs::fitting_parts(random);
    let bytes = inputs::bytes(&parts);
    let Ok([template, body]) = turn(&bytes, [118, parts.values.len()]) else {
        return counts.check("a record that fits is turned", false);
    };
    let description = parts.description.marked(Format::Compact);
    let alone = Template {
        description: Some(description),
        maximum: None,
    };
    let read = template::read(&template) == Ok(alone);
    counts.check("a turned template has the record's description", read);
    let (of_record, of_body) = (
        |index| record::point(&bytes, index).ok(),
        |index| body::point(&template, &body, index).ok(),
    );
    let same = (0..=parts.count).all(|index| of_record(index) == of_body(index));
    counts.check("a turned body has the record's points", same);
    let again = Parts {
        values: values_of(&template, &body, parts.count),
        ..parts.clone()
    };
    let written = writing::write(&again, bytes.len());
    counts.check("a turned record is written again", written == Ok(bytes));
}

/// Any slice: the whole slice's own refusals; else it is turned exactly where all numbers are in
/// the ranges of one byte, no points are without bytes, and there are no extended data.
fn refused(counts: &mut Counts, random: &mut Random) {
    let bytes = match random.one_in(2) {
        true => inputs::any_slice(random),
        false => inputs::bytes(&inputs::small_parts(random)),
    };
    let turned = turn(&bytes, [118, bytes.len()]);
    let Some(parts) = parts_of(&bytes) else {
        let same = turned.map(drop) == record::whole(&bytes).map(drop);
        return counts.check("turning refuses as the whole slice is", same);
    };
    let unfit = matches!(turned, Err(Refusal { number: 21, .. }));
    let holds = if all_fits(&parts) {
        turned.is_ok()
    } else {
        unfit
    };
    counts.check("turned exactly where all fits", holds);
}

/// The ranges are typed here once more.
fn all_fits(parts: &Parts) -> bool {
    let fits = |number: i64, channel: usize| match CHANNELS[channel].signed {
        true => (-128..=127).contains(&number),
        false => (0..=255).contains(&number),
    };
    let mut said = parts.description.iter().enumerate();
    let attributes = said.all(|(channel, said)| {
        let [_scaling, numbers @ .., deviation] = said.numbers;
        deviation < 256 && numbers.into_iter().all(|number| fits(number, channel))
    });
    let channels = stored(&parts.description);
    let mut values = parts.values.iter().zip(channels.iter().cycle());
    let values = values.all(|(value, channel)| fits(*value, *channel));
    let count = parts.count == 0 || !channels.is_empty();
    attributes && count && values && parts.extended.is_none()
}
