//! The check of this program by itself, before there is any other: what it writes it reads
//! back, what it reads it writes again, its readings keep the order of request L11, it has none
//! without a scaling value (request L3), it names the numbers out of range in stored order
//! (request L2), it looks points up by themselves (request L7), it reads and writes points by
//! column (request L9), it reads and writes compact bodies and turns full records into them (request
//! L4), its doubles are those of the machine's division (request L6), and the typed answers are its
//! own.

use crate::apart;
use crate::asking;
use crate::by_column;
use crate::compact;
use crate::compare::Comparison;
use crate::description::stored;
use crate::divided;
use crate::inputs;
use crate::mending;
use crate::random::Random;
use crate::record::{self, Place, Record};
use crate::refusal::Refusal;
use crate::template::{self, Template};
use crate::thousandths::{first_shared, of_place, scale_at_most_1000, thousandths, Reading};
use crate::thousandths::{ES, FS, RAWS};
use crate::writing::{self, Parts, LONGEST_EXTENDED};

#[derive(Default)]
pub struct Counts {
    good: usize,
    bad: usize,
}

impl Counts {
    pub fn check(&mut self, what: &str, good: bool) {
        if good {
            self.good += 1;
            return;
        }
        self.bad += 1;
        if self.bad <= 20 {
            println!("not so: {what}");
        }
    }
}

pub fn check(seed: u64, cases: usize) -> bool {
    let mut counts = Counts::default();
    let mut random = Random::new(seed);
    for _ in 0..cases * 100 {
        let parts = match random.one_in(3) {
            true => inputs::any_parts(&mut random),
            false => inputs::small_parts(&mut random),
        };
        record_there_and_back(&mut counts, &mut random, parts);
        template_there_and_back(&mut counts, &mut random);
        nearest(&mut counts, &mut random);
        calibration(&mut counts, &mut random);
        mending::check(&mut counts, &mut random);
        apart::check(&mut counts, &mut random);
        by_column::check(&mut counts, &mut random);
        compact::check(&mut counts, &mut random);
    }
    for _ in 0..cases.div_ceil(5) {
        let mut parts = inputs::any_parts(&mut random);
        parts.extended = Some(random.bytes(LONGEST_EXTENDED));
        record_there_and_back(&mut counts, &mut random, parts);
    }
    order(&mut counts, &mut random, cases);
    divided::check(&mut counts, &mut random, cases);
    println!("checks of itself: {} good, {} bad", counts.good, counts.bad);
    // The answers typed from the papers, and the claims on its own answers; the other questions
    // are only worked through.
    let mut comparison = Comparison::new(None, cases);
    asking::everything(&mut comparison, seed);
    comparison.show_expected();
    comparison.finish() && counts.bad == 0
}

fn record_there_and_back(counts: &mut Counts, random: &mut Random, parts: Parts) {
    let mut bytes = inputs::bytes(&parts);
    counts.check(
        "a record written is read back",
        parts_of(&bytes).as_ref() == Some(&parts),
    );
    let cut = random.below(bytes.len());
    let short = record::judge(&bytes[..cut]) == Err(Refusal::bare(1));
    counts.check("a record cut short is short", short);
    // Damaged bytes that are still a record are written again as they were.
    let place = random.below(bytes.len());
    inputs::damage(random, &mut bytes, place);
    if let Some(parts) = parts_of(&bytes) {
        let again = writing::write(&parts, bytes.len());
        counts.check(
            "a record read is written again",
            again.as_ref() == Ok(&bytes),
        );
    }
}

/// The parts of a whole record, its values point after point.
pub fn parts_of(bytes: &[u8]) -> Option<Parts> {
    let record = record::whole(bytes).ok()?;
    let extended = record.extended.map(|_| record::extended(bytes).to_vec());
    let values = values_of(bytes, &record);
    Some(Parts {
        description: record.description,
        count: record.count,
        values,
        extended,
    })
}

fn values_of(bytes: &[u8], record: &Record) -> Vec<i64> {
    let mut values = Vec::new();
    if stored(&record.description).is_empty() {
        return values;
    }
    for index in 0..record.count {
        for place in record::point(bytes, index).into_iter().flatten() {
            if let Place::Number(number) = place {
                values.push(number);
            }
        }
    }
    values
}

fn template_there_and_back(counts: &mut Counts, random: &mut Random) {
    let template: Template = inputs::template(random);
    let mut bytes = inputs::template_bytes(&template);
    counts.check(
        "a template written is read back",
        template::read(&bytes) == Ok(template),
    );
    let place = random.below(bytes.len());
    inputs::damage(random, &mut bytes, place);
    if let Ok(template) = template::read(&bytes) {
        let again = template::write(&template, bytes.len());
        counts.check(
            "a template read is written again",
            again.as_ref() == Ok(&bytes),
        );
    }
}

/// No whole number is nearer, and a half goes away from zero.
fn nearest(counts: &mut Counts, random: &mut Random) {
    let raw = random.between(-32768, 65535);
    let (e, f) = (random.between(0, 31), random.between(0, 2047));
    let Ok(reading) = thousandths(raw, e, f) else {
        return counts.check("a reading is defined", false);
    };
    let exact = i128::from(raw) * 1000 * (1 << 27);
    let below = i128::from(2048 + f) << e;
    let away = reading * below - exact;
    let near = 2 * away.abs() < below;
    let half = 2 * away.abs() == below && away.signum() == exact.signum();
    counts.check("a reading is the nearest", near || half);
}

/// Request L3, on this program's own rules, with numbers in range and some outside.
fn calibration(counts: &mut Counts, random: &mut Random) {
    let raw = random.between(-40000, 70000);
    let (e, f) = (random.between(-2, 33), random.between(0, 2047));
    let scaling = Some(2048 * e + f);
    for (place, raw) in [(Place::Constant, 1), (Place::Number(raw), raw)] {
        let without = of_place(place, None) == Reading::Refused(Refusal::bare(20));
        counts.check("without a scaling value there is no reading", without);
        let of_numbers = thousandths(raw, e, f).map_or_else(Reading::Refused, Reading::Thousandths);
        let with = of_place(place, scaling) == of_numbers;
        counts.check("with a scaling value raw, E and F are read", with);
    }
    let absent = [None, scaling].map(|scaling| of_place(Place::Absent, scaling));
    let stays = absent == [Reading::Absent, Reading::Absent];
    counts.check("an absent place stays absent", stays);
}

const ORDERED: &str = "a greater raw number never has a smaller reading";
const DIFFERENT: &str = "up to scale 1000 different raw numbers have different readings";
const SHARED: &str = "above scale 1000 two neighbours share a reading";

/// Request L11, on this program's own readings.
fn order(counts: &mut Counts, random: &mut Random, cases: usize) {
    for _ in 0..cases * 1000 {
        order_of_two(counts, random);
    }
    for e in ES {
        for f in FS {
            order_of_scale(counts, random, e, f);
        }
    }
    for f in 1940..1965 {
        order_of_all(counts, f);
    }
}

/// From the first raw number's reading to the second's, if there are both.
fn distance(first: i64, second: i64, e: i64, f: i64) -> Option<i128> {
    Some(thousandths(second, e, f).ok()? - thousandths(first, e, f).ok()?)
}

fn keeps_order(step: &Option<i128>) -> bool {
    step.is_some_and(|step| step >= 0)
}

/// Two raw numbers, near each other or far, with any scale or one near 1000.
fn order_of_two(counts: &mut Counts, random: &mut Random) {
    let (e, f) = match random.one_in(2) {
        true => (random.between(0, 31), random.between(0, 2047)),
        false => (25, random.between(1940, 1965)),
    };
    let less = random.between(-32768, 65534);
    let farthest = random.pick(&[1, 4, 65535]);
    let greater = random.between(less + 1, 65535.min(less + farthest));
    let step = distance(less, greater, e, f);
    counts.check(ORDERED, keeps_order(&step));
    if scale_at_most_1000(e, f) {
        counts.check(DIFFERENT, step != Some(0));
    }
}

/// Every scale, with some neighbours: the ends, around zero and anywhere. All neighbours of
/// all scales would take minutes.
fn order_of_scale(counts: &mut Counts, random: &mut Random, e: i64, f: i64) {
    // Scales ascend with the scaling value, and 1000 is that of E 25, F 1952.
    let at_most_1000 = 2048 * e + f <= 53152;
    counts.check("the bound", scale_at_most_1000(e, f) == at_most_1000);
    let mut begins = vec![-32768, -10, 65515];
    begins.extend([0; 20].map(|_| random.between(-32768, 65515)));
    let lesser = begins.into_iter().flat_map(|begin| begin..begin + 20);
    let steps: Vec<Option<i128>> = lesser.map(|raw| distance(raw, raw + 1, e, f)).collect();
    counts.check(ORDERED, steps.iter().all(keeps_order));
    if at_most_1000 {
        counts.check(DIFFERENT, !steps.contains(&Some(0)));
    }
    if let Some(raw) = first_shared(e, f) {
        let shared = [distance(raw, raw + 1, e, f), distance(-raw - 1, -raw, e, f)];
        counts.check(SHARED, shared == [Some(0); 2]);
    }
    let found = first_shared(e, f).is_some();
    counts.check("the bound of shared readings", found != at_most_1000);
}

/// All neighbours of a scale near 1000, with E 25.
fn order_of_all(counts: &mut Counts, f: i64) {
    let lesser = RAWS.filter(|raw| *raw < 65535);
    let steps: Vec<Option<i128>> = lesser.map(|raw| distance(raw, raw + 1, 25, f)).collect();
    counts.check(ORDERED, steps.iter().all(keeps_order));
    let shared = steps.iter().filter(|step| **step == Some(0)).count();
    match f {
        ..1953 => counts.check(DIFFERENT, shared == 0),
        // The loss is raw / 4001, a half more than a whole number at 4001 * (k + 1/2): for k
        // to 15 that is up to 62015.5, and below zero for k to 7 down to -30007.5.
        1953 => counts.check("24 neighbours share a reading", shared == 16 + 8),
        _ => counts.check(SHARED, shared > 24),
    }
}
