//! Readings in thousandths, of numbers and of places.

use crate::compare::Comparison;
use crate::inputs;
use crate::random::Random;
use crate::words::OF_A_CHANNEL;

const NUMBERS: &str = "thousandths";
const PLACES: &str = "thousandths of places";

pub fn ask_all(comparison: &mut Comparison, random: &mut Random) {
    grid(comparison, random);
    halves(comparison, random);
    anywhere(comparison, random);
    far_outside(comparison);
    places(comparison, random);
}

fn ask(comparison: &mut Comparison, raw: i64, e: i64, f: i64) {
    comparison.ask(NUMBERS, format!("thousandths {raw} {e} {f}"));
}

/// The ends, one outside, around zero, the paper's own, and some others.
pub fn raws(random: &mut Random) -> Vec<i64> {
    let mut raws = vec![-32769, -32768, -32767, -512, -3, -2, -1, 0, 1, 2, 3];
    raws.extend([512, 3199, 32767, 32768, 65534, 65535, 65536]);
    raws.extend((0..4).map(|_| random.between(-32768, 65535)));
    raws
}

fn grid(comparison: &mut Comparison, random: &mut Random) {
    for e in 0..34 {
        for f in [
            0,
            1,
            2,
            1023,
            1024,
            1151,
            1152,
            1952,
            2046,
            2047,
            2048,
            random.between(0, 2047),
        ] {
            for raw in raws(random) {
                ask(comparison, raw, e, f);
            }
        }
    }
}

/// Halves of a thousandth, and what is beside them. With F 0 and E from 20 the exact number
/// is raw * 125 / 2^(E - 19), a half where raw is an odd multiple of 2^(E - 20).
fn halves(comparison: &mut Comparison, random: &mut Random) {
    for _ in 0..comparison.amount(2500) {
        let e = random.between(20, 31);
        let unit = 1 << (e - 20);
        let raw = (2 * random.between(-16384 / unit, 32767 / unit) + 1) * unit;
        let f = random.pick(&[0, 0, 0, 1]);
        ask(comparison, raw + random.pick(&[0, 0, 1, -1]), e, f);
        // The scale 2000 of P12: every odd raw is a half.
        ask(comparison, 2 * random.between(-16384, 32767) + 1, 26, 1952);
    }
}

fn anywhere(comparison: &mut Comparison, random: &mut Random) {
    for _ in 0..comparison.amount(8000) {
        let raw = random.between(-32768, 65535);
        let (e, f) = (random.between(0, 31), random.between(0, 2047));
        ask(comparison, raw, e, f);
    }
}

fn far_outside(comparison: &mut Comparison) {
    let far = [4_294_967_296, 2_147_483_648, 999_999_999_999_999_999];
    for number in far {
        for (raw, e, f) in [
            (number, 16, 0),
            (-number, 16, 0),
            (1, number, 0),
            (1, 16, number),
        ] {
            ask(comparison, raw, e, f);
        }
    }
}

/// Scaling values inside their range, outside it, and any.
fn scalings(comparison: &Comparison, random: &mut Random) -> Vec<i64> {
    let mut scalings = vec![0, 1, 2047, 2048, 32767, 32768, 46208, 55200, 63896];
    scalings.extend([65534, 65535, 65536, 67583, 67584, -1, -2048]);
    scalings.extend([-2_147_483_648, 2_147_483_647]);
    scalings.extend((0..comparison.amount(20)).map(|_| random.between(0, 65535)));
    scalings
}

fn places(comparison: &mut Comparison, random: &mut Random) {
    ask_places(comparison, random, "!");
    for scaling in scalings(comparison, random) {
        ask_places(comparison, random, &scaling.to_string());
        // A number without its flag counts for nothing.
        ask_places(comparison, random, &format!("!{scaling}"));
    }
    each_sort_with_each(comparison, random);
}

fn ask_places(comparison: &mut Comparison, random: &mut Random, scaling: &str) {
    let mut places = vec![".".to_string(), "-".to_string()];
    places.extend(["-2147483648".to_string(), "2147483647".to_string()]);
    places.extend(raws(random).iter().map(i64::to_string));
    for place in places {
        comparison.ask(PLACES, format!("place {place} {scaling}"));
    }
}

/// Every sort of place with every sort of number, without its flag and with it.
fn each_sort_with_each(comparison: &mut Comparison, random: &mut Random) {
    for _ in 0..comparison.amount(60) {
        for place in places_of_each_sort(random) {
            comparison.ask(PLACES, format!("place {place} !"));
            for number in numbers_of_each_sort(random) {
                comparison.ask(PLACES, format!("place {place} !{number}"));
                comparison.ask(PLACES, format!("place {place} {number}"));
            }
        }
    }
}

/// Absent, constant, and numbers below their range, in it and above it.
pub fn places_of_each_sort(random: &mut Random) -> [String; 5] {
    let [below, inside, above] = around(random, (-32768, 65535)).map(|raw| raw.to_string());
    [".".to_string(), "-".to_string(), below, inside, above]
}

/// For a scaling value: 0, and numbers below the range, in it and above it.
pub fn numbers_of_each_sort(random: &mut Random) -> [i64; 4] {
    let [below, inside, above] = around(random, (0, 65535));
    [0, below, inside, above]
}

/// A number below a range, one in it and one above it, of those that a word can hold.
fn around(random: &mut Random, (low, high): (i64, i64)) -> [i64; 3] {
    let ranges = [
        (OF_A_CHANNEL.0, low - 1),
        (low, high),
        (high + 1, OF_A_CHANNEL.1),
    ];
    ranges.map(|range| inputs::number(random, range))
}
