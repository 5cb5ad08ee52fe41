//! Listings of files at and around the largest size, and of files of other sorts.

use crate::compare::Comparison;
use crate::description::point_size;
use crate::inputs;
use crate::listing::LARGEST;
use crate::random::Random;

const KIND: &str = "listings of large and odd files";

pub fn ask_all(comparison: &mut Comparison, random: &mut Random) {
    for size in [
        LARGEST - 1,
        LARGEST,
        LARGEST + 1,
        LARGEST + 2,
        2 * LARGEST,
        1_000_000,
    ] {
        for _ in 0..comparison.amount(6) {
            large(comparison, random, size);
        }
        comparison.list(KIND, &vec![0; size]);
        comparison.list(KIND, &vec![0x53; size]);
    }
    for size in [LARGEST - 1, LARGEST, LARGEST + 1] {
        for _ in 0..comparison.amount(4) {
            one_record(comparison, random, size);
        }
    }
    for _ in 0..comparison.amount(300) {
        odd(comparison, random);
    }
}

/// Joined records filled up to the size, and the same with one byte damaged.
fn large(comparison: &mut Comparison, random: &mut Random, size: usize) {
    let mut file = Vec::with_capacity(size);
    while file.len() + 600 < size {
        let parts = inputs::any_parts(random);
        let bytes = inputs::bytes(&parts);
        let times = 1 + random.below(200);
        for _ in 0..times.min((size - file.len() - 100) / bytes.len()) {
            file.extend(&bytes);
        }
    }
    file.extend(filler(random, size - file.len()));
    comparison.list(KIND, &file);
    let place = random.below(file.len());
    inputs::damage(random, &mut file, place);
    comparison.list(KIND, &file);
}

/// One record of exactly this size, or plain bytes where none is so short.
fn filler(random: &mut Random, size: usize) -> Vec<u8> {
    let mut parts = inputs::small_parts(random);
    parts.extended = Some(Vec::new());
    let least = inputs::bytes(&parts).len();
    if size < least {
        return random.bytes(size);
    }
    parts.extended = Some(random.bytes(size - least));
    inputs::bytes(&parts)
}

/// One record as large as a file may be, filled by extended data, whole and one byte short;
/// and one filled by points.
fn one_record(comparison: &mut Comparison, random: &mut Random, size: usize) {
    let file = filler(random, size);
    comparison.list(KIND, &file);
    comparison.list(KIND, &file[..file.len() - 1]);
    let mut parts = inputs::small_parts(random);
    parts.count = ((size - 200) / point_size(&parts.description).max(1)) as i64;
    parts.values = inputs::values(random, &parts.description, parts.count);
    comparison.list(KIND, &inputs::bytes(&parts));
}

/// Files that are no records at all, or begin as one.
fn odd(comparison: &mut Comparison, random: &mut Random) {
    let amount = random.below(40);
    let any = random.bytes(amount);
    let front = &b"SDI\0 10\0\xC0\0"[..random.below(11)];
    let record = inputs::small_record(random);
    let file = match random.below(4) {
        0 => any,
        1 => [front, &any[..]].concat(),
        2 => [&record[..], front, &any[..]].concat(),
        _ => [&record[..], &record[..], front].concat(),
    };
    comparison.list(KIND, &file);
}
