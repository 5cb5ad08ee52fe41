//! Request L6 on this program's own rules, a part of its check of itself. The doubles that are
//! worked out over whole numbers are held against the machine's own division.

use crate::doubles::{double, of_place};
use crate::itself::Counts;
use crate::random::Random;
use crate::record::Place;
use crate::thousandths::{of_place as reading_of_place, thousandths, Reading, ES, FS, RAWS};

const MACHINE: &str = "a double is that of the machine's division";
const REFUSED: &str = "a double is refused as thousandths are";
const REFUSED_PLACE: &str = "a place has no double exactly where it has no reading";

pub fn check(counts: &mut Counts, random: &mut Random, cases: usize) {
    for _ in 0..cases * 100 {
        anywhere(counts, random);
    }
    every_scale(counts, random);
}

/// Numbers in range and some outside.
fn anywhere(counts: &mut Counts, random: &mut Random) {
    let raw = random.between(-40000, 70000);
    let (e, f) = (random.between(-2, 33), random.between(-50, 2100));
    let alike = double(raw, e, f).err() == thousandths(raw, e, f).err();
    counts.check(REFUSED, alike);
    let scaling = Some(2048 * e + f);
    for place in [Place::Absent, Place::Constant, Place::Number(raw)] {
        for scaling in [None, scaling] {
            counts.check(REFUSED_PLACE, refused_alike(place, scaling));
        }
    }
    let (raw, e, f) = (
        random.between(-32768, 65535),
        e.clamp(0, 31),
        f.clamp(0, 2047),
    );
    counts.check(MACHINE, is_the_machines(raw, e, f));
}

fn refused_alike(place: Place, scaling: Option<i64>) -> bool {
    match (of_place(place, scaling), reading_of_place(place, scaling)) {
        (None, Reading::Absent) => true,
        (Some(Ok(_)), Reading::Thousandths(_)) => true,
        (Some(Err(ours)), Reading::Refused(refusal)) => ours == refusal,
        _ => false,
    }
}

/// Every scale with the ends, the numbers around zero and some others; a few scales with all raw
/// numbers.
fn every_scale(counts: &mut Counts, random: &mut Random) {
    for e in ES {
        for f in FS {
            let mut raws = vec![-32768, -32767, -3, -2, -1, 0, 1, 2, 3, 32767, 32768];
            raws.extend([65534, 65535]);
            raws.extend([0; 8].map(|_| random.between(-32768, 65535)));
            let agree = raws.iter().all(|raw| is_the_machines(*raw, e, f));
            counts.check(MACHINE, agree);
        }
    }
    for (e, f) in [(0, 0), (26, 1952), (16, 1), (31, 2047), (5, 1365)] {
        let agree = RAWS.into_iter().all(|raw| is_the_machines(raw, e, f));
        counts.check(MACHINE, agree);
    }
}

/// One division of two doubles, raw and the scale. Each is made without loss: raw has at most 17
/// binary digits, (2048 + F) * 2^E at most 43, and 2^27 only moves its exponent.
fn is_the_machines(raw: i64, e: i64, f: i64) -> bool {
    let scale = ((2048 + f) << e) as f64 / (1_i64 << 27) as f64;
    let divided = raw as f64 / scale;
    double(raw, e, f) == Ok(divided.to_bits())
}
