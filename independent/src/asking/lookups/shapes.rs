//! Good records of many shapes, and the same with a count beyond the points that are there.

use super::Tried;
use crate::compare::Comparison;
use crate::description::{Description, Format};
use crate::inputs::{self, Constants};
use crate::kinds::{self, Kind};
use crate::layout::Layout;
use crate::random::Random;
use crate::record::GREATEST_COUNT;
use crate::words::ANY;
use crate::writing::Parts;

pub fn all(comparison: &Comparison, random: &mut Random) -> Vec<Tried> {
    let mut tried = every_kind(random);
    tried.extend((0..comparison.amount(180)).map(|_| any_shape(random)));
    tried.extend(empty_points(comparison, random));
    tried.extend((0..comparison.amount(120)).filter_map(|_| few_of_many(random)));
    tried.extend([1, 2, 3].map(|count| greatest_with(random, count)));
    tried
}

/// X, Y, S, a channel before S and one behind it, each of every kind that it can be.
fn every_kind(random: &mut Random) -> Vec<Tried> {
    let of = |kinds: &Vec<(usize, Kind)>| of_kinds(random, kinds);
    kinds::every_combination().iter().map(of).collect()
}

/// Three points.
fn of_kinds(random: &mut Random, kinds: &[(usize, Kind)]) -> Tried {
    let description = kinds::description(random, Format::Full, kinds);
    let bytes = of_points(random, description, 3);
    let far = far(random, &bytes, 3);
    let indices = vec![0, random.between(1, 2), 3, far];
    Tried { bytes, indices }
}

/// Perhaps with extended data and with bytes behind.
fn of_points(random: &mut Random, description: Description, count: i64) -> Vec<u8> {
    let parts = inputs::of_description(random, description, count);
    lengthened(random, &parts)
}

fn lengthened(random: &mut Random, parts: &Parts) -> Vec<u8> {
    let mut bytes = inputs::bytes(parts);
    if random.one_in(2) {
        bytes.extend(inputs::few_bytes(random));
    }
    bytes
}

fn any_shape(random: &mut Random) -> Tried {
    let mut parts = inputs::any_parts(random);
    parts.count = random.between(0, 9);
    parts.values = inputs::values(random, &parts.description, parts.count);
    let bytes = lengthened(random, &parts);
    let indices = indices(random, &bytes, parts.count);
    Tried { bytes, indices }
}

/// The first point, a middle one, the last, the first index that no point has, and one far away.
fn indices(random: &mut Random, bytes: &[u8], count: i64) -> Vec<i64> {
    let last = (count - 1).max(0);
    let far = far(random, bytes, count);
    let mut indices = vec![0, random.between(0, last), last, count, far];
    indices.sort_unstable();
    indices.dedup();
    indices
}

/// An index beyond the count. Cut to a narrower number most of these would be an index that a
/// point has; or the place of such a point, cut so, would be in the slice.
fn far(random: &mut Random, bytes: &[u8], count: i64) -> i64 {
    let size = Layout::of(bytes).map_or(1, |layout| layout.size.max(1));
    let near = random.between(0, (count - 1).max(0));
    let leaving = |bits: u32| {
        let index = (1_u128 << bits) / size as u128 + 1;
        i64::try_from(index).map_or(ANY.1, |index| index.min(ANY.1))
    };
    let far = [
        count + near,
        (1 << 24) + near,
        (1 << 32) + near,
        (1 << 59) + near,
        leaving(32),
        leaving(64),
        ANY.1,
    ];
    random.pick(&far).max(count)
}

/// Where no channel is stored a point has no bytes, and any count is good.
fn empty_points(comparison: &Comparison, random: &mut Random) -> Vec<Tried> {
    let mut tried = Vec::new();
    for count in [0, 1, 2, 255, 256, 65536, GREATEST_COUNT - 1, GREATEST_COUNT] {
        for _ in 0..comparison.amount(3) {
            let set = inputs::set(random);
            let description = inputs::description(random, Format::Full, set, Constants::All);
            let bytes = of_points(random, description, count);
            let indices = indices(random, &bytes, count);
            tried.push(Tried { bytes, indices });
        }
    }
    tried
}

/// A count of many points where the bytes end in one of the first, or before it. What stands
/// behind these is taken as points too.
fn few_of_many(random: &mut Random) -> Option<Tried> {
    let set = inputs::set(random);
    let description = inputs::description(random, Format::Full, set, Constants::Some);
    let mut bytes = of_points(random, description, 3);
    let Layout { points, size } = Layout::of(&bytes)?;
    let count = random.pick(&[4, 256, 65535, 65536, 0x80_0000, GREATEST_COUNT]);
    bytes[points - 3..points].copy_from_slice(&count.to_be_bytes()[5..]);
    let left = random.below(bytes.len() - points + 1);
    let whole = left.checked_div(size).unwrap_or(0);
    // Half of them end exactly where a point begins.
    let left = random.pick(&[left, whole * size]);
    bytes.truncate(points + left);
    let mut indices = indices(random, &bytes, count);
    // The last point that is whole, the next, and one that begins behind the end.
    let next = whole as i64;
    indices.extend([(next - 1).max(0), next, next + 1]);
    Some(Tried { bytes, indices })
}

/// No lookup looks at more bytes.
fn greatest_with(random: &mut Random, count: i64) -> Tried {
    let parts = inputs::greatest_parts(random, count);
    Tried {
        bytes: lengthened(random, &parts),
        indices: (0..=count).collect(),
    }
}
