//! Which bytes of a slice a lookup looked at, told by its count, and other slices that agree with
//! it on these bytes (request L7).

use std::ops::Range;

use crate::layout::Layout;
use crate::random::Random;

/// A slice is made longer by at most so many bytes.
const LONGER: usize = 20;

pub struct LookedAt<'a> {
    bytes: &'a [u8],
    /// How many of the header, the opening byte and the count.
    front: usize,
    /// Those of the point.
    point: Range<usize>,
    short: bool,
    /// The lengths that a slice with the same answer can have.
    lengths: (usize, usize),
}

impl LookedAt<'_> {
    /// `short` says that the answer was 1. None where bytes were counted that aren't there.
    pub fn new(bytes: &[u8], index: i64, looked: usize, short: bool) -> Option<LookedAt<'_>> {
        let layout = Layout::of(bytes);
        let front = layout.map_or(looked, |layout| looked.min(layout.points));
        let start = layout.map_or(front, |layout| layout.start(index));
        let point = start..start.saturating_add(looked - front);
        let end = if point.is_empty() { front } else { point.end };
        if end > bytes.len() {
            return None;
        }
        let longest = bytes.len() + LONGER;
        let begins = layout.is_some_and(|layout| layout.points == front);
        let lengths = match (short, begins && point.is_empty()) {
            (false, _) => (end, longest),
            // Nothing of the point is there: its first byte was sought and must stay missing.
            (true, true) => (front, start.min(longest)),
            // The end was met and must stay where it is.
            (true, false) => (bytes.len(), bytes.len()),
        };
        Some(LookedAt {
            bytes,
            front,
            point,
            short,
            lengths,
        })
    }

    fn has(&self, place: usize) -> bool {
        place < self.front || self.point.contains(&place)
    }

    /// Another slice with the same bytes where they were looked at: every other byte may be
    /// changed, or some; it may be cut, or lengthened. None if it came out the same.
    pub fn another(&self, random: &mut Random) -> Option<Vec<u8>> {
        let (least, most) = self.lengths;
        let any = least + random.below(most - least + 1);
        let length = random.pick(&[least, most, any, self.bytes.len()]);
        let one_in = random.pick(&[1, 1, 4]);
        let byte_at = |place: usize| match self.bytes.get(place) {
            Some(byte) if self.has(place) || !random.one_in(one_in) => *byte,
            _ => random.byte(),
        };
        let other: Vec<u8> = (0..length).map(byte_at).collect();
        Some(other).filter(|other| other != self.bytes)
    }

    /// The slice cut before the last byte looked at, which decided. None where the answer was 1.
    pub fn without_last(&self) -> Option<&[u8]> {
        let last = match self.point.is_empty() {
            true => self.front.checked_sub(1)?,
            false => self.point.end - 1,
        };
        Some(&self.bytes[..last]).filter(|_| !self.short)
    }
}
