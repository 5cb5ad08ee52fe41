//! Where the points of a slice stand, laid out plainly from document 01, steps 1 to 7. Nothing is
//! judged here, and nothing is shared with the rules that work the answers out.

#[derive(Clone, Copy)]
pub struct Layout {
    /// Where the points start: the header's bytes and four.
    pub points: usize,
    /// How many bytes a point has.
    pub size: usize,
}

impl Layout {
    /// None where a byte that tells it isn't there.
    pub fn of(bytes: &[u8]) -> Option<Layout> {
        let inclusion = u16::from_be_bytes([*bytes.get(8)?, *bytes.get(9)?]);
        let (mut place, mut size) = (10, 0);
        for channel in (0..16).filter(|channel| inclusion << channel & 0x8000 != 0) {
            let descriptor = *bytes.get(place)?;
            place += 1 + 2 * (descriptor >> 3).count_ones() as usize;
            size += match (descriptor & 4, channel) {
                (4, _) => 0,
                // S, the eleventh.
                (_, 10) => 1,
                _ => 2,
            };
        }
        // The reserved byte, the opening byte and the count.
        let points = place + 1 + 1 + 3;
        Some(Layout { points, size })
    }

    /// Where the point with this index starts. An index may be any, so this may be the greatest
    /// place there is.
    pub fn start(self, index: i64) -> usize {
        let before = self.size.saturating_mul(index as usize);
        self.points.saturating_add(before)
    }
}
