//! Request L7 on this program's own rules, a part of its check of itself: judging apart from
//! reading a point.

use crate::inputs;
use crate::itself::Counts;
use crate::looked_at::LookedAt;
use crate::lookup::{look_up, LookedUp, MOST_LOOKED};
use crate::random::Random;
use crate::record;
use crate::refusal::Refusal;

const SHORT: Refusal = Refusal::bare(1);

pub fn check(counts: &mut Counts, random: &mut Random) {
    let bytes = inputs::any_slice(random);
    let index = random.between(0, 4);
    let found = look_up(&bytes, index);
    let joined = record::judge(&bytes).and(found.answer);
    let single = record::point(&bytes, index);
    counts.check("the single request is the two joined", single == joined);
    let bound = MOST_LOOKED.min(bytes.len());
    counts.check("not too many bytes are looked at", found.looked <= bound);
    let short = found.answer == Err(SHORT);
    let Some(looked_at) = LookedAt::new(&bytes, index, found.looked, short) else {
        return counts.check("the bytes looked at are there", false);
    };
    if let Some(other) = looked_at.another(random) {
        let same = look_up(&other, index) == found;
        counts.check("bytes not looked at change nothing", same);
    }
    if let Some(front) = looked_at.without_last() {
        let fewer = LookedUp {
            answer: Err(SHORT),
            looked: found.looked - 1,
        };
        let missed = look_up(front, index) == fewer;
        counts.check("the last byte looked at decides", missed);
    }
}
