//! The few long questions of request L9, with typed answers: extended data too long (14), and
//! values far behind.

use crate::answers::digits;
use crate::compare::Comparison;
use crate::random::Random;

const EXTENDED: &str = "writing from columns with long extended data";
const LATE: &str = "values out of range far behind in columns";

pub fn ask_all(comparison: &mut Comparison, random: &mut Random) {
    too_long(comparison, random);
    late_values(comparison);
}

/// 14 behind 13 and 12 of a value, and before 15. Two points: X 0 and 1, Y 2 and 3.
fn too_long(comparison: &mut Comparison, random: &mut Random) {
    let data = digits(&random.bytes(65536));
    let fewer = &data[2..];
    let mut typed = |values: &str, extended: &str, room: usize, answer: &str| {
        let line = format!("write-columns 2 {values} {extended} {room} X Y");
        comparison.ask_typed(EXTENDED, &line, answer);
    };
    typed("0,1,2,3", &data, 3, "refused 14 AAAAAA");
    typed("0,1,2", &data, 2, "refused 13 AAAA");
    let first = "refused 12 value 2 Y AAAA";
    typed("0,32768,40000,0", &data, 2, first);
    typed("0,1,2,3", fewer, 3, "refused 15 AAAAAA");
    let plain = "5344490020313000C00000000000000002";
    let points = "8000800280018003";
    let written = format!("written 25 {plain}{points}AA");
    typed("0,1,2,3", &format!("!{data}"), 26, &written);
}

/// X and Y of `count` points. The value with this index is Y's; X of the next point is out of range
/// too, and stands before it among the columns.
fn late_values(comparison: &mut Comparison) {
    for (count, index) in [(200, 255), (200, 256), (40_000, 65535), (40_000, 65536)] {
        let mut values = vec!["0"; 2 * count];
        values[index] = "32768";
        values[index - count + 1] = "32768";
        let values = values.join(",");
        let line = format!("write-columns {count} {values} ! 1 X Y");
        let answer = format!("refused 12 value {index} Y AA");
        comparison.ask_typed(LATE, &line, &answer);
    }
}
