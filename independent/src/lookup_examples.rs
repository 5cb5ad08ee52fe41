//! Request L7: answers typed from the papers and the readings, never worked out here.
//! `looked` counts the header, four bytes and the point, up to and with the byte that decided.

use crate::compare::Comparison;
use crate::examples::{Typed, LOOKUP};

pub const LOOKUP_EXAMPLES: Typed = &[
    // M's header has 13 bytes, and 17 with the opening byte and the count. It has no points.
    (
        "look-up 0 53444900 20313000 C000 00 00 00 00 000000",
        "refused 10 looked 17",
    ),
    (
        "look-up 999999999999999999 53444900 20313000 C000 00 00 00 00 000000",
        "refused 10 looked 17",
    ),
    // P8: a point of four bytes; bytes behind it change nothing.
    (
        "look-up 0 53444900 20313000 C000 00 00 00 00 000001 7FFF 8000",
        "point 21 -1 0 . . . . . . . . . . . . . .",
    ),
    (
        "look-up 0 53444900 20313000 C000 00 00 00 00 000001 7FFF 8000 53 45",
        "point 21 -1 0 . . . . . . . . . . . . . .",
    ),
    (
        "look-up 1 53444900 20313000 C000 00 00 00 00 000001 7FFF 8000",
        "refused 10 looked 17",
    ),
    // 2 and 3: the place and one.
    ("look-up 0 00", "refused 2 0 looked 1"),
    ("look-up 0 53 45", "refused 2 1 looked 2"),
    ("look-up 7 53 44 31", "refused 2 2 looked 3"),
    ("look-up 0 53 44 49 01 20", "refused 2 3 looked 4"),
    ("look-up 0 53 44 49 00 21", "refused 3 4 looked 5"),
    ("look-up 0 53444900 20313001", "refused 3 7 looked 8"),
    // 4: without X, without Y, without both; the byte at 8 decides alone.
    ("look-up 0 53444900 20313000 40", "refused 4 8 looked 9"),
    ("look-up 0 53444900 20313000 80", "refused 4 8 looked 9"),
    (
        "look-up 0 53444900 20313000 3F FF 01 01 01 01 000000",
        "refused 4 8 looked 9",
    ),
    // 5: the descriptor of X, that of Y, and that of Y behind two bytes of X.
    (
        "look-up 0 53444900 20313000 C000 01 00 00 00 000000",
        "refused 5 10 looked 11",
    ),
    (
        "look-up 0 53444900 20313000 C000 00 01 00 00 000000",
        "refused 5 11 looked 12",
    ),
    (
        "look-up 0 53444900 20313000 C000 80F998 05",
        "refused 5 13 looked 14",
    ),
    // 6: the header's last byte. 7: the byte behind it, with the top bit or without.
    (
        "look-up 0 53444900 20313000 C000 00 00 01 00 000001 7FFF 8000",
        "refused 6 12 looked 13",
    ),
    (
        "look-up 0 53444900 20313000 C000 00 00 80",
        "refused 6 12 looked 13",
    ),
    (
        "look-up 0 53444900 20313000 C000 00 00 00 01 000001 7FFF 8000",
        "refused 7 13 looked 14",
    ),
    (
        "look-up 5 53444900 20313000 C000 00 00 00 81",
        "refused 7 13 looked 14",
    ),
    (
        "look-up 0 53444900 20313000 C000 80F998 80F998 00 40",
        "refused 7 17 looked 18",
    ),
    // 1 before the points: all that is there. Nothing; in the identifier; before and within the
    // inclusion bytes; before a descriptor; within an attribute; before the reserved byte, the
    // opening byte and the count; within the count, where an index changes nothing.
    ("look-up 0", "refused 1 looked 0"),
    ("look-up 3 53", "refused 1 looked 1"),
    ("look-up 0 53444900 20313000", "refused 1 looked 8"),
    ("look-up 0 53444900 20313000 C0", "refused 1 looked 9"),
    ("look-up 0 53444900 20313000 C000", "refused 1 looked 10"),
    (
        "look-up 0 53444900 20313000 C000 80F9",
        "refused 1 looked 12",
    ),
    (
        "look-up 0 53444900 20313000 C000 00 00",
        "refused 1 looked 12",
    ),
    (
        "look-up 0 53444900 20313000 C000 00 00 00",
        "refused 1 looked 13",
    ),
    (
        "look-up 0 53444900 20313000 C000 00 00 00 80",
        "refused 1 looked 14",
    ),
    (
        "look-up 999999999999999999 53444900 20313000 C000 00 00 00 00 0000",
        "refused 1 looked 16",
    ),
    // 1 in the point: 17, and what is there of its four bytes.
    (
        "look-up 0 53444900 20313000 C000 00 00 00 00 000001",
        "refused 1 looked 17",
    ),
    (
        "look-up 0 53444900 20313000 C000 00 00 00 00 000001 7F",
        "refused 1 looked 18",
    ),
    (
        "look-up 0 53444900 20313000 C000 00 00 00 00 000001 7FFF",
        "refused 1 looked 19",
    ),
    (
        "look-up 0 53444900 20313000 C000 00 00 00 00 000001 7FFF 80",
        "refused 1 looked 20",
    ),
    // Four points are counted, one and a half are there: the point at 17 is there, that at 21
    // half, that at 25 begins behind the end; and 10 comes before 1.
    (
        "look-up 0 53444900 20313000 C000 00 00 00 00 000004 7FFF 8000 8003",
        "point 21 -1 0 . . . . . . . . . . . . . .",
    ),
    (
        "look-up 1 53444900 20313000 C000 00 00 00 00 000004 7FFF 8000 8003",
        "refused 1 looked 19",
    ),
    (
        "look-up 2 53444900 20313000 C000 00 00 00 00 000004 7FFF 8000 8003",
        "refused 1 looked 17",
    ),
    (
        "look-up 3 53444900 20313000 C000 00 00 00 00 000004 7FFF 8000 8003",
        "refused 1 looked 17",
    ),
    (
        "look-up 4 53444900 20313000 C000 00 00 00 00 000004 7FFF 8000 8003",
        "refused 10 looked 17",
    ),
    // The point that begins exactly at the end.
    (
        "look-up 1 53444900 20313000 C000 00 00 00 00 000002 7FFF 8000",
        "refused 1 looked 17",
    ),
    // The greatest count, with one point there.
    (
        "look-up 0 53444900 20313000 C000 00 00 00 00 FFFFFF 8001 7FFE",
        "point 21 1 -2 . . . . . . . . . . . . . .",
    ),
    (
        "look-up 16777214 53444900 20313000 C000 00 00 00 00 FFFFFF 8001 7FFE",
        "refused 1 looked 17",
    ),
    (
        "look-up 16777215 53444900 20313000 C000 00 00 00 00 FFFFFF 8001 7FFE",
        "refused 10 looked 17",
    ),
    // 2^24, 2^32 and 2^59 are not taken for 0.
    (
        "look-up 16777216 53444900 20313000 C000 00 00 00 00 000001 8001 7FFE",
        "refused 10 looked 17",
    ),
    (
        "look-up 4294967296 53444900 20313000 C000 00 00 00 00 000001 8001 7FFE",
        "refused 10 looked 17",
    ),
    (
        "look-up 576460752303423488 53444900 20313000 C000 00 00 00 00 000001 8001 7FFE",
        "refused 10 looked 17",
    ),
    // P9: X constant, so the point has two bytes. Then with Y constant, the second of two.
    (
        "look-up 0 53444900 20313000 C000 04 00 00 00 000001 8005",
        "point 19 - 5 . . . . . . . . . . . . . .",
    ),
    (
        "look-up 1 53444900 20313000 C000 00 04 00 00 000002 8005 7FFF",
        "point 19 -1 - . . . . . . . . . . . . . .",
    ),
    (
        "look-up 1 53444900 20313000 C000 00 04 00 00 000002 8005 7F",
        "refused 1 looked 18",
    ),
    // All constant: the point has no bytes and is there for any count.
    (
        "look-up 0 53444900 20313000 C000 04 04 00 00 FFFFFF",
        "point 17 - - . . . . . . . . . . . . . .",
    ),
    (
        "look-up 16777214 53444900 20313000 C000 04 04 00 00 FFFFFF",
        "point 17 - - . . . . . . . . . . . . . .",
    ),
    (
        "look-up 16777215 53444900 20313000 C000 04 04 00 00 FFFFFF",
        "refused 10 looked 17",
    ),
    (
        "look-up 0 53444900 20313000 C000 04 04 00 00 FFFF",
        "refused 1 looked 16",
    ),
    // Extended data are not looked at: all there, cut, and not there at all.
    (
        "look-up 0 53444900 20313000 C000 00 00 00 80 000001 8005 8006 0001 AB",
        "point 21 5 6 . . . . . . . . . . . . . .",
    ),
    (
        "look-up 0 53444900 20313000 C000 00 00 00 80 000001 8005 8006 0009 AB",
        "point 21 5 6 . . . . . . . . . . . . . .",
    ),
    (
        "look-up 0 53444900 20313000 C000 00 00 00 80 000001 8005 8006",
        "point 21 5 6 . . . . . . . . . . . . . .",
    ),
    (
        "look-up 0 53444900 20313000 C000 00 00 00 80 000000",
        "refused 10 looked 17",
    ),
    // Of these bytes extended data would begin at 21, but the count takes them as a point.
    (
        "look-up 1 53444900 20313000 C000 00 00 00 80 000002 8005 8006 0002 ABCD",
        "point 21 -32766 11213 . . . . . . . . . . . . . .",
    ),
    // X, Y and S: 18 bytes, then points of five. S stands at 22 and at 27, four into its point.
    (
        "look-up 0 53444900 20313000 C020 00 00 00 00 00 000002 8005 7FFF 01 8006 8000 00",
        "point 23 5 -1 . . . . . . . . 1 . . . . .",
    ),
    (
        "look-up 1 53444900 20313000 C020 00 00 00 00 00 000002 8005 7FFF 01 8006 8000 00",
        "point 23 6 0 . . . . . . . . 0 . . . . .",
    ),
    (
        "look-up 0 53444900 20313000 C020 00 00 00 00 00 000002 8005 7FFF 02 8006 8000 00",
        "refused 8 22 looked 23",
    ),
    (
        "look-up 1 53444900 20313000 C020 00 00 00 00 00 000002 8005 7FFF 02 8006 8000 00",
        "point 23 6 0 . . . . . . . . 0 . . . . .",
    ),
    (
        "look-up 1 53444900 20313000 C020 00 00 00 00 00 000002 8005 7FFF 01 8006 8000 FF",
        "refused 8 27 looked 23",
    ),
    (
        "look-up 0 53444900 20313000 C020 00 00 00 00 00 000002 8005 7FFF 01 8006 8000 FF",
        "point 23 5 -1 . . . . . . . . 1 . . . . .",
    ),
    (
        "look-up 1 53444900 20313000 C020 00 00 00 00 00 000002 8005 7FFF 02 8006 8000",
        "refused 1 looked 22",
    ),
    (
        "look-up 2 53444900 20313000 C020 00 00 00 00 00 000002 8005 7FFF 02 8006 8000 FF",
        "refused 10 looked 18",
    ),
    (
        "look-up 2 53444900 20313000 C020 00 00 00 00 00 000002 8005",
        "refused 10 looked 18",
    ),
    // S and R behind it: 19 bytes, then points of seven, S at 23. As bytes come: a wrong S that is
    // there is 8, with R missing, half there and whole; a good one is 1 until R is whole.
    (
        "look-up 0 53444900 20313000 C021 00 00 00 00 00 00 000001 8005 8006 80",
        "refused 8 23 looked 24",
    ),
    (
        "look-up 0 53444900 20313000 C021 00 00 00 00 00 00 000001 8005 8006 80 00",
        "refused 8 23 looked 24",
    ),
    (
        "look-up 0 53444900 20313000 C021 00 00 00 00 00 00 000001 8005 8006 80 0007",
        "refused 8 23 looked 24",
    ),
    (
        "look-up 0 53444900 20313000 C021 00 00 00 00 00 00 000001 8005 8006",
        "refused 1 looked 23",
    ),
    (
        "look-up 0 53444900 20313000 C021 00 00 00 00 00 00 000001 8005 8006 01",
        "refused 1 looked 24",
    ),
    (
        "look-up 0 53444900 20313000 C021 00 00 00 00 00 00 000001 8005 8006 01 00",
        "refused 1 looked 25",
    ),
    (
        "look-up 0 53444900 20313000 C021 00 00 00 00 00 00 000001 8005 8006 01 0007",
        "point 26 5 6 . . . . . . . . 1 . . . . 7",
    ),
    // S constant has no byte, and what stands there is R. S alone is stored: a point of one byte,
    // where each byte is a point.
    (
        "look-up 0 53444900 20313000 C021 00 00 04 00 00 00 000001 8005 8006 0207",
        "point 25 5 6 . . . . . . . . - . . . . 519",
    ),
    (
        "look-up 2 53444900 20313000 C020 04 04 00 00 00 000003 02 02 01",
        "point 19 - - . . . . . . . . 1 . . . . .",
    ),
    (
        "look-up 1 53444900 20313000 C020 04 04 00 00 00 000003 00 02 01",
        "refused 8 19 looked 19",
    ),
    // C.1 of the annex, with three of its 475 points: a header of 25 bytes and points of six.
    (
        "look-up 2 53444900 20313000 C0C0 80F998 80F998 84B480 6000000300 00 00 0001DB \
         82078BCB003F 82098BCB0135 820F8BE8013C",
        "point 35 527 3048 . . . . . . - 316 . . . . . .",
    ),
    (
        "look-up 474 53444900 20313000 C0C0 80F998 80F998 84B480 6000000300 00 00 0001DB \
         82078BCB003F 82098BCB0135 820F8BE8013C",
        "refused 1 looked 29",
    ),
    (
        "look-up 475 53444900 20313000 C0C0 80F998 80F998 84B480 6000000300 00 00 0001DB \
         82078BCB003F 82098BCB0135 820F8BE8013C",
        "refused 10 looked 29",
    ),
];

/// All channels with all attributes: a header of 187 bytes, then four, then points of 31 at 191
/// and 222. S stands twenty bytes into its point, at 211 and 242.
pub fn greatest(comparison: &mut Comparison) {
    let said = "F8 0001 8002 8003 8004 0005 ".repeat(16);
    let header = format!("53444900 20313000 FFFF {said}");
    let before = "8001 7FFE 0003 8004 8005 8006 8007 0008 0009 000A";
    let behind = "800C 7FF3 000E 000F 0010";
    let good = format!("{before} 01 {behind}");
    let wrong = format!("{before} 02 {behind}");
    let point = "point 222 1 -2 3 4 5 6 7 8 9 10 1 12 -13 14 15 16";
    let mut typed = |index: i64, front: &str, answer: &str| {
        comparison.ask_typed(LOOKUP, &format!("look-up {index} {header} {front}"), answer);
    };
    typed(0, &format!("00 00 000001 {good}"), point);
    typed(0, &format!("00 00 000002 {good} {wrong}"), point);
    typed(1, &format!("00 00 000002 {wrong} {good}"), point);
    typed(1, &format!("00 80 FFFFFF {wrong} {good} FF"), point);
    let wrong_first = "refused 8 211 looked 212";
    typed(0, &format!("00 00 000002 {wrong} {good}"), wrong_first);
    let wrong_second = "refused 8 242 looked 212";
    typed(1, &format!("00 00 000002 {good} {wrong}"), wrong_second);
    typed(1, &format!("00 00 000002 {good} {before} 02"), wrong_second);
    let cut = &good[..good.len() - 2];
    typed(0, &format!("00 00 000001 {cut}"), "refused 1 looked 221");
    let second_cut = format!("00 00 000002 {good} {cut}");
    typed(1, &second_cut, "refused 1 looked 221");
    typed(1, &format!("00 00 000002 {good}"), "refused 1 looked 191");
    typed(2, &format!("00 00 000002 {good}"), "refused 10 looked 191");
    typed(0, "00 00 0000", "refused 1 looked 190");
    typed(0, "00 7F 000001", "refused 7 187 looked 188");
    typed(0, "01 7F 000001", "refused 6 186 looked 187");
}
