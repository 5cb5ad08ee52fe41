//! Examples with answers typed from the papers, never worked out here.

use crate::body_examples::{self, BODY_EXAMPLES, MARK_EXAMPLES, TURN_EXAMPLES};
use crate::columns_examples::{self, COLUMNS_EXAMPLES};
use crate::compare::Comparison;
use crate::double_examples::DOUBLE_EXAMPLES;
use crate::lookup_examples::{self, LOOKUP_EXAMPLES};
use crate::naming_examples::NAMING_EXAMPLES;

const SCOPE: &str = "examples of document 01";
const ASK: &str = "examples of the paper on ask";
const ANNEX: &str = "examples of annex C";
const ORDER: &str = "examples of request L11";
const CALIBRATION: &str = "examples of request L3";
const NAMING: &str = "examples of request L2";
pub const LOOKUP: &str = "examples of request L7";
pub const COLUMNS: &str = "examples of request L9";
pub const BODIES: &str = "examples of request L4";
const DOUBLES: &str = "examples of request L6";

/// M of document 01: a record with no points.
const M: &[u8] = &[
    0x53, 0x44, 0x49, 0x00, 0x20, 0x31, 0x30, 0x00, 0xC0, 0x00, 0x00, 0x00, 0x00, 0x00, 0x00, 0x00,
    0x00,
];
/// P8: M with the last byte 01, then 7F FF 80 00.
const P8: &[u8] = &[
    0x53, 0x44, 0x49, 0x00, 0x20, 0x31, 0x30, 0x00, 0xC0, 0x00, 0x00, 0x00, 0x00, 0x00, 0x00, 0x00,
    0x01, 0x7F, 0xFF, 0x80, 0x00,
];

pub fn ask_all(comparison: &mut Comparison) {
    for (kind, examples) in [
        (SCOPE, SCOPE_EXAMPLES),
        (ASK, ASK_EXAMPLES),
        (ANNEX, ANNEX_EXAMPLES),
        (ORDER, ORDER_EXAMPLES),
        (CALIBRATION, CALIBRATION_EXAMPLES),
        (NAMING, NAMING_EXAMPLES),
        (LOOKUP, LOOKUP_EXAMPLES),
        (COLUMNS, COLUMNS_EXAMPLES),
        (BODIES, BODY_EXAMPLES),
        (BODIES, TURN_EXAMPLES),
        (BODIES, MARK_EXAMPLES),
        (DOUBLES, DOUBLE_EXAMPLES),
    ] {
        for (line, answer) in examples {
            comparison.ask_typed(kind, line, answer);
        }
    }
    lookup_examples::greatest(comparison);
    columns_examples::greatest(comparison);
    body_examples::annex_body(comparison);
    body_examples::greatest(comparison);
    whole_annex_record(comparison);
    listings(comparison);
}

pub type Typed = &'static [(&'static str, &'static str)];

/// P1 to P12, then those 'run and compared'.
const SCOPE_EXAMPLES: Typed = &[
    (
        "judge 53 44 49 00 20 31 30 00 C0 00 00 00 00 00 00 00 00",
        "record 17 0 plain full X Y",
    ),
    (
        "whole 53 44 49 00 20 31 30 00 C0 00 00 00 00 00 00 00 00",
        "record 17 0 plain full X Y",
    ),
    (
        "judge 53 44 49 00 20 31 30 00 C0 00 00 00 00 00 00 00",
        "refused 1",
    ),
    (
        "whole 53 44 49 00 20 31 30 00 C0 00 00 00 00 00 00 00",
        "refused 1",
    ),
    ("judge", "refused 1"),
    ("whole", "refused 1"),
    ("judge 53 45", "refused 2 1"),
    ("whole 53 45", "refused 2 1"),
    (
        "judge 53 44 49 00 20 31 30 00 40 00 00 00 00 00 00 00 00",
        "refused 4 8",
    ),
    (
        "judge 53 44 49 00 20 31 30 00 C0 00 01 00 00 00 00 00 00",
        "refused 5 10",
    ),
    (
        "judge 53 44 49 00 20 31 30 00 C0 00 00 00 00 01 00 00 00",
        "refused 7 13",
    ),
    (
        "judge 53 44 49 00 20 31 30 00 C0 00 00 00 00 00 00 00 01 7F FF 80 00",
        "record 21 1 plain full X Y",
    ),
    (
        "point 0 53 44 49 00 20 31 30 00 C0 00 00 00 00 00 00 00 01 7F FF 80 00",
        "point -1 0 . . . . . . . . . . . . . .",
    ),
    (
        "judge 53 44 49 00 20 31 30 00 C0 00 04 00 00 00 00 00 01 80 05",
        "record 19 1 plain full X.constant Y",
    ),
    (
        "point 0 53 44 49 00 20 31 30 00 C0 00 04 00 00 00 00 00 01 80 05",
        "point - 5 . . . . . . . . . . . . . .",
    ),
    ("template B1 03 82 01 64", "template 100 !"),
    ("template B1 04 82 02 00 64", "refused 18"),
    ("thousandths 1 26 1952", "thousandths 1"),
    ("thousandths -1 26 1952", "thousandths -1"),
    ("thousandths 3 26 1952", "thousandths 2"),
    (
        "judge 53 44 49 00 20 31 30 00 C0 00 04 04 00 00 FF FF FF",
        "record 17 16777215 plain full X.constant Y.constant",
    ),
    ("template B1 00", "template ! !"),
    ("template B1 06 81 04 C0 00 00 00", "template ! compact X Y"),
    ("thousandths 3199 22 1151", "thousandths 32000"),
    ("thousandths 512 26 0", "thousandths 500"),
    ("thousandths 65535 0 0", "thousandths 4294901760000"),
    ("thousandths -32768 31 2047", "thousandths -500"),
    ("thousandths 65536 16 0", "refused 12 raw"),
    // The slips of document 01: 7F FF in X, a constant channel without bytes, the deviation
    // of X without an offset, and a fifth byte that already decides.
    ("judge 53 44 49 00 21", "refused 3 4"),
    (
        "judge 53 44 49 00 20 31 30 00 C0 00 08 00 00 00 00 00 00 00 00",
        "record 19 0 plain full X.deviation=0 Y",
    ),
];

const ASK_EXAMPLES: Typed = &[
    (
        "judge 53444900 20313000 C000 00 04 00 00 000001 8005",
        "record 19 1 plain full X Y.constant",
    ),
    (
        "whole 53444900 20313000 C000 00 00 00 00 000000 FF",
        "refused 9 17",
    ),
    (
        "extended 53444900 20313000 C000 00 00 00 80 000000 0002 ABCD",
        "bytes ABCD",
    ),
    (
        "rest 53444900 20313000 C000 00 00 00 00 000000 FF",
        "bytes FF",
    ),
    (
        "point 0 53444900 20313000 C000 00 00 00 00 000001 7FFF 8000",
        "point -1 0 . . . . . . . . . . . . . .",
    ),
    (
        "look-up 1 53444900 20313000 C000 00 04 00 00 000002 8005 8006 FF",
        "point 19 6 - . . . . . . . . . . . . . .",
    ),
    (
        "look-up 2 53444900 20313000 C000 00 00 00 00 000002",
        "refused 10 looked 17",
    ),
    (
        "look-up 1 53444900 20313000 C020 00 00 00 00 00 000002 8001 8002 01 8003 8004 02",
        "refused 8 27 looked 23",
    ),
    (
        "columns 53444900 20313000 C000 00 00 00 00 000002 7FFF 8000 8001 8005",
        "columns -1,1,0,5",
    ),
    (
        "columns-in 3 53444900 20313000 C000 00 00 00 00 000002 7FFF 8000 8001 8005",
        "refused 13 99999,99999,99999",
    ),
    (
        "write 1 -1,0 ! 23 X Y",
        "written 21 5344490020313000C000000000000000017FFF8000AAAA",
    ),
    (
        "write-columns 2 -1,1,0,5 ! 26 X Y",
        "written 25 5344490020313000C000000000000000027FFF800080018005AA",
    ),
    (
        "write-columns 2 0,32768,40000,0 ! 2 X Y",
        "refused 12 value 2 Y AAAA",
    ),
    (
        "step 17 53444900 20313000 C000 00 00 00 00 000000 53",
        "refused 1 next 17",
    ),
    ("template B1 03 82 01 64", "template 100 !"),
    ("write-template 100 5 !", "written 5 B103820164"),
    ("thousandths 3 26 1952", "thousandths 2"),
    ("place - 55200", "thousandths 1"),
    ("place - !", "refused 20"),
    ("judge 53 45", "refused 2 1"),
    (
        "write 2 0,0,0,32768 ! 2 X Y.minimum=-5",
        "refused 12 value 3 Y AAAA",
    ),
    (
        "write-template 16777216 0 X Y.minimum=-129",
        "refused 12 Y minimum -",
    ),
    ("thousandths 65536 32 0", "refused 12 raw"),
    ("write-template ! 8 full X Y", "refused 11 AAAAAAAAAAAAAAAA"),
    (
        "body B1098107C080000084B480 AC F2 A9 F2",
        "body 2 compact X Y DT.scaling=46208.constant",
    ),
    ("body B1078105C020000000 80 80 02", "refused 8 2"),
    ("body B100 80 80", "template refused 16"),
    (
        "body-point 1 B1098107C080000084B480 AC F2 A9 F2",
        "point 41 114 . . . . . . - . . . . . . .",
    ),
    (
        "write-body 1 -1,0 ! 3 B1 06 81 04 C0 00 00 00",
        "written 2 7F80AA",
    ),
    (
        "write-body 1 0,0 - 1 B1 06 81 04 C0 00 00 00",
        "refused 21 extended AA",
    ),
    (
        "turn 9 2 53444900 20313000 C000 00 00 00 00 000001 7FFF 8000",
        "turned 8 2 B1068104C0000000AA 7F80",
    ),
    (
        "turn 1 1 53444900 20313000 C000 00 00 00 00 000001 8080 8000",
        "refused 21 value 0 X AA AA",
    ),
    ("double 1 26 1952", "double 3F40624DD2F1A9FC"),
    ("double -1 16 0", "double BFF0000000000000"),
    ("double 65536 32 0", "refused 12 raw"),
    ("double-place - 32768", "double 3FF0000000000000"),
    ("double-place . !", "absent"),
    ("double-place 0 !", "refused 20"),
];

/// C.1 has F before DT; read by the clause its bytes give DT the range and F the scale
/// (notes A12). Only three of its 475 points are printed, so the count is also made 3.
const ANNEX_EXAMPLES: Typed = &[
    (
        "judge 53444900 20313000 C0C0 80F998 80F998 6000000300 84B480 00 00 0001DB \
         82078BCB003F 82098BCB0135 820F8BE8013C",
        "refused 1",
    ),
    (
        "whole 53444900 20313000 C0C0 80F998 80F998 6000000300 84B480 00 00 000003 \
         82078BCB003F 82098BCB0135 820F8BE8013C",
        "record 47 3 plain full X.scaling=63896 Y.scaling=63896 DT.minimum=0.maximum=768 F.scaling=46208.constant",
    ),
    (
        "point 0 53444900 20313000 C0C0 80F998 80F998 6000000300 84B480 00 00 000003 \
         82078BCB003F 82098BCB0135 820F8BE8013C",
        "point 519 3019 . . . . . . 63 - . . . . . .",
    ),
    (
        "whole 53444900 20313000 C0C0 80F998 80F998 84B480 6000000300 00 00 000003 \
         82078BCB003F 82098BCB0135 820F8BE8013C",
        "record 47 3 plain full X.scaling=63896 Y.scaling=63896 DT.scaling=46208.constant F.minimum=0.maximum=768",
    ),
    (
        "point 0 53444900 20313000 C0C0 80F998 80F998 84B480 6000000300 00 00 000003 \
         82078BCB003F 82098BCB0135 820F8BE8013C",
        "point 519 3019 . . . . . . - 63 . . . . . .",
    ),
    (
        "point 1 53444900 20313000 C0C0 80F998 80F998 84B480 6000000300 00 00 000003 \
         82078BCB003F 82098BCB0135 820F8BE8013C",
        "point 521 3019 . . . . . . - 309 . . . . . .",
    ),
    (
        "point 2 53444900 20313000 C0C0 80F998 80F998 84B480 6000000300 00 00 000003 \
         82078BCB003F 82098BCB0135 820F8BE8013C",
        "point 527 3048 . . . . . . - 316 . . . . . .",
    ),
    (
        "point 3 53444900 20313000 C0C0 80F998 80F998 84B480 6000000300 00 00 000003 \
         82078BCB003F 82098BCB0135 820F8BE8013C",
        "refused 10",
    ),
    (
        "write 1 519,3019,63 ! 35 X.scaling=63896 Y.scaling=63896 DT.scaling=46208.constant \
         F.minimum=0.maximum=768",
        "written 35 5344490020313000C0C080F99880F99884B4806000000300000000000182078BCB003F",
    ),
    // 1,32 cm and 7,68 cm in thousandths of a metre; one sample in 10 ms.
    ("place 519 63896", "thousandths 13"),
    ("place 3019 63896", "thousandths 77"),
    ("place - 46208", "thousandths 10"),
    ("template B1 09 81 07 C0 80 00 00 84 B4 80", "template ! compact X Y DT.scaling=46208.constant"),
    ("write-template ! 11 X Y DT.scaling=46208.constant", "written 11 B1098107C080000084B480"),
    // C.2.2 is a compact body, which is no template.
    ("template 5F 2E 82 03 B6 AC F2 A9 F2", "refused 16"),
];

/// The bound of request L11 is sharp. In thousandths E 25 gives raw * 1000 * 4 / (2048 + F).
const ORDER_EXAMPLES: Typed = &[
    // F 1953 is scale 4001 / 4 = 1000.25: raw * 4000 / 4001, which is raw - raw / 4001.
    // 2000 / 4001 is below a half, so 2000 stays; 2001 / 4001 is above it, so 2001 is 2000 too.
    ("thousandths 2000 25 1953", "thousandths 2000"),
    ("thousandths 2001 25 1953", "thousandths 2000"),
    ("thousandths -2000 25 1953", "thousandths -2000"),
    ("thousandths -2001 25 1953", "thousandths -2000"),
    // F 1952 is scale 4000 / 4 = 1000: raw * 4000 / 4000, which is raw.
    ("thousandths 2000 25 1952", "thousandths 2000"),
    ("thousandths 2001 25 1952", "thousandths 2001"),
    ("thousandths -2000 25 1952", "thousandths -2000"),
    ("thousandths -2001 25 1952", "thousandths -2001"),
    // The scaling values of these two: 2048 * 25 = 51200, with 1953 it is 53153, with 1952 53152.
    ("place 2000 53153", "thousandths 2000"),
    ("place 2001 53153", "thousandths 2000"),
    ("place -2000 53153", "thousandths -2000"),
    ("place -2001 53153", "thousandths -2000"),
    ("place 2000 53152", "thousandths 2000"),
    ("place 2001 53152", "thousandths 2001"),
    ("place -2000 53152", "thousandths -2000"),
    ("place -2001 53152", "thousandths -2001"),
];

/// Request L3: 20 without a scaling value, before 12; an absent place stays absent.
const CALIBRATION_EXAMPLES: Typed = &[
    // X and Y of P8 and P9 have no scaling value, and 63, 309 and 316 of C.1 have none either.
    ("place -1 !", "refused 20"),
    ("place 0 !", "refused 20"),
    ("place - !", "refused 20"),
    ("place 5 !", "refused 20"),
    ("place 63 !", "refused 20"),
    ("place 309 !", "refused 20"),
    ("place 316 !", "refused 20"),
    ("place . !", "absent"),
    // The ends of raw; then outside of them, where 20 comes before 12.
    ("place 1 !", "refused 20"),
    ("place -32768 !", "refused 20"),
    ("place 32767 !", "refused 20"),
    ("place 65535 !", "refused 20"),
    ("place -32769 !", "refused 20"),
    ("place 65536 !", "refused 20"),
    ("place -2147483648 !", "refused 20"),
    ("place 2147483647 !", "refused 20"),
    // A number without its flag is no scaling value: 0, in range, and outside both ways.
    ("place - !0", "refused 20"),
    ("place - !1", "refused 20"),
    ("place - !32768", "refused 20"),
    ("place - !55200", "refused 20"),
    ("place - !65535", "refused 20"),
    ("place - !65536", "refused 20"),
    ("place - !2147483647", "refused 20"),
    ("place - !-1", "refused 20"),
    ("place - !-2147483648", "refused 20"),
    ("place 0 !0", "refused 20"),
    ("place 5 !0", "refused 20"),
    ("place 5 !32768", "refused 20"),
    ("place 5 !65535", "refused 20"),
    ("place 5 !65536", "refused 20"),
    ("place 5 !-1", "refused 20"),
    ("place -5 !55200", "refused 20"),
    // Raw outside as well.
    ("place 65536 !0", "refused 20"),
    ("place 65536 !32768", "refused 20"),
    ("place 65536 !65536", "refused 20"),
    ("place 70000 !-1", "refused 20"),
    ("place -32769 !0", "refused 20"),
    ("place -32769 !55200", "refused 20"),
    ("place -32769 !70000", "refused 20"),
    ("place -2147483648 !-2147483648", "refused 20"),
    ("place 2147483647 !2147483647", "refused 20"),
    // Absent with everything.
    ("place . !0", "absent"),
    ("place . !32768", "absent"),
    ("place . !65535", "absent"),
    ("place . !65536", "absent"),
    ("place . !-1", "absent"),
    ("place . !2147483647", "absent"),
    ("place . !-2147483648", "absent"),
    ("place . 0", "absent"),
    ("place . 32768", "absent"),
    ("place . 65535", "absent"),
    ("place . 65536", "absent"),
    ("place . -1", "absent"),
    ("place . 2147483647", "absent"),
    ("place . -2147483648", "absent"),
    // 0 with its flag is E 0, F 0, scale 2^-16: raw * 65536 * 1000.
    ("place - 0", "thousandths 65536000"),
    ("place 1 0", "thousandths 65536000"),
    ("place -1 0", "thousandths -65536000"),
    ("place 0 0", "thousandths 0"),
    ("place 65535 0", "thousandths 4294901760000"),
    ("place -32768 0", "thousandths -2147483648000"),
    ("place 65536 0", "refused 12 raw"),
    ("place -32769 0", "refused 12 raw"),
    // E 0, F 1: 2^27 * 1000 / 2049. 2049 * 65504015 is 134217726735, which leaves 1265 of
    // 134217728000, more than a half of 2049.
    ("place - 1", "thousandths 65504016"),
    // 32768 with its flag is E 16, F 0, scale 1: a constant is 1, in thousandths 1000.
    ("place - 32768", "thousandths 1000"),
    ("place 5 32768", "thousandths 5000"),
    ("place -5 32768", "thousandths -5000"),
    ("place 0 32768", "thousandths 0"),
    ("place 65535 32768", "thousandths 65535000"),
    ("place 65536 32768", "refused 12 raw"),
    ("place -32769 32768", "refused 12 raw"),
    // 65535 is E 31, F 2047, scale 65520: 1000 / 65520 is below a half, 32768000 / 65520 is
    // 500 and 8000 / 65520, 65535000 / 65520 is 1000 and 15000 / 65520.
    ("place - 65535", "thousandths 0"),
    ("place -32768 65535", "thousandths -500"),
    ("place 65535 65535", "thousandths 1000"),
    ("place 65536 65535", "refused 12 raw"),
    // Given and out of range is 12, for a constant too; raw is judged before it.
    ("place - 65536", "refused 12 E"),
    ("place - -1", "refused 12 E"),
    ("place - 2147483647", "refused 12 E"),
    ("place - -2147483648", "refused 12 E"),
    ("place 5 65536", "refused 12 E"),
    ("place 5 -1", "refused 12 E"),
    ("place 5 -32768", "refused 12 E"),
    ("place 65536 65536", "refused 12 raw"),
    ("place 70000 -1", "refused 12 raw"),
    ("place -32769 -1", "refused 12 raw"),
    // `-0` is 0, as a place, as a scaling value and as a number without its flag.
    ("place -0 !", "refused 20"),
    ("place - !-0", "refused 20"),
    ("place - -0", "thousandths 65536000"),
    ("place -0 -0", "thousandths 0"),
    // From raw, E and F it is as it was: 12 only, and scale 1 and scale 2^-16 are read.
    ("thousandths 1 16 0", "thousandths 1000"),
    ("thousandths 1 0 0", "thousandths 65536000"),
    ("thousandths 65536 0 0", "refused 12 raw"),
    ("thousandths 1 32 0", "refused 12 E"),
    ("thousandths 1 0 2048", "refused 12 F"),
];

/// C.1 with all of its 475 points, the third one standing for those not printed.
fn whole_annex_record(comparison: &mut Comparison) {
    let header = "53444900 20313000 C0C0 80F998 80F998 84B480 6000000300 00 00 0001DB";
    let points = "82078BCB003F 82098BCB0135".to_string() + &" 820F8BE8013C".repeat(473);
    let said = "X.scaling=63896 Y.scaling=63896 DT.scaling=46208.constant F.minimum=0.maximum=768";
    comparison.ask_typed(
        ANNEX,
        &format!("whole {header} {points}"),
        &format!("record 2879 475 plain full {said}"),
    );
    comparison.ask_typed(
        ANNEX,
        &format!("point 474 {header} {points}"),
        "point 527 3048 . . . . . . - 316 . . . . . .",
    );
}

fn listings(comparison: &mut Comparison) {
    let paper = "record 0 21 1\npoint 0 -1 0\nshort 21\n";
    comparison.list_typed(SCOPE, &[P8, &[0x53]].concat(), paper);
    comparison.list_typed(SCOPE, &[], "end 0\n");
    comparison.list_typed(SCOPE, M, "record 0 17 0\nend 17\n");
    comparison.list_typed(SCOPE, &M[..16], "short 0\n");
    comparison.list_typed(SCOPE, &[0x53, 0x45], "refused 2 1\n");
    comparison.list_typed(
        SCOPE,
        &[M, &[0x53, 0x45]].concat(),
        "record 0 17 0\nrefused 2 18\n",
    );
    comparison.list_typed(SCOPE, &vec![0; 65537], "large\n");
    comparison.list_typed(SCOPE, &vec![0; 65536], "refused 2 0\n");
    // P9, then the record of sixteen million points without bytes, which has no point lines.
    let p9 = [&M[..10], &[4], &M[11..16], &[1, 0x80, 0x05]].concat();
    comparison.list_typed(SCOPE, &p9, "record 0 19 1\npoint 0 - 5\nend 19\n");
    let empty = [&M[..10], &[4, 4, 0, 0, 0xFF, 0xFF, 0xFF]].concat();
    comparison.list_typed(SCOPE, &empty, "record 0 17 16777215\nend 17\n");
}

pub const NO_QUESTION: &str = "cannot read: no such question";
pub const MISSING: &str = "cannot read: a word is missing";
pub const NOT_NUMBER: &str = "cannot read: not a number";
pub const NOT_BYTES: &str = "cannot read: not bytes";
pub const NOT_PLACE: &str = "cannot read: not a place";
pub const NOT_CHANNEL: &str = "cannot read: not a channel";
pub const TOO_MANY: &str = "cannot read: a word too many";

/// Each row of the paper's table in several forms.
pub const UNREADABLE: Typed = &[
    ("", NO_QUESTION),
    ("   ", NO_QUESTION),
    ("\t\r ", NO_QUESTION),
    ("Judge 53", NO_QUESTION),
    ("judge53", NO_QUESTION),
    ("judges 53", NO_QUESTION),
    ("jud ge 53", NO_QUESTION),
    ("53 44 49 00", NO_QUESTION),
    ("!judge", NO_QUESTION),
    ("writetemplate ! 5 !", NO_QUESTION),
    ("write_template ! 5 !", NO_QUESTION),
    ("record 17 0 plain full X Y", NO_QUESTION),
    ("lookup 0 53", NO_QUESTION),
    ("look_up 0 53", NO_QUESTION),
    ("look up 0 53", NO_QUESTION),
    ("Look-up 0 53", NO_QUESTION),
    ("look-up0 53", NO_QUESTION),
    ("look- 0 53", NO_QUESTION),
    ("point", MISSING),
    ("look-up", MISSING),
    ("look-up  \t", MISSING),
    ("step", MISSING),
    ("write", MISSING),
    ("write 0", MISSING),
    ("write 0 -", MISSING),
    ("write 0 - !", MISSING),
    ("write-template", MISSING),
    ("write-template !", MISSING),
    ("thousandths", MISSING),
    ("thousandths 1", MISSING),
    ("thousandths 1 2", MISSING),
    ("place", MISSING),
    ("place .", MISSING),
    ("place 5", MISSING),
    ("point x 53", NOT_NUMBER),
    ("point -1 53", NOT_NUMBER),
    ("point - 53", NOT_NUMBER),
    ("point +1 53", NOT_NUMBER),
    ("point 1.0 53", NOT_NUMBER),
    ("point 0x1 53", NOT_NUMBER),
    ("point 1234567890123456789 53", NOT_NUMBER),
    ("point 0000000000000000000 53", NOT_NUMBER),
    ("look-up x 53", NOT_NUMBER),
    ("look-up -1 53", NOT_NUMBER),
    ("look-up - 53", NOT_NUMBER),
    ("look-up ! 53", NOT_NUMBER),
    ("look-up +1 53", NOT_NUMBER),
    ("look-up 1.0 53", NOT_NUMBER),
    ("look-up 0x1 53", NOT_NUMBER),
    ("look-up 5A", NOT_NUMBER),
    ("look-up 1000000000000000000 53", NOT_NUMBER),
    ("look-up 0000000000000000000 53", NOT_NUMBER),
    ("look-up 9223372036854775807 53", NOT_NUMBER),
    ("look-up 9223372036854775808 53", NOT_NUMBER),
    ("look-up 18446744073709551615 53", NOT_NUMBER),
    ("look-up 18446744073709551616", NOT_NUMBER),
    ("step x 53", NOT_NUMBER),
    ("step -1 53", NOT_NUMBER),
    ("step 1234567890123456789 53", NOT_NUMBER),
    ("write x - ! 20 X Y", NOT_NUMBER),
    ("write -1 - ! 20 X Y", NOT_NUMBER),
    ("write ! - ! 20 X Y", NOT_NUMBER),
    ("write 0 x ! 20 X Y", NOT_NUMBER),
    ("write 0 , ! 20 X Y", NOT_NUMBER),
    ("write 0 1, ! 20 X Y", NOT_NUMBER),
    ("write 0 ,1 ! 20 X Y", NOT_NUMBER),
    ("write 0 1,,2 ! 20 X Y", NOT_NUMBER),
    ("write 0 1,-,2 ! 20 X Y", NOT_NUMBER),
    ("write 0 --1 ! 20 X Y", NOT_NUMBER),
    ("write 0 2147483648 ! 20 X Y", NOT_NUMBER),
    ("write 0 -2147483649 ! 20 X Y", NOT_NUMBER),
    ("write 0 ! ! 20 X Y", NOT_NUMBER),
    ("write 0 - ! x X Y", NOT_NUMBER),
    ("write 0 - ! -1 X Y", NOT_NUMBER),
    ("write 0 - ! 131073 X Y", NOT_NUMBER),
    ("write 0 - ! X Y", NOT_NUMBER),
    ("write-template x 5 !", NOT_NUMBER),
    ("write-template -1 5 !", NOT_NUMBER),
    ("write-template 4294967296 5 !", NOT_NUMBER),
    ("write-template !4294967296 5 !", NOT_NUMBER),
    ("write-template !x 5 !", NOT_NUMBER),
    ("write-template !! 5 !", NOT_NUMBER),
    ("write-template - 5 !", NOT_NUMBER),
    ("write-template 5 x !", NOT_NUMBER),
    ("write-template 5 131073 !", NOT_NUMBER),
    ("write-template 5 !", NOT_NUMBER),
    ("thousandths x 0 0", NOT_NUMBER),
    ("thousandths - 0 0", NOT_NUMBER),
    ("thousandths . 0 0", NOT_NUMBER),
    ("thousandths 1 -1 0", NOT_NUMBER),
    ("thousandths 1 0 -1", NOT_NUMBER),
    ("thousandths 1 x", NOT_NUMBER),
    ("thousandths 1 0 1234567890123456789", NOT_NUMBER),
    ("place . x", NOT_NUMBER),
    ("place . -", NOT_NUMBER),
    ("place . !x", NOT_NUMBER),
    ("place . !!", NOT_NUMBER),
    ("place . 2147483648", NOT_NUMBER),
    ("place . !2147483648", NOT_NUMBER),
    // A line that cannot be read isn't refused, also where there would be no calibration.
    ("place - !x", NOT_NUMBER),
    ("place 5 !!", NOT_NUMBER),
    ("place - !2147483648", NOT_NUMBER),
    ("place 5 !-2147483649", NOT_NUMBER),
    ("judge 5", NOT_BYTES),
    ("judge 534", NOT_BYTES),
    ("judge 5 3", NOT_BYTES),
    ("judge 53 4", NOT_BYTES),
    ("judge 5G", NOT_BYTES),
    ("judge 53,44", NOT_BYTES),
    ("judge 0x53", NOT_BYTES),
    ("judge -", NOT_BYTES),
    ("judge !", NOT_BYTES),
    ("whole xx", NOT_BYTES),
    ("extended xx", NOT_BYTES),
    ("rest xx", NOT_BYTES),
    ("template xx", NOT_BYTES),
    ("template B1 0", NOT_BYTES),
    ("point 0 xx", NOT_BYTES),
    ("look-up 0 xx", NOT_BYTES),
    ("look-up 0 5", NOT_BYTES),
    ("look-up 0 53 4", NOT_BYTES),
    ("look-up 0 -", NOT_BYTES),
    ("look-up 0 !", NOT_BYTES),
    // Also where the bytes before already decide.
    ("look-up 0 00 x", NOT_BYTES),
    ("step 0 xx", NOT_BYTES),
    ("write 0 - x 20 X Y", NOT_BYTES),
    ("write 0 - A 20 X Y", NOT_BYTES),
    ("write 0 - !A 20 X Y", NOT_BYTES),
    ("write 0 - !! 20 X Y", NOT_BYTES),
    ("write 0 - -- 20 X Y", NOT_BYTES),
    ("write 0 - AB- 20 X Y", NOT_BYTES),
    ("place x !", NOT_PLACE),
    ("place ! !", NOT_PLACE),
    ("place .. !", NOT_PLACE),
    ("place -- !", NOT_PLACE),
    ("place +5 !", NOT_PLACE),
    ("place x", NOT_PLACE),
    ("place 1234567890123456789 !", NOT_PLACE),
    ("write 0 - ! 20 x Y", NOT_CHANNEL),
    ("write 0 - ! 20 X Y !", NOT_CHANNEL),
    ("write 0 - ! 20 XY", NOT_CHANNEL),
    ("write 0 - ! 20 X Y AZ", NOT_CHANNEL),
    ("write 0 - ! 20 X Y EL", NOT_CHANNEL),
    ("write 0 - ! 20 X Y W", NOT_CHANNEL),
    ("write 0 - ! 20 X. Y", NOT_CHANNEL),
    ("write 0 - ! 20 .X Y", NOT_CHANNEL),
    ("write 0 - ! 20 X..constant Y", NOT_CHANNEL),
    ("write 0 - ! 20 X.const Y", NOT_CHANNEL),
    ("write 0 - ! 20 X.constant=1 Y", NOT_CHANNEL),
    ("write 0 - ! 20 X.removed=1 Y", NOT_CHANNEL),
    ("write 0 - ! 20 X.mean Y", NOT_CHANNEL),
    ("write 0 - ! 20 X.mean= Y", NOT_CHANNEL),
    ("write 0 - ! 20 X.mean=x Y", NOT_CHANNEL),
    ("write 0 - ! 20 X.mean=+1 Y", NOT_CHANNEL),
    ("write 0 - ! 20 X.mean=1=2 Y", NOT_CHANNEL),
    ("write 0 - ! 20 X.mean=2147483648 Y", NOT_CHANNEL),
    ("write 0 - ! 20 X.mean=-2147483649 Y", NOT_CHANNEL),
    ("write 0 - ! 20 X.!mean=2147483648 Y", NOT_CHANNEL),
    ("write 0 - ! 20 X.Mean=1 Y", NOT_CHANNEL),
    ("write 0 - ! 20 X.=1 Y", NOT_CHANNEL),
    ("write 0 - ! 20 !!X Y", NOT_CHANNEL),
    ("write 0 - ! 20 X.!!mean=1 Y", NOT_CHANNEL),
    ("write 0 - ! 20 X,Y", NOT_CHANNEL),
    ("write-template 5 9 X Y !", NOT_CHANNEL),
    ("write-template 5 9 ! !", NOT_CHANNEL),
    ("write-template 5 9 ! x", NOT_CHANNEL),
    ("thousandths 1 2 3 4", TOO_MANY),
    ("thousandths 1 2 3 x", TOO_MANY),
    ("place . ! .", TOO_MANY),
    ("place 5 5 !", TOO_MANY),
    ("place 5 ! 5", TOO_MANY),
    ("place - ! !", TOO_MANY),
    // The first word that cannot be read decides.
    ("write x , A -1 W", NOT_NUMBER),
    ("write 0 - A -1 W", NOT_BYTES),
    ("write 0 - ! -1 W", NOT_NUMBER),
    ("write x", NOT_NUMBER),
    ("point x xx", NOT_NUMBER),
    ("look-up x xx", NOT_NUMBER),
    ("place x x x", NOT_PLACE),
    ("place 5 x x", NOT_NUMBER),
    ("thousandths 1 2 x 4", NOT_NUMBER),
    // And lines that can be read.
    (" \tthousandths\t3\r26  1952\r", "thousandths 2"),
    ("thousandths 000000000000000003 26 1952", "thousandths 2"),
    ("look-up -0 53 45", "refused 2 1 looked 2"),
    ("look-up 000000000000000000 53 45", "refused 2 1 looked 2"),
    ("look-up 999999999999999999 53 45", "refused 2 1 looked 2"),
    ("\tlook-up\r0  5 3", NOT_BYTES),
    ("\tlook-up\r0  53\t\t4f ", "refused 2 1 looked 2"),
    ("template b1 03 82 01 6a", "template 106 !"),
    ("template b1038201 6A", "template 106 !"),
    ("write 0 - ! 2", "refused 4 AAAA"),
    ("write 0 - ! 0", "refused 4 -"),
    ("write-template ! 2", "refused 4 AAAA"),
    ("write-template ! 3 !", "written 2 B100AA"),
    (
        "write 0 - ! 17 Y X",
        "written 17 5344490020313000C00000000000000000",
    ),
    ("write 0 - ! 1 X Y !X", "refused 4 AA"),
    ("write 0 - ! 1 X Y Z !Z.constant", "refused 11 AA"),
    ("write 0 - ! 1 X.mean=70000.mean=5 Y", "refused 15 AA"),
    ("write 0 - ! 1 X.mean=70000 X Y", "refused 15 AA"),
    ("write 0 - ! 1 X.mean=5.!mean=0 Y", "refused 15 AA"),
    ("write 0 - ! 1 X.mean=5.!mean=5 Y", "refused 11 AA"),
    // `X.!constant` is `X`.
    (
        "write 1 5,6 ! 21 X.!constant Y",
        "written 21 5344490020313000C0000000000000000180058006",
    ),
    (
        "write 1 5,6 ! 21 X.constant.!constant Y.!removed",
        "written 21 5344490020313000C0000000000000000180058006",
    ),
    (
        "write 1 6 ! 19 X.!constant.constant Y",
        "written 19 5344490020313000C000040000000000018006",
    ),
    (
        "write 0 - ! 17 X Y !Z.!constant",
        "written 17 5344490020313000C00000000000000000",
    ),
    ("write 0 - ! 1 !X.!constant Y", "refused 4 AA"),
    (
        "write-template ! 8 X.!constant Y",
        "written 8 B1068104C0000000",
    ),
    ("place . 70000", "absent"),
    ("place - !70000", "refused 20"),
    ("place 5 -1", "refused 12 E"),
    ("place 65536 !", "refused 20"),
];
