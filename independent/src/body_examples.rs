//! Request L4: answers typed from the specification of compact bodies and from the paper on `ask`,
//! never worked out here. Its section 8 comes first in each table.

use crate::compare::Comparison;
use crate::examples::{Typed, BODIES};
use crate::examples::{MISSING, NOT_BYTES, NOT_CHANNEL, NOT_NUMBER, NO_QUESTION};

/// Reading and writing.
pub const BODY_EXAMPLES: Typed = &[
    ("body B1068104C0000000", "body 0 compact X Y"),
    ("body B1068104C0000000 7F 80", "body 1 compact X Y"),
    ("body B1068104C0000000 7F 80 80", "refused 1"),
    (
        "body B1098107C080000084B480 AC F2 A9 F2",
        "body 2 compact X Y DT.scaling=46208.constant",
    ),
    ("body B1098107C080000084B480 AC F2 A9", "refused 1"),
    (
        "body B1068104C0000404",
        "body 0 compact X.constant Y.constant",
    ),
    ("body B1068104C0000404 00", "refused 9 0"),
    (
        "body B1078105C020000000 80 80 01 80 80 00",
        "body 2 compact X Y S",
    ),
    ("body B1078105C020000000 80 80 02", "refused 8 2"),
    ("body B1078105C020000000 80 80 80", "refused 8 2"),
    ("body B1078105C020000000 80 80 00 80 80 FF", "refused 8 5"),
    ("body B1078105C020000000 80 80 00 80 80", "refused 1"),
    ("body B1088106C03000000000 80 80 02", "refused 8 2"),
    ("body B1098104C0000000820101 80 80", "body 1 compact X Y"),
    ("body B1098104C0000000820101 80 80 80 80", "refused 18"),
    ("body B1098104C0000000820101 80 80 80", "refused 1"),
    ("body B1098104C0000000820100", "body 0 compact X Y"),
    ("body B1098104C0000000820100 80 80", "refused 18"),
    (
        "body B10A8105C020000000820101 80 80 00 80 80 02",
        "refused 8 5",
    ),
    ("body - 80 80", "template refused 1"),
    ("body B100 80 80", "template refused 16"),
    ("body B103820164", "template refused 16"),
    ("body B103810140", "template refused 4 4"),
    ("body B1068104C000000000", "template refused 9 8"),
    ("body B10482020064", "template refused 18"),
    // Its points: X 44, Y 114, DT constant; X 41, Y 114, DT constant.
    (
        "body-point 0 B1098107C080000084B480 AC F2 A9 F2",
        "point 44 114 . . . . . . - . . . . . . .",
    ),
    (
        "body-point 1 B1098107C080000084B480 AC F2 A9 F2",
        "point 41 114 . . . . . . - . . . . . . .",
    ),
    (
        "body-point 2 B1098107C080000084B480 AC F2 A9 F2",
        "refused 10",
    ),
    ("body-point 0 B1098107C080000084B480 AC F2 A9", "refused 1"),
    (
        "body-point 0 B1068104C0000000 7F 80",
        "point -1 0 . . . . . . . . . . . . . .",
    ),
    (
        "body-point 0 B1068104C0000000 00 FF",
        "point -128 127 . . . . . . . . . . . . . .",
    ),
    ("body-point 0 B1068104C0000000", "refused 10"),
    ("body-point 0 B1068104C0000404", "refused 10"),
    ("body-point 0 B1068104C0000404 00", "refused 9 0"),
    (
        "body-point 1 B1078105C020000000 80 80 01 80 80 00",
        "point 0 0 . . . . . . . . 0 . . . . .",
    ),
    // A wrong S in another point is seen: the whole body is judged.
    (
        "body-point 0 B1078105C020000000 80 80 01 80 80 02",
        "refused 8 5",
    ),
    (
        "body-point 9 B1078105C020000000 80 80 01 80 80 02",
        "refused 8 5",
    ),
    (
        "body-point 0 B1098104C0000000820101 80 80 80 80",
        "refused 18",
    ),
    (
        "body-point 9 B1098104C0000000820101 80 80 80 80",
        "refused 18",
    ),
    (
        "body-point 999999999999999999 B1068104C0000000 80 80",
        "refused 10",
    ),
    ("body-point 4294967296 B1068104C0000000 80 80", "refused 10"),
    ("body-point 0 - 80", "template refused 1"),
    ("body-point 0 B100", "template refused 16"),
    ("body-point 7 B1068104C000000000", "template refused 9 8"),
    // Z goes to 255, and T is handed out as it is stored.
    (
        "body-point 1 B1078105E000000000 80 80 80 80 80 FF",
        "point 0 0 255 . . . . . . . . . . . . .",
    ),
    (
        "body-point 1 B1078105C100000000 80 80 05 80 80 05",
        "point 0 0 . . . . . 5 . . . . . . . .",
    ),
    // X constant, Y constant, and S alone.
    (
        "body-point 0 B1068104C0000400 85",
        "point - 5 . . . . . . . . . . . . . .",
    ),
    (
        "body-point 2 B1078105C020040400 00 00 01",
        "point - - . . . . . . . . 1 . . . . .",
    ),
    ("body B1078105C020040400 00 00 80", "refused 8 2"),
    // A wrong S in an unfinished point, first of it or not; one that isn't there.
    ("body B1088106C02104040000 01", "refused 1"),
    ("body B1088106C02104040000 02", "refused 8 0"),
    ("body B1088106C02104040000 01 FF 03", "refused 8 2"),
    // S constant: its byte is no state.
    (
        "body B1088106C02100000400 80 80 02",
        "body 1 compact X Y S.constant R",
    ),
    // 9 before 18, and all constant under any maximum.
    ("body B1098104C0000404820100 80", "refused 9 0"),
    (
        "body B1098104C0000404820100",
        "body 0 compact X.constant Y.constant",
    ),
    // The template's own, before anything of the body: 16, 17, 5 and 1 again.
    ("body 00 02", "template refused 16"),
    ("body B1 02", "template refused 1"),
    ("body B181 02", "template refused 17"),
    ("body B1078104C000000000 02", "template refused 16"),
    ("body B1068104C0000100 02", "template refused 5 6"),
    ("body B1078105C000000000 02", "template refused 17"),
    // Written.
    (
        "write-body 1 -1,0 ! 2 B1 06 81 04 C0 00 00 00",
        "written 2 7F80",
    ),
    (
        "write-body 1 -128,127 ! 9 B1 06 81 04 C0 00 00 00",
        "written 2 00FFAAAAAAAAAAAAAA",
    ),
    ("write-body 0 - ! 0 B1 06 81 04 C0 00 00 00", "written 0 -"),
    (
        "write-body 1 -1,0 ! 1 B1 06 81 04 C0 00 00 00",
        "refused 15 AA",
    ),
    (
        "write-body 1 -1 ! 0 B1 06 81 04 C0 00 00 00",
        "refused 13 -",
    ),
    (
        "write-body 1 128,999 ! 0 B1 06 81 04 C0 00 00 00",
        "refused 21 value 0 X -",
    ),
    (
        "write-body 2 0,0,0,-129 ! 0 B1 06 81 04 C0 00 00 00",
        "refused 21 value 3 Y -",
    ),
    (
        "write-body 16777216 - ! 0 B1 06 81 04 C0 00 00 00",
        "refused 21 count -",
    ),
    (
        "write-body 16777215 - ! 0 B1 06 81 04 C0 00 00 00",
        "refused 13 -",
    ),
    (
        "write-body 1 999 ! 0 B1 06 81 04 C0 00 00 00",
        "refused 13 -",
    ),
    (
        "write-body 1 0,0 - 0 B1 06 81 04 C0 00 00 00",
        "refused 21 extended -",
    ),
    (
        "write-body 1 0,200 - 0 B1 06 81 04 C0 00 00 00",
        "refused 21 value 1 Y -",
    ),
    ("write-body 0 - ! 0 B1 06 81 04 C0 00 04 04", "written 0 -"),
    (
        "write-body 1 - ! 0 B1 06 81 04 C0 00 04 04",
        "refused 21 count -",
    ),
    (
        "write-body 1 5 ! 0 B1 06 81 04 C0 00 04 04",
        "refused 21 count -",
    ),
    (
        "write-body 1 0,0,2 ! 9 B1 07 81 05 C0 20 00 00 00",
        "refused 21 value 2 S AAAAAAAAAAAAAAAAAA",
    ),
    (
        "write-body 1 0,0,1 ! 9 B1 07 81 05 C0 20 00 00 00",
        "written 3 808001AAAAAAAAAAAA",
    ),
    (
        "write-body 2 0,0,0,0 ! 0 B1 09 81 04 C0 00 00 00 82 01 01",
        "refused 18 -",
    ),
    (
        "write-body 2 0,0,0,0 AB 0 B1 09 81 04 C0 00 00 00 82 01 01",
        "refused 21 extended -",
    ),
    (
        "write-body 2 0,0,0 ! 9 B1 09 81 04 C0 00 00 00 82 01 01",
        "refused 13 AAAAAAAAAAAAAAAAAA",
    ),
    (
        "write-body 1 0,0 ! 2 B1 09 81 04 C0 00 00 00 82 01 01",
        "written 2 8080",
    ),
    ("write-body 0 - ! 0 B1 00", "template refused 16 -"),
    ("write-body 99999999 - ! 0", "template refused 1 -"),
    // The template's refusals with their places, and a room that stays as it was.
    (
        "write-body 0 - ! 2 B1 03 81 01 40",
        "template refused 4 4 AAAA",
    ),
    (
        "write-body 1 999 - 1 B1 06 81 04 C0 00 00 00 00",
        "template refused 9 8 AA",
    ),
    (
        "write-body 1 999 - 1 B1 03 82 01 64",
        "template refused 16 AA",
    ),
    // Bytes lent where none are wanted don't count; 18 before 15, and 15 alone.
    (
        "write-body 1 5,6 !AB 3 B1 06 81 04 C0 00 00 00",
        "written 2 8586AA",
    ),
    (
        "write-body 1 5,6 !- 3 B1 06 81 04 C0 00 00 00",
        "written 2 8586AA",
    ),
    (
        "write-body 1 5,6 ! 1 B1 09 81 04 C0 00 00 00 82 01 00",
        "refused 18 AA",
    ),
    (
        "write-body 2 0,0,0,0 ! 3 B1 09 81 04 C0 00 00 00 82 01 02",
        "refused 15 AAAAAA",
    ),
    (
        "write-body 0 - ! 1 B1 09 81 04 C0 00 00 00 82 01 00",
        "written 0 AA",
    ),
    (
        "write-body 0 - - 1 B1 09 81 04 C0 00 00 00 82 01 00",
        "refused 21 extended AA",
    ),
    // The count is behind the template and before 13, whatever the template's maximum.
    (
        "write-body 16777216 5 - 1 B1 09 81 04 C0 00 00 00 82 01 01",
        "refused 21 count AA",
    ),
    (
        "write-body 999999999999999999 5 ! 1 B1 06 81 04 C0 00 00 00",
        "refused 21 count AA",
    ),
    (
        "write-body 16777215 - AB 1 B1 06 81 04 C0 00 04 04",
        "refused 21 count AA",
    ),
    (
        "write-body 0 5 ! 1 B1 06 81 04 C0 00 04 04",
        "refused 13 AA",
    ),
    (
        "write-body 0 - AB 1 B1 06 81 04 C0 00 04 04",
        "refused 21 extended AA",
    ),
    // The ends of Z, and an index that does not begin again with each point.
    (
        "write-body 2 0,0,0,0,0,255 ! 6 B1 07 81 05 E0 00 00 00 00",
        "written 6 8080008080FF",
    ),
    (
        "write-body 2 0,0,255,0,0,256 ! 6 B1 07 81 05 E0 00 00 00 00",
        "refused 21 value 5 Z AAAAAAAAAAAA",
    ),
    (
        "write-body 2 0,0,-1,0,0,256 ! 0 B1 07 81 05 E0 00 00 00 00",
        "refused 21 value 2 Z -",
    ),
    // Constant channels have no value: 0 is Y's.
    (
        "write-body 2 0,128 ! 0 B1 06 81 04 C0 00 04 00",
        "refused 21 value 1 Y -",
    ),
];

/// Full records turned.
pub const TURN_EXAMPLES: Typed = &[
    (
        "turn 8 0 53 44 49 00 20 31 30 00 C0 00 00 00 00 00 00 00 00",
        "turned 8 0 B1068104C0000000 -",
    ),
    (
        "turn 8 2 53 44 49 00 20 31 30 00 C0 00 00 00 00 00 00 00 01 7F FF 80 00",
        "turned 8 2 B1068104C0000000 7F80",
    ),
    (
        "turn 7 2 53 44 49 00 20 31 30 00 C0 00 00 00 00 00 00 00 01 7F FF 80 00",
        "refused 15 AAAAAAAAAAAAAA AAAA",
    ),
    (
        "turn 8 1 53 44 49 00 20 31 30 00 C0 00 00 00 00 00 00 00 01 7F FF 80 00",
        "refused 15 AAAAAAAAAAAAAAAA AA",
    ),
    (
        "turn 0 0 53 44 49 00 20 31 30 00 C0 00 00 00 00 00 00 00 01 7F FF 80",
        "refused 1 - -",
    ),
    (
        "turn 0 0 53 44 49 00 20 31 30 00 C0 00 00 00 00 00 00 00 01 7F FF 80 00 00",
        "refused 9 21 - -",
    ),
    (
        "turn 0 0 53 44 49 00 20 31 30 00 40 00 00 00 00 00 00 00 00",
        "refused 4 8 - -",
    ),
    (
        "turn 0 0 53 44 49 00 20 31 30 00 C0 00 00 00 00 00 00 00 01 80 80 80 00",
        "refused 21 value 0 X - -",
    ),
    (
        "turn 0 0 53 44 49 00 20 31 30 00 C0 00 00 00 00 00 00 00 01 80 7F 7F 7F",
        "refused 21 value 1 Y - -",
    ),
    (
        "turn 9 3 53 44 49 00 20 31 30 00 C0 00 04 00 00 00 00 00 01 80 05",
        "turned 8 1 B1068104C0000400AA 85AAAA",
    ),
    (
        "turn 9 3 53 44 49 00 20 31 30 00 C0 00 04 04 00 00 00 00 00",
        "turned 8 0 B1068104C0000404AA AAAAAA",
    ),
    (
        "turn 9 3 53 44 49 00 20 31 30 00 C0 00 04 04 00 00 00 00 01",
        "refused 21 count AAAAAAAAAAAAAAAAAA AAAAAA",
    ),
    (
        "turn 2 3 53 44 49 00 20 31 30 00 C0 00 00 00 00 80 00 00 00 00 00",
        "refused 21 extended AAAA AAAAAA",
    ),
    (
        "turn 2 3 53 44 49 00 20 31 30 00 C0 00 00 00 00 80 00 00 01 80 80 80 00 00 00",
        "refused 21 value 0 X AAAA AAAAAA",
    ),
    (
        "turn 2 3 53 44 49 00 20 31 30 00 C0 00 40 7F 7F 00 00 00 00 00 00",
        "refused 21 X minimum AAAA AAAAAA",
    ),
    (
        "turn 9 1 53 44 49 00 20 31 30 00 C0 00 40 7F 80 00 00 00 00 00 00",
        "turned 9 0 B1078105C000400000 AA",
    ),
    (
        "turn 2 3 53 44 49 00 20 31 30 00 C0 00 08 01 00 00 00 00 00 00 00",
        "refused 21 X deviation AAAA AAAAAA",
    ),
    (
        "turn 12 1 53 44 49 00 20 31 30 00 C0 00 88 FF FF 00 FF 00 00 00 00 00 00",
        "turned 11 0 B1098107C00088FFFFFF00AA AA",
    ),
    (
        "turn 2 3 53 44 49 00 20 31 30 00 C0 00 00 20 81 00 00 00 00 00 01 FF FF 80 00",
        "refused 21 Y maximum AAAA AAAAAA",
    ),
    (
        "turn 10 9 53 44 49 00 20 31 30 00 C1 00 00 00 00 00 00 00 00 03 80 00 80 00 00 00 \
         80 00 80 00 00 0A 80 00 80 00 00 14",
        "turned 9 9 B1078105C100000000AA 80800080800A808014",
    ),
    // The other whole slice's own refusals, and what is judged before what.
    ("turn 1 2", "refused 1 AA AAAA"),
    ("turn 1 0 53 45", "refused 2 1 AA -"),
    ("turn 0 1 53 44 49 00 21", "refused 3 4 - AA"),
    (
        "turn 0 0 53444900 20313000 C000 00 01 00 00 000000",
        "refused 5 11 - -",
    ),
    (
        "turn 0 0 53444900 20313000 C000 00 00 01 00 000000",
        "refused 6 12 - -",
    ),
    (
        "turn 0 0 53444900 20313000 C000 00 00 00 01 000000",
        "refused 7 13 - -",
    ),
    // 8 and 9 before an attribute that doesn't fit.
    (
        "turn 0 0 53444900 20313000 C020 40FFFF 00 00 00 00 000001 8000 8000 02",
        "refused 8 24 - -",
    ),
    (
        "turn 0 0 53444900 20313000 C000 40FFFF 00 00 00 000000 00",
        "refused 9 19 - -",
    ),
    // Attributes before the count, the count before extended data.
    (
        "turn 0 0 53444900 20313000 C000 04 14FFFF 00 80 000001 0000",
        "refused 21 Y mean - -",
    ),
    (
        "turn 0 0 53444900 20313000 C000 04 04 00 80 000001 0000",
        "refused 21 count - -",
    ),
    (
        "turn 0 0 53444900 20313000 C000 04 04 00 80 000000 0001 AB",
        "refused 21 extended - -",
    ),
    (
        "turn 99 99 53444900 20313000 C000 04 04 00 00 FFFFFF",
        "refused 21 count \
         AAAAAAAAAAAAAAAAAAAAAAAAAAAAAAAAAAAAAAAAAAAAAAAAAAAAAAAAAAAAAAAAAAAAAAAAAAAAAAAAAAAAAAAAAAAA\
         AAAAAAAAAAAAAAAAAAAAAAAAAAAAAAAAAAAAAAAAAAAAAAAAAAAAAAAAAAAAAAAAAAAAAAAAAAAAAAAAAAAAAAAAAAAA\
         AAAAAAAAAAAAAA \
         AAAAAAAAAAAAAAAAAAAAAAAAAAAAAAAAAAAAAAAAAAAAAAAAAAAAAAAAAAAAAAAAAAAAAAAAAAAAAAAAAAAAAAAAAAAA\
         AAAAAAAAAAAAAAAAAAAAAAAAAAAAAAAAAAAAAAAAAAAAAAAAAAAAAAAAAAAAAAAAAAAAAAAAAAAAAAAAAAAAAAAAAAAA\
         AAAAAAAAAAAAAA",
    ),
    // Flags go over as they are, and S is one byte in both.
    (
        "turn 9 3 53444900 20313000 C020 02 00 00 00 00 000001 8005 7FFF 01",
        "turned 9 3 B1078105C020020000 857F01",
    ),
    // The second value of Y, and Z just above.
    (
        "turn 0 0 53444900 20313000 C000 00 00 00 00 000002 8000 8000 8000 7F7F",
        "refused 21 value 3 Y - -",
    ),
    (
        "turn 0 0 53444900 20313000 E000 00 00 00 00 00 000001 8000 8000 0100",
        "refused 21 value 2 Z - -",
    ),
];

/// Marks: said, left out, and those of the other format.
pub const MARK_EXAMPLES: Typed = &[
    (
        "write 0 - ! 17 full X Y",
        "written 17 5344490020313000C00000000000000000",
    ),
    ("write 0 - ! 1 compact X Y", "refused 11 AA"),
    (
        "write 0 - ! 19 full X.minimum=-129 Y",
        "written 19 5344490020313000C000407F7F000000000000",
    ),
    ("write 0 - ! 1 compact X.minimum=-129 Y", "refused 11 AA"),
    (
        "write 0 - ! 1 full X.minimum=-32769 Y",
        "refused 12 X minimum AA",
    ),
    (
        "write-template ! 8 compact X Y",
        "written 8 B1068104C0000000",
    ),
    ("write-template ! 1 full X Y", "refused 11 AA"),
    (
        "write-template ! 1 compact X.minimum=-129 Y",
        "refused 12 X minimum AA",
    ),
    ("write-template ! 1 full X", "refused 4 AA"),
    (
        "write-template 100 5 ! full X.minimum=-129 Y",
        "written 5 B103820164",
    ),
    ("write-template 100 5 ! compact", "written 5 B103820164"),
    ("write-template 100 5 ! full", "written 5 B103820164"),
    // By columns as by points; 4, then 11, then 12 and all that follows.
    (
        "write-columns 0 - ! 17 full X Y",
        "written 17 5344490020313000C00000000000000000",
    ),
    ("write-columns 0 - ! 1 compact X Y", "refused 11 AA"),
    ("write 0 - ! 1 compact X", "refused 4 AA"),
    ("write 0 - ! 1 compact", "refused 4 AA"),
    ("write 0 - ! 1 full", "refused 4 AA"),
    ("write-template ! 1 full", "refused 4 AA"),
    ("write-template ! 1 compact", "refused 4 AA"),
    ("write-columns 1 5 - 1 compact !X Y", "refused 4 AA"),
    ("write 16777216 5 ! 1 compact X Y", "refused 11 AA"),
    ("write 1 70000,0 ! 1 compact X Y", "refused 11 AA"),
    ("write 0 - ! 1 compact X.mean=70000 Y", "refused 11 AA"),
    ("write 0 - ! 1 compact X.!mean=5 Y", "refused 11 AA"),
    ("write 0 - ! 1 full X.!mean=5 Y", "refused 11 AA"),
    ("write-template 16777216 1 full X Y", "refused 11 AA"),
    (
        "write-template 16777216 1 ! full X Y",
        "refused 12 maximum AA",
    ),
    ("write-template ! 1 full X.mean=500 Y", "refused 11 AA"),
];

/// C.2.2 with all of its 475 points, the second one standing for those not printed.
pub fn annex_body(comparison: &mut Comparison) {
    let template = "B1098107C080000084B480";
    let body = "AC F2".to_string() + &" A9 F2".repeat(474);
    let said = "X Y DT.scaling=46208.constant";
    let mut typed = |line: &str, answer: &str| comparison.ask_typed(BODIES, line, answer);
    let good = format!("body 475 compact {said}");
    typed(&format!("body {template} {body}"), &good);
    typed(&format!("body {template} {body} 00"), "refused 1");
    let last = "point 41 114 . . . . . . - . . . . . . .";
    typed(&format!("body-point 474 {template} {body}"), last);
    typed(&format!("body-point 475 {template} {body}"), "refused 10");
    let values = "44,114".to_string() + &",41,114".repeat(474);
    let written = format!("written 950 {}", body.replace(' ', ""));
    typed(
        &format!("write-body 475 {values} ! 950 {template}"),
        &written,
    );
}

const SIGNED: &str = "F8 0001 8002 8003 8004 0005";
const UNSIGNED: &str = "F8 0001 0002 0003 0004 0005";

/// All channels with all attributes and one point: 81 has 114 bytes, the record 187, 4 and 31.
pub fn greatest(comparison: &mut Comparison) {
    let is_signed =
        |name: &str| matches!(name, "X" | "Y" | "VX" | "VY" | "AX" | "AY" | "TX" | "TY");
    let names: Vec<&str> = "X Y Z VX VY AX AY T DT F S TX TY Az El R"
        .split(' ')
        .collect();
    let of_each = |signed: &str, unsigned: &str| {
        let word = |name: &&str| if is_signed(name) { signed } else { unsigned }.to_string();
        names.iter().map(word).collect::<String>()
    };
    let said = of_each(SIGNED, UNSIGNED);
    let point = "8001 7FFE 0003 8004 8005 8006 8007 0008 0009 00FF 01 807F 7F80 000E 000F 0010";
    let record = format!("53444900 20313000 FFFF {said} 00 00 000001 {point}");
    let compact = of_each("F8000182838405", "F8000102030405");
    let template = format!("B1748172FFFF{compact}");
    let body = "817E03848586870809FF01FF000E0F10";
    let mut typed = |line: &str, answer: &str| comparison.ask_typed(BODIES, line, answer);
    let turned = format!("turned 118 16 {template} {body}");
    typed(&format!("turn 118 16 {record}"), &turned);
    let places = "1 -2 3 4 5 6 7 8 9 255 1 127 -128 14 15 16";
    let answer = format!("point {places}");
    typed(&format!("point 0 {record}"), &answer);
    typed(&format!("body-point 0 {template} {body}"), &answer);
    let values = places.replace(' ', ",");
    let written = format!("written 16 {body}");
    typed(&format!("write-body 1 {values} ! 16 {template}"), &written);
    // S's byte is the eleventh of a point.
    let wrong = format!("{body}{}02", &body[..20]);
    typed(&format!("body {template} {wrong}"), "refused 8 26");
    let cut = &wrong[..wrong.len() - 2];
    typed(&format!("body {template} {cut}"), "refused 1");
    // R's mean just above a byte; every other number fits.
    let (front, behind) = record.rsplit_once("0004 0005").unwrap_or_default();
    let above = format!("turn 0 1 {front}0100 0005{behind}");
    typed(&above, "refused 21 R mean - AA");
}

/// Lines of the four questions and of marks that cannot be read, and a few that can.
pub const BODY_UNREADABLE: Typed = &[
    ("bodies B100", NO_QUESTION),
    ("Body B100", NO_QUESTION),
    ("bodypoint 0 B100", NO_QUESTION),
    ("body_point 0 B100", NO_QUESTION),
    ("body-points 0 B100", NO_QUESTION),
    ("writebody 0 - ! 0 B100", NO_QUESTION),
    ("write_body 0 - ! 0 B100", NO_QUESTION),
    ("write-bodies 0 - ! 0 B100", NO_QUESTION),
    ("turned 0 0 53", NO_QUESTION),
    ("Turn 0 0 53", NO_QUESTION),
    ("full X Y", NO_QUESTION),
    ("compact", NO_QUESTION),
    ("body", MISSING),
    ("body  \t", MISSING),
    ("body-point", MISSING),
    ("body-point 0", MISSING),
    ("write-body", MISSING),
    ("write-body 0", MISSING),
    ("write-body 0 -", MISSING),
    ("write-body 0 - !", MISSING),
    ("turn", MISSING),
    ("turn 5", MISSING),
    ("body-point x B100", NOT_NUMBER),
    ("body-point -1 B100", NOT_NUMBER),
    ("body-point B100 80", NOT_NUMBER),
    ("body-point 1000000000000000000 B100", NOT_NUMBER),
    ("body-point - B100", NOT_NUMBER),
    ("write-body x - ! 0 B100", NOT_NUMBER),
    ("write-body -1 - ! 0 B100", NOT_NUMBER),
    ("write-body 0 x ! 0 B100", NOT_NUMBER),
    ("write-body 0 1, ! 0 B100", NOT_NUMBER),
    ("write-body 1 0,2147483648 ! 0 B100", NOT_NUMBER),
    ("write-body 0 - ! x B100", NOT_NUMBER),
    ("write-body 0 - ! 131073 B100", NOT_NUMBER),
    ("write-body 0 - ! B100", NOT_NUMBER),
    ("turn x 0 53", NOT_NUMBER),
    ("turn 0 x 53", NOT_NUMBER),
    ("turn -1 0 53", NOT_NUMBER),
    ("turn 0 -1 53", NOT_NUMBER),
    ("turn 131073 0 53", NOT_NUMBER),
    ("turn 0 131073 53", NOT_NUMBER),
    ("turn ! 0 53", NOT_NUMBER),
    ("turn 0 ! 53", NOT_NUMBER),
    ("turn 5A 0 53", NOT_NUMBER),
    ("turn x", NOT_NUMBER),
    ("body x", NOT_BYTES),
    ("body B", NOT_BYTES),
    ("body !", NOT_BYTES),
    ("body --", NOT_BYTES),
    ("body B100 8", NOT_BYTES),
    ("body B100 -", NOT_BYTES),
    ("body - -", NOT_BYTES),
    ("body B100 xx", NOT_BYTES),
    ("body-point 0 x", NOT_BYTES),
    ("body-point 0 !", NOT_BYTES),
    ("body-point 0 B1001", NOT_BYTES),
    ("body-point 0 B100 8", NOT_BYTES),
    ("body-point 0 B100 -", NOT_BYTES),
    ("write-body 0 - x 0 B100", NOT_BYTES),
    ("write-body 0 - !A 0 B100", NOT_BYTES),
    ("write-body 0 - !! 0 B100", NOT_BYTES),
    ("write-body 0 - ! 0 B10", NOT_BYTES),
    ("write-body 0 - ! 0 -", NOT_BYTES),
    ("write-body 0 - ! 0 X Y", NOT_BYTES),
    ("turn 0 0 5", NOT_BYTES),
    ("turn 0 0 -", NOT_BYTES),
    ("turn 0 0 0", NOT_BYTES),
    // A mark stands before all channels, once, in small letters, and behind `!`.
    ("write 0 - ! 20 X full Y", NOT_CHANNEL),
    ("write 0 - ! 20 X Y full", NOT_CHANNEL),
    ("write 0 - ! 20 X Y compact", NOT_CHANNEL),
    ("write 0 - ! 20 full full X Y", NOT_CHANNEL),
    ("write 0 - ! 20 full compact X Y", NOT_CHANNEL),
    ("write 0 - ! 20 Full X Y", NOT_CHANNEL),
    ("write 0 - ! 20 COMPACT X Y", NOT_CHANNEL),
    ("write 0 - ! 20 !full X Y", NOT_CHANNEL),
    ("write 0 - ! 20 full.constant X Y", NOT_CHANNEL),
    ("write 0 - ! 20 ! full X Y", NOT_CHANNEL),
    ("write 0 - ! full 20 X Y", NOT_NUMBER),
    ("write 0 - full 20 X Y", NOT_BYTES),
    ("write-columns 0 - ! 20 X compact Y", NOT_CHANNEL),
    ("write-columns 0 - ! 20 compact full", NOT_CHANNEL),
    ("write-template ! 9 X compact Y", NOT_CHANNEL),
    ("write-template ! 9 compact compact X Y", NOT_CHANNEL),
    ("write-template ! 9 compact !", NOT_CHANNEL),
    ("write-template ! 9 full ! X Y", NOT_CHANNEL),
    ("write-template ! 9 ! full compact", NOT_CHANNEL),
    ("write-template ! 9 ! X full", NOT_CHANNEL),
    ("write-template ! full X Y", NOT_NUMBER),
    ("write-template full 9 X Y", NOT_NUMBER),
    ("template full B100", NOT_BYTES),
    // The first word that cannot be read decides.
    ("body-point x x", NOT_NUMBER),
    ("body x x", NOT_BYTES),
    ("write-body x , A -1 x", NOT_NUMBER),
    ("write-body 0 - A -1 x", NOT_BYTES),
    ("write-body 0 - ! -1 x", NOT_NUMBER),
    ("turn x x x", NOT_NUMBER),
    ("turn 0 0 x", NOT_BYTES),
    // And lines that can be read.
    ("\tbody\rb1068104c0000000  7f\t80 ", "body 1 compact X Y"),
    ("body -", "template refused 1"),
    ("body-point 000000000000000000 -", "template refused 1"),
    ("body-point -0 - 5A", "template refused 1"),
    ("body B1 06 81 04 C0 00 00 00", "template refused 1"),
    (
        "write-body 1 -0,005 ! 2 b106 8104c0000000",
        "written 2 8085",
    ),
    ("turn -0 00 53 45", "refused 2 1 - -"),
    ("write 0 - ! 1 full X Y !X", "refused 4 AA"),
];
