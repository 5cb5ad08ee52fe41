//! Request L9: answers typed from the papers and the readings, never worked out here.
//! Stored channel j, point p stands at j * COUNT + p. What is lent is 99999 before.

use crate::compare::Comparison;
use crate::examples::{Typed, COLUMNS};
use crate::examples::{MISSING, NOT_BYTES, NOT_CHANNEL, NOT_NUMBER, NO_QUESTION};

pub const COLUMNS_EXAMPLES: Typed = &[
    // M has no points, so no numbers.
    (
        "columns 53444900 20313000 C000 00 00 00 00 000000",
        "columns -",
    ),
    (
        "columns-in 0 53444900 20313000 C000 00 00 00 00 000000",
        "columns -",
    ),
    (
        "columns-in 1 53444900 20313000 C000 00 00 00 00 000000",
        "refused 13 99999",
    ),
    (
        "columns-in 2 53444900 20313000 C000 00 00 00 00 000000",
        "refused 13 99999,99999",
    ),
    // P8: of one point the columns stand as the point does.
    (
        "columns 53444900 20313000 C000 00 00 00 00 000001 7FFF 8000",
        "columns -1,0",
    ),
    (
        "columns-in 2 53444900 20313000 C000 00 00 00 00 000001 7FFF 8000",
        "columns -1,0",
    ),
    (
        "columns-in 1 53444900 20313000 C000 00 00 00 00 000001 7FFF 8000",
        "refused 13 99999",
    ),
    (
        "columns-in 3 53444900 20313000 C000 00 00 00 00 000001 7FFF 8000",
        "refused 13 99999,99999,99999",
    ),
    (
        "columns-in 0 53444900 20313000 C000 00 00 00 00 000001 7FFF 8000",
        "refused 13 -",
    ),
    (
        "columns-in 4 53444900 20313000 C000 00 00 00 00 000001 7FFF 8000",
        "refused 13 99999,99999,99999,99999",
    ),
    // P9: X is constant and has no column.
    (
        "columns 53444900 20313000 C000 04 00 00 00 000001 8005",
        "columns 5",
    ),
    (
        "columns-in 2 53444900 20313000 C000 04 00 00 00 000001 8005",
        "refused 13 99999,99999",
    ),
    // Two points and three: 1 and 10, 2 and 20, 3 and 30.
    (
        "columns-in 4 53444900 20313000 C000 00 00 00 00 000002 7FFF 8000 8001 8005",
        "columns -1,1,0,5",
    ),
    (
        "columns-in 5 53444900 20313000 C000 00 00 00 00 000002 7FFF 8000 8001 8005",
        "refused 13 99999,99999,99999,99999,99999",
    ),
    (
        "columns 53444900 20313000 C000 00 00 00 00 000003 8001 800A 8002 8014 8003 801E",
        "columns 1,2,3,10,20,30",
    ),
    // Y constant: the one column is X's.
    (
        "columns 53444900 20313000 C000 00 04 00 00 000002 8005 8006",
        "columns 5,6",
    ),
    (
        "columns-in 4 53444900 20313000 C000 00 04 00 00 000002 8005 8006",
        "refused 13 99999,99999,99999,99999",
    ),
    // All constant: no columns, whatever the count.
    (
        "columns 53444900 20313000 C000 04 04 00 00 000001",
        "columns -",
    ),
    (
        "columns 53444900 20313000 C000 04 04 00 00 FFFFFF",
        "columns -",
    ),
    (
        "columns-in 0 53444900 20313000 C000 04 04 00 00 FFFFFF",
        "columns -",
    ),
    (
        "columns-in 1 53444900 20313000 C000 04 04 00 00 000001",
        "refused 13 99999",
    ),
    // The ends of the ranges. X and Y have a sign, Z has none.
    (
        "columns 53444900 20313000 E000 00 00 00 00 00 000002 0000 FFFF FFFF FFFF 0000 0000",
        "columns -32768,32767,32767,-32768,65535,0",
    ),
    // X, Y and S; S constant and R behind it; S alone, each of its bytes a point.
    (
        "columns 53444900 20313000 C020 00 00 00 00 00 000002 8005 7FFF 01 8006 8000 00",
        "columns 5,6,-1,0,1,0",
    ),
    (
        "columns 53444900 20313000 C021 00 00 04 00 00 00 000002 8005 8006 0207 8007 8008 0001",
        "columns 5,7,6,8,519,1",
    ),
    (
        "columns 53444900 20313000 C020 04 04 00 00 00 000003 00 01 01",
        "columns 0,1,1",
    ),
    // Extended data are no numbers.
    (
        "columns 53444900 20313000 C000 00 00 00 80 000001 8005 8006 0002 8007",
        "columns 5,6",
    ),
    (
        "columns-in 3 53444900 20313000 C000 00 00 00 80 000001 8005 8006 0002 8007",
        "refused 13 99999,99999,99999",
    ),
    (
        "columns 53444900 20313000 C000 00 00 00 80 000000 0000",
        "columns -",
    ),
    // C.1 of the annex with three of its points, DT constant before F.
    (
        "columns 53444900 20313000 C0C0 80F998 80F998 84B480 6000000300 00 00 000003 \
         82078BCB003F 82098BCB0135 820F8BE8013C",
        "columns 519,521,527,3019,3019,3048,63,309,316",
    ),
    (
        "write-columns 3 519,521,527,3019,3019,3048,63,309,316 ! 47 X.scaling=63896 \
         Y.scaling=63896 DT.scaling=46208.constant F.minimum=0.maximum=768",
        "written 47 5344490020313000C0C080F99880F99884B48060000003000000000003\
         82078BCB003F82098BCB0135820F8BE8013C",
    ),
    // 1: nothing, in the header, in the count, in a point, in the extended data.
    ("columns", "refused 1"),
    ("columns-in 0", "refused 1 -"),
    ("columns-in 2", "refused 1 99999,99999"),
    ("columns 53444900 20313000 C0", "refused 1"),
    (
        "columns 53444900 20313000 C000 00 00 00 00 0000",
        "refused 1",
    ),
    (
        "columns-in 2 53444900 20313000 C000 00 00 00 00 000001 7FFF 80",
        "refused 1 99999,99999",
    ),
    (
        "columns-in 4 53444900 20313000 C000 00 00 00 00 000002 7FFF 8000",
        "refused 1 99999,99999,99999,99999",
    ),
    (
        "columns-in 2 53444900 20313000 C000 00 00 00 00 000002 7FFF 8000",
        "refused 1 99999,99999",
    ),
    (
        "columns 53444900 20313000 C000 00 00 00 00 FFFFFF 7FFF 8000",
        "refused 1",
    ),
    (
        "columns-in 2 53444900 20313000 C000 00 00 00 80 000001 8005 8006 0002 AB",
        "refused 1 99999,99999",
    ),
    // 2 to 7, whatever is lent.
    ("columns 53 45", "refused 2 1"),
    ("columns-in 0 53 45", "refused 2 1 -"),
    ("columns-in 1 53 45", "refused 2 1 99999"),
    ("columns 53 44 49 00 21", "refused 3 4"),
    ("columns-in 2 53 44 49 00 21", "refused 3 4 99999,99999"),
    ("columns 53444900 20313000 40", "refused 4 8"),
    ("columns-in 1 53444900 20313000 80", "refused 4 8 99999"),
    (
        "columns 53444900 20313000 C000 01 00 00 00 000000",
        "refused 5 10",
    ),
    (
        "columns-in 0 53444900 20313000 C000 00 01 00 00 000000",
        "refused 5 11 -",
    ),
    (
        "columns-in 2 53444900 20313000 C000 00 00 01 00 000001 7FFF 8000",
        "refused 6 12 99999,99999",
    ),
    (
        "columns-in 2 53444900 20313000 C000 00 00 00 01 000001 7FFF 8000",
        "refused 7 13 99999,99999",
    ),
    // 8: a wrong S in the first point and in the second, with the right amount and without.
    (
        "columns 53444900 20313000 C020 00 00 00 00 00 000002 8005 7FFF 02 8006 8000 00",
        "refused 8 22",
    ),
    (
        "columns 53444900 20313000 C020 00 00 00 00 00 000002 8005 7FFF 01 8006 8000 80",
        "refused 8 27",
    ),
    (
        "columns-in 6 53444900 20313000 C020 00 00 00 00 00 000002 8005 7FFF 01 8006 8000 FF",
        "refused 8 27 99999,99999,99999,99999,99999,99999",
    ),
    (
        "columns-in 1 53444900 20313000 C020 00 00 00 00 00 000002 8005 7FFF 01 8006 8000 FF",
        "refused 8 27 99999",
    ),
    // 9 before 13.
    (
        "columns 53444900 20313000 C000 00 00 00 00 000000 FF",
        "refused 9 17",
    ),
    (
        "columns-in 0 53444900 20313000 C000 00 00 00 00 000000 FF",
        "refused 9 17 -",
    ),
    (
        "columns-in 3 53444900 20313000 C000 00 00 00 00 000001 7FFF 8000 8000",
        "refused 9 21 99999,99999,99999",
    ),
    (
        "columns-in 2 53444900 20313000 C000 00 00 00 00 000001 7FFF 8000 53",
        "refused 9 21 99999,99999",
    ),
    (
        "columns 53444900 20313000 C000 00 00 00 80 000001 8005 8006 0001 AB FF",
        "refused 9 24",
    ),
    // Written: M, and P8 where both orders are one; then the points of above.
    (
        "write-columns 0 - ! 17 X Y",
        "written 17 5344490020313000C00000000000000000",
    ),
    (
        "write-columns 1 -1,0 ! 23 X Y",
        "written 21 5344490020313000C000000000000000017FFF8000AAAA",
    ),
    (
        "write-columns 3 1,2,3,10,20,30 ! 29 X Y",
        "written 29 5344490020313000C000000000000000038001800A800280148003801E",
    ),
    (
        "write-columns 3 1,2,3,10,20,30 ! 29 Y X",
        "written 29 5344490020313000C000000000000000038001800A800280148003801E",
    ),
    (
        "write-columns 2 5,6 ! 21 X.constant Y",
        "written 21 5344490020313000C0000400000000000280058006",
    ),
    (
        "write-columns 16777215 - ! 17 X.constant Y.constant",
        "written 17 5344490020313000C00004040000FFFFFF",
    ),
    (
        "write-columns 2 -32768,32767,32767,-32768,65535,0 ! 30 X Y Z",
        "written 30 5344490020313000E00000000000000000020000FFFFFFFFFFFF00000000",
    ),
    (
        "write-columns 2 5,6,-1,0,1,0 ! 28 X Y S",
        "written 28 5344490020313000C020000000000000000280057FFF018006800000",
    ),
    (
        "write-columns 1 5,6 AB 25 X Y",
        "written 24 5344490020313000C00000000080000001800580060001ABAA",
    ),
    (
        "write-columns 1 5,6 - 23 X Y",
        "written 23 5344490020313000C00000000080000001800580060000",
    ),
    (
        "write-columns 1 5,6 !AB 21 X Y",
        "written 21 5344490020313000C0000000000000000180058006",
    ),
    // 15, the last.
    (
        "write-columns 2 -1,1,0,5 ! 24 X Y",
        "refused 15 AAAAAAAAAAAAAAAAAAAAAAAAAAAAAAAAAAAAAAAAAAAAAAAA",
    ),
    ("write-columns 2 -1,1,0,5 ! 0 X Y", "refused 15 -"),
    // 4, 11, and 12 of the description and of the count, each before what follows it.
    ("write-columns 1 70000 ! 2 Y", "refused 4 AAAA"),
    (
        "write-columns 16777216 5 ! 2 X !Y.constant",
        "refused 4 AAAA",
    ),
    (
        "write-columns 16777216 5 ! 2 X.mean=70000 Y.!mean=5",
        "refused 11 AAAA",
    ),
    (
        "write-columns 1 70000,0 ! 2 X Y.mean=40000",
        "refused 12 Y mean AAAA",
    ),
    (
        "write-columns 16777216 70000,0 ! 2 X Y.mean=40000",
        "refused 12 Y mean AAAA",
    ),
    (
        "write-columns 16777216 70000,0 ! 2 X Y",
        "refused 12 count AAAA",
    ),
    (
        "write-columns 16777216 - ! 2 X.constant Y.constant",
        "refused 12 count AAAA",
    ),
    // 13: a value too few and too many, none, a point too few and too many.
    ("write-columns 2 0,32768,0 ! 1 X Y", "refused 13 AA"),
    ("write-columns 2 0,0,32768,0,0 ! 1 X Y", "refused 13 AA"),
    ("write-columns 2 - ! 1 X Y", "refused 13 AA"),
    ("write-columns 2 70000,0 ! 1 X Y", "refused 13 AA"),
    ("write-columns 2 0,0,0,0,0,70000 ! 1 X Y", "refused 13 AA"),
    ("write-columns 0 0 ! 1 X Y", "refused 13 AA"),
    (
        "write-columns 1 0 ! 1 X.constant Y.constant",
        "refused 13 AA",
    ),
    ("write-columns 2 0,0,0,0 ! 1 X Y.constant", "refused 13 AA"),
    ("write-columns 16777215 5 ! 1 X Y", "refused 13 AA"),
    // Two points, so X has 0 and 1, Y has 2 and 3. One value of them out of range.
    (
        "write-columns 2 32768,0,0,0 ! 0 X Y",
        "refused 12 value 0 X -",
    ),
    (
        "write-columns 2 0,-32769,0,0 ! 0 X Y",
        "refused 12 value 1 X -",
    ),
    (
        "write-columns 2 0,0,32768,0 ! 0 X Y",
        "refused 12 value 2 Y -",
    ),
    (
        "write-columns 2 0,0,0,-32769 ! 0 X Y",
        "refused 12 value 3 Y -",
    ),
    (
        "write-columns 2 32767,-32768,-32768,32767 ! 0 X Y",
        "refused 15 -",
    ),
    // Two of them: the first point's Y comes before the second point's X, though it stands behind
    // it; in one point X comes before Y.
    (
        "write-columns 2 0,40000,40000,0 ! 0 X Y",
        "refused 12 value 2 Y -",
    ),
    (
        "write-columns 2 40000,0,40000,0 ! 0 X Y",
        "refused 12 value 0 X -",
    ),
    (
        "write-columns 2 0,40000,0,40000 ! 0 X Y",
        "refused 12 value 1 X -",
    ),
    (
        "write-columns 2 40000,0,0,40000 ! 0 X Y",
        "refused 12 value 0 X -",
    ),
    (
        "write-columns 2 0,40000,40000,40000 ! 0 X Y",
        "refused 12 value 2 Y -",
    ),
    // Three points of X, Y and S: X has 0 to 2, Y has 3 to 5, S has 6 to 8.
    (
        "write-columns 3 0,70000,0,0,0,0,2,0,0 ! 0 X Y S",
        "refused 12 value 6 S -",
    ),
    (
        "write-columns 3 0,0,70000,0,40000,0,0,0,0 ! 0 X Y S",
        "refused 12 value 4 Y -",
    ),
    (
        "write-columns 3 0,0,0,0,0,-32769,0,2,0 ! 0 X Y S",
        "refused 12 value 7 S -",
    ),
    (
        "write-columns 3 0,0,0,0,0,0,0,0,-1 ! 0 X Y S",
        "refused 12 value 8 S -",
    ),
    (
        "write-columns 3 0,0,40000,0,0,40000,0,0,128 ! 0 X Y S",
        "refused 12 value 2 X -",
    ),
    (
        "write-columns 3 2,2,2,2,2,2,0,1,0 ! 0 X Y S",
        "refused 15 -",
    ),
    // Constant channels have no column: Y has 0 and 1, S has 2 and 3. Then X alone.
    (
        "write-columns 2 2,40000,2,0 ! 0 X.constant Y Z.constant S",
        "refused 12 value 2 S -",
    ),
    (
        "write-columns 3 0,32768,40000 ! 0 X Y.constant",
        "refused 12 value 1 X -",
    ),
    // Z goes to 65535, and has 4 and 5; point after point the 40000 would be Y's.
    (
        "write-columns 2 0,0,0,0,40000,65535 ! 0 X Y Z",
        "refused 15 -",
    ),
    (
        "write-columns 2 0,0,0,0,65536,65536 ! 0 X Y Z",
        "refused 12 value 4 Z -",
    ),
    (
        "write-columns 2 0,0,0,0,65535,-1 ! 0 X Y Z",
        "refused 12 value 5 Z -",
    ),
    (
        "write-columns 2 0,0,0,40000,0,65535 ! 0 X Y Z",
        "refused 12 value 3 Y -",
    ),
    // 12 of a value before 15, with extended data that are wanted.
    (
        "write-columns 1 0,32768 AB 3 X Y",
        "refused 12 value 1 Y AAAAAA",
    ),
];

/// All channels with all attributes, three points. A channel has a small number in the first point,
/// 0 in the second, and an end of its range or one near it in the third.
pub fn greatest(comparison: &mut Comparison) {
    let said = "F8 0001 8002 8003 8004 0005 ".repeat(16);
    let front = format!("53444900 20313000 FFFF {said} 00 00 000003");
    let first = "8001 7FFE 0003 8004 8005 8006 8007 0008 0009 000A 01 800C 7FF3 000E 000F 0010";
    let second = "8000 8000 0000 8000 8000 8000 8000 0000 0000 0000 00 8000 8000 0000 0000 0000";
    let third = "0000 FFFF FFFF 0001 FFFE 0000 FFFF FFFE FFFF FFFF 01 FFFF 0000 FFFF FFFD FFFF";
    let x_to_ay = "1,0,-32768,-2,0,32767,3,0,65535,4,0,-32767,5,0,32766,6,0,-32768,7,0,32767";
    let t_to_s = "8,0,65534,9,0,65535,10,0,65535,1,0,1";
    let tx_to_r = "12,0,32767,-13,0,-32768,14,0,65535,15,0,65533,16,0,65535";
    let values = format!("{x_to_ay},{t_to_s},{tx_to_r}");
    let bytes = format!("{front} {first} {second} {third}");
    let columns = format!("columns {values}");
    let mut typed = |line: &str, answer: &str| comparison.ask_typed(COLUMNS, line, answer);
    typed(&format!("columns {bytes}"), &columns);
    typed(&format!("columns-in 48 {bytes}"), &columns);
    let lent = ",99999".repeat(49);
    let refused = |why: &str, amount: usize| format!("refused {why} {}", &lent[1..6 * amount]);
    typed(&format!("columns-in 47 {bytes}"), &refused("13", 47));
    typed(&format!("columns-in 49 {bytes}"), &refused("13", 49));
    // 191 bytes before the points and three times 31 of them.
    typed(&format!("columns-in 48 {bytes} FF"), &refused("9 284", 48));
    let cut = &bytes[..bytes.len() - 2];
    typed(&format!("columns-in 48 {cut}"), &refused("1", 48));
    let names = "X Y Z VX VY AX AY T DT F S TX TY Az El R";
    let all = " ".to_string() + names;
    // The descriptions in words: minimum, maximum and mean are 2, 3 and 4 in a signed channel.
    let word = |name: &str| {
        let (low, high, mean) = match name {
            "X" | "Y" | "VX" | "VY" | "AX" | "AY" | "TX" | "TY" => (2, 3, 4),
            _ => (0x8002, 0x8003, 0x8004),
        };
        format!(" {name}.scaling=1.minimum={low}.maximum={high}.mean={mean}.deviation=5")
    };
    let words: String = names.split(' ').map(word).collect();
    let written = format!("written 284 {}", bytes.replace(' ', ""));
    typed(&format!("write-columns 3 {values} ! 284{words}"), &written);
    // S's third, the last of R, and T's second: 21 to 23 are T's.
    let state = values.replacen("10,0,65535,1,0,1,", "10,0,65535,1,0,2,", 1);
    let answer = "refused 12 value 32 S -";
    typed(&format!("write-columns 3 {state} ! 0{all}"), answer);
    let answer = "refused 12 value 22 T -";
    let time = state.replacen(",8,0,65534", ",8,-1,65534", 1);
    typed(&format!("write-columns 3 {time} ! 0{all}"), answer);
    let last = format!("{}65536", values.trim_end_matches("65535"));
    let answer = "refused 12 value 47 R -";
    typed(&format!("write-columns 3 {last} ! 0{all}"), answer);
}

/// A word too many is never said of the three: BYTES and CHANNEL.. take all that is left.
pub const COLUMNS_UNREADABLE: Typed = &[
    ("column 53", NO_QUESTION),
    ("Columns 53", NO_QUESTION),
    ("columns53", NO_QUESTION),
    ("columnsin 1 53", NO_QUESTION),
    ("columns_in 1 53", NO_QUESTION),
    ("columns-in1 53", NO_QUESTION),
    ("columns- 1 53", NO_QUESTION),
    ("columns-out 1 53", NO_QUESTION),
    ("read-columns 53", NO_QUESTION),
    ("write-column 0 - ! 17 X Y", NO_QUESTION),
    ("write_columns 0 - ! 17 X Y", NO_QUESTION),
    ("writecolumns 0 - ! 17 X Y", NO_QUESTION),
    ("write-columns-in 0 - ! 17 X Y", NO_QUESTION),
    ("columns-in", MISSING),
    ("columns-in \t ", MISSING),
    ("write-columns", MISSING),
    ("write-columns 0", MISSING),
    ("write-columns 0 -", MISSING),
    ("write-columns 0 - !", MISSING),
    ("columns-in x 53", NOT_NUMBER),
    ("columns-in -1 53", NOT_NUMBER),
    ("columns-in - 53", NOT_NUMBER),
    ("columns-in ! 53", NOT_NUMBER),
    ("columns-in !1 53", NOT_NUMBER),
    ("columns-in +1 53", NOT_NUMBER),
    ("columns-in 1.0 53", NOT_NUMBER),
    ("columns-in 0x1 53", NOT_NUMBER),
    ("columns-in 1,2 53", NOT_NUMBER),
    ("columns-in 5A 53", NOT_NUMBER),
    ("columns-in 131073 53", NOT_NUMBER),
    ("columns-in 131073", NOT_NUMBER),
    ("columns-in 4294967296 53", NOT_NUMBER),
    ("columns-in 53444900 20313000", NOT_NUMBER),
    ("columns-in 999999999999999999 53", NOT_NUMBER),
    ("columns-in 0000000000000000000 53", NOT_NUMBER),
    ("columns-in 18446744073709551616 53", NOT_NUMBER),
    ("write-columns x - ! 20 X Y", NOT_NUMBER),
    ("write-columns -1 - ! 20 X Y", NOT_NUMBER),
    ("write-columns ! - ! 20 X Y", NOT_NUMBER),
    ("write-columns 0 x ! 20 X Y", NOT_NUMBER),
    ("write-columns 0 , ! 20 X Y", NOT_NUMBER),
    ("write-columns 2 1,2;3,4 ! 20 X Y", NOT_NUMBER),
    ("write-columns 2 1,2,,3,4 ! 20 X Y", NOT_NUMBER),
    ("write-columns 2 1,2,3,4, ! 20 X Y", NOT_NUMBER),
    ("write-columns 2 1,2, 3,4 ! 20 X Y", NOT_NUMBER),
    ("write-columns 1 0,2147483648 ! 20 X Y", NOT_NUMBER),
    ("write-columns 1 -2147483649,0 ! 20 X Y", NOT_NUMBER),
    ("write-columns 0 ! ! 20 X Y", NOT_NUMBER),
    ("write-columns 0 - ! x X Y", NOT_NUMBER),
    ("write-columns 0 - ! -1 X Y", NOT_NUMBER),
    ("write-columns 0 - ! 131073 X Y", NOT_NUMBER),
    ("write-columns 0 - ! X Y", NOT_NUMBER),
    ("columns 5", NOT_BYTES),
    ("columns 534", NOT_BYTES),
    ("columns 53 4", NOT_BYTES),
    ("columns 5 3", NOT_BYTES),
    ("columns xx", NOT_BYTES),
    ("columns -", NOT_BYTES),
    ("columns !", NOT_BYTES),
    // An amount is no byte here, and a second one is none there.
    ("columns 0 5344", NOT_BYTES),
    ("columns-in 3 3 5344", NOT_BYTES),
    ("columns-in 0 5", NOT_BYTES),
    ("columns-in 0 xx", NOT_BYTES),
    ("columns-in 0 -", NOT_BYTES),
    ("columns-in 0 !", NOT_BYTES),
    ("columns-in 0 53 4", NOT_BYTES),
    // Also where the bytes before already decide.
    ("columns 00 x", NOT_BYTES),
    ("columns-in 0 00 x", NOT_BYTES),
    ("write-columns 0 - x 20 X Y", NOT_BYTES),
    ("write-columns 0 - A 20 X Y", NOT_BYTES),
    ("write-columns 0 - !A 20 X Y", NOT_BYTES),
    ("write-columns 0 - !! 20 X Y", NOT_BYTES),
    // A space among the values makes the rest the extended data.
    ("write-columns 2 1,2 3,4 ! 20 X Y", NOT_BYTES),
    ("write-columns 0 - ! 20 x Y", NOT_CHANNEL),
    ("write-columns 0 - ! 20 X Y !", NOT_CHANNEL),
    ("write-columns 0 - ! 20 X Y 5", NOT_CHANNEL),
    ("write-columns 0 - ! 20 X,Y", NOT_CHANNEL),
    ("write-columns 0 - ! 20 20 X Y", NOT_CHANNEL),
    ("write-columns 0 - ! 20 X.mean=x Y", NOT_CHANNEL),
    // The first word that cannot be read decides.
    ("columns-in x xx", NOT_NUMBER),
    ("columns-in 131073 xx", NOT_NUMBER),
    ("columns-in 131072 xx", NOT_BYTES),
    ("write-columns x , A -1 W", NOT_NUMBER),
    ("write-columns 0 - A -1 W", NOT_BYTES),
    ("write-columns 0 - ! -1 W", NOT_NUMBER),
    ("write-columns 0 - ! 0 W", NOT_CHANNEL),
    ("write-columns x", NOT_NUMBER),
    // And lines that can be read.
    ("columns-in -0 53 45", "refused 2 1 -"),
    (
        "columns-in 000000000000000002 53 45",
        "refused 2 1 99999,99999",
    ),
    ("columns-in 4", "refused 1 99999,99999,99999,99999"),
    ("columns-in 03 03 53", "refused 2 0 99999,99999,99999"),
    ("\tcolumns\r53\t\t4f ", "refused 2 1"),
    (" columns-in\t1  53 4F\r", "refused 2 1 99999"),
    (
        "columns 5344490020313000c0000000000000000180058006",
        "columns 5,6",
    ),
    ("write-columns 0 - ! 2", "refused 4 AAAA"),
    (
        "write-columns 1 -0,0005 ! 21 X Y",
        "written 21 5344490020313000C0000000000000000180008005",
    ),
];
