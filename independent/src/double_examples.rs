//! Request L6: answers typed from the papers and the readings, or worked out by hand, never here.
//! A double's 64 bits are its sign, eleven bits of 1023 and its exponent, and the 52 binary digits
//! behind the leading one. 3FF is 2^0, 3FE is 2^-1, 400 is 2^1; with the minus 3FF becomes BFF.

use crate::examples::Typed;
use crate::examples::{MISSING, NOT_NUMBER, NOT_PLACE, NO_QUESTION, TOO_MANY};

pub const DOUBLE_EXAMPLES: Typed = &[
    // From the readings of the requests: scale 1, and scale 2000 (1/2000 is 0.0005).
    ("double 1 16 0", "double 3FF0000000000000"),
    ("double 1 26 1952", "double 3F40624DD2F1A9FC"),
    // With F 0 it is raw * 2^16 / 2^E, where one step of E moves the exponent by one.
    // Raw 1 is 2^(16 - E): 2^16 is 1023 + 16 = 40F, 2^-15 is 1023 - 15 = 3F0.
    ("double 1 0 0", "double 40F0000000000000"),
    ("double 1 1 0", "double 40E0000000000000"),
    ("double 1 14 0", "double 4010000000000000"),
    ("double 1 15 0", "double 4000000000000000"),
    ("double 1 17 0", "double 3FE0000000000000"),
    ("double 1 18 0", "double 3FD0000000000000"),
    ("double 1 31 0", "double 3F00000000000000"),
    ("double -1 0 0", "double C0F0000000000000"),
    ("double -1 15 0", "double C000000000000000"),
    ("double -1 16 0", "double BFF0000000000000"),
    ("double -1 17 0", "double BFE0000000000000"),
    ("double -1 31 0", "double BF00000000000000"),
    // 2 is 10, 3 is 11, 5 is 101, 6 is 110, 7 is 111, 10 is 1010 in binary digits. The leading one
    // isn't stored: 1 behind it is 8 in the first hex digit, 01 is 4, 11 is C.
    ("double 2 16 0", "double 4000000000000000"),
    ("double 3 16 0", "double 4008000000000000"),
    ("double 5 16 0", "double 4014000000000000"),
    ("double 6 16 0", "double 4018000000000000"),
    ("double 7 16 0", "double 401C000000000000"),
    ("double 10 16 0", "double 4024000000000000"),
    ("double -3 16 0", "double C008000000000000"),
    ("double -10 16 0", "double C024000000000000"),
    // 1.5, 0.75 and 2.5.
    ("double 3 17 0", "double 3FF8000000000000"),
    ("double 3 18 0", "double 3FE8000000000000"),
    ("double 5 17 0", "double 4004000000000000"),
    // Document 01: scale 1024, raw 512 is a half.
    ("double 512 26 0", "double 3FE0000000000000"),
    // 65535 is sixteen ones: 2^15 and fifteen ones behind the leading one, FFFE. With E 0 it is the
    // greatest double of all, 2^31 and the same digits; with E 31 it is a little below 2.
    ("double 65535 16 0", "double 40EFFFE000000000"),
    ("double 65535 0 0", "double 41EFFFE000000000"),
    ("double 65535 31 0", "double 3FFFFFE000000000"),
    // 65534 is fifteen ones and a zero.
    ("double 65534 16 0", "double 40EFFFC000000000"),
    // 32767 is fifteen ones: 2^14 and fourteen ones behind the leading one, FFFC.
    ("double 32767 16 0", "double 40DFFFC000000000"),
    ("double -32767 16 0", "double C0DFFFC000000000"),
    // 32768 is 2^15, 32769 the same and a one fifteen digits behind: 0002.
    ("double 32768 16 0", "double 40E0000000000000"),
    ("double 32769 16 0", "double 40E0002000000000"),
    // -2^15, with E 0 -2^31, with E 31 -1.
    ("double -32768 16 0", "double C0E0000000000000"),
    ("double -32768 0 0", "double C1E0000000000000"),
    ("double -32768 31 0", "double BFF0000000000000"),
    // Raw 0 is plus zero with every E and F.
    ("double 0 0 0", "double 0000000000000000"),
    ("double 0 16 0", "double 0000000000000000"),
    ("double 0 31 2047", "double 0000000000000000"),
    ("double 0 0 2047", "double 0000000000000000"),
    ("double 0 31 0", "double 0000000000000000"),
    ("double 0 26 1952", "double 0000000000000000"),
    ("double -0 26 1952", "double 0000000000000000"),
    // Scale 2000 and scale 1000: twice the number, or half the scale, moves the exponent by one.
    ("double -1 26 1952", "double BF40624DD2F1A9FC"),
    ("double 2 26 1952", "double 3F50624DD2F1A9FC"),
    ("double 1 25 1952", "double 3F50624DD2F1A9FC"),
    ("double 4 26 1952", "double 3F60624DD2F1A9FC"),
    ("double 1 0 1952", "double 40E0624DD2F1A9FC"),
    ("double 1 31 1952", "double 3EF0624DD2F1A9FC"),
    ("double 1000 26 1952", "double 3FE0000000000000"),
    ("double 1000 25 1952", "double 3FF0000000000000"),
    ("double 2000 26 1952", "double 3FF0000000000000"),
    ("double -2000 26 1952", "double BFF0000000000000"),
    ("double 32000 26 1952", "double 4030000000000000"),
    // F 1024 with E 16 is scale 1.5. 2/3 is 4/3 * 2^-1; 1/3 has the hex digits 5555.., the next one
    // is a 5 too, so they are cut.
    ("double 1 16 1024", "double 3FE5555555555555"),
    ("double 2 16 1024", "double 3FF5555555555555"),
    ("double -2 16 1024", "double BFF5555555555555"),
    ("double 1 0 1024", "double 40E5555555555555"),
    ("double 1 31 1024", "double 3EF5555555555555"),
    // Exactly 2 and 1024, though F isn't 0.
    ("double 3 16 1024", "double 4000000000000000"),
    ("double -3 16 1024", "double C000000000000000"),
    ("double 1536 16 1024", "double 4090000000000000"),
    // 10/3 is 5/3 * 2; 2/3 has the hex digits AAAA.., the next one is an A too, so they go up.
    ("double 5 16 1024", "double 400AAAAAAAAAAAAB"),
    ("double -5 16 1024", "double C00AAAAAAAAAAAAB"),
    // F 512 with E 16 is scale 1.25, with E 19 scale 10. 0.8, 0.1 and 0.4 are 1.6 times a power of
    // two; 0.6 has the hex digits 9999.., the next one is a 9 too, so they go up to ..9A.
    ("double 1 16 512", "double 3FE999999999999A"),
    ("double 1 19 512", "double 3FB999999999999A"),
    ("double 4 19 512", "double 3FD999999999999A"),
    ("double -1 19 512", "double BFB999999999999A"),
    // 0.3 is 1.2 / 4; 0.2 has the hex digits 3333.., cut. 0.7 is 1.4 / 2; 0.4 has 6666.., cut.
    ("double 3 19 512", "double 3FD3333333333333"),
    ("double 7 19 512", "double 3FE6666666666666"),
    // 4 and 5.
    ("double 5 16 512", "double 4010000000000000"),
    ("double 50 19 512", "double 4014000000000000"),
    // F 2047 is 4095 / 2048. Raw 1 with E 31 is the least size of all: 1 / (4095 * 16), which is
    // 4096 / 4095 * 2^-16. 1 / 4095 has the hex digits 001001.., the thirteenth and the next are 0.
    ("double 1 31 2047", "double 3EF0010010010010"),
    ("double -1 31 2047", "double BEF0010010010010"),
    ("double 1 0 2047", "double 40E0010010010010"),
    // Document 01: scale 65520, raw -32768 is 4096 / 4095 * -2^-1. Raw 65520 is 1.
    ("double -32768 31 2047", "double BFE0010010010010"),
    ("double 65520 31 2047", "double 3FF0000000000000"),
    // 4095 * 2048 / 4095 is 2^11, and a third of it 4/3 * 2^9.
    ("double 4095 16 2047", "double 40A0000000000000"),
    ("double 1365 16 2047", "double 4085555555555555"),
    // F 1 is 2049 / 2048. Raw 1 with E 16 is 1 - 1/2049, which is 1 - 2^-11 + 2^-22 - 2^-33 + 2^-44
    // and less than half a last digit less. Behind the leading one: ten ones, eleven zeros, eleven
    // ones, ten zeros, a one and nine zeros.
    ("double 1 16 1", "double 3FEFFC007FF00200"),
    ("double -1 16 1", "double BFEFFC007FF00200"),
    ("double 2049 16 1", "double 40A0000000000000"),
    // Document 01: scale 99.96875, which is 3199 / 32, raw 3199 is 32.
    ("double 3199 22 1151", "double 4040000000000000"),
    // Refused with 12: raw, then E, then F.
    ("double 65536 16 0", "refused 12 raw"),
    ("double -32769 16 0", "refused 12 raw"),
    ("double 65536 32 2048", "refused 12 raw"),
    ("double -32769 0 2048", "refused 12 raw"),
    ("double 999999999999999999 16 0", "refused 12 raw"),
    ("double -999999999999999999 16 0", "refused 12 raw"),
    ("double 4294967297 16 0", "refused 12 raw"),
    ("double 65535 32 0", "refused 12 E"),
    ("double 65535 32 2048", "refused 12 E"),
    ("double 0 32 0", "refused 12 E"),
    ("double 1 4294967312 0", "refused 12 E"),
    (
        "double 1 999999999999999999 999999999999999999",
        "refused 12 E",
    ),
    ("double -32768 31 2048", "refused 12 F"),
    ("double 0 16 2048", "refused 12 F"),
    ("double 1 16 4294967296", "refused 12 F"),
    // Places. 32768 is E 16, F 0; 55200 is E 26, F 1952; 46208 is E 22, F 1152, scale 100. 0.01 is
    // 1.28 * 2^-7; 0.28 has the hex digits 47AE1 again and again, the fourteenth is an E: up.
    ("double-place 1 32768", "double 3FF0000000000000"),
    ("double-place -1 32768", "double BFF0000000000000"),
    ("double-place 0 32768", "double 0000000000000000"),
    ("double-place -0 32768", "double 0000000000000000"),
    ("double-place 65535 32768", "double 40EFFFE000000000"),
    ("double-place -32768 32768", "double C0E0000000000000"),
    ("double-place 1 55200", "double 3F40624DD2F1A9FC"),
    ("double-place -2000 55200", "double BFF0000000000000"),
    ("double-place 100 46208", "double 3FF0000000000000"),
    // A constant divides 1.
    ("double-place - 55200", "double 3F40624DD2F1A9FC"),
    ("double-place - 46208", "double 3F847AE147AE147B"),
    ("double-place - 0", "double 40F0000000000000"),
    ("double-place - -0", "double 40F0000000000000"),
    ("double-place - 65535", "double 3EF0010010010010"),
    // 0 and 65535 are scaling values; beyond them it is E.
    ("double-place 65535 0", "double 41EFFFE000000000"),
    ("double-place 0 0", "double 0000000000000000"),
    ("double-place -32768 65535", "double BFE0010010010010"),
    ("double-place 5 65536", "refused 12 E"),
    ("double-place 5 -1", "refused 12 E"),
    ("double-place 0 -2147483648", "refused 12 E"),
    ("double-place 0 2147483647", "refused 12 E"),
    ("double-place - 65536", "refused 12 E"),
    ("double-place - -1", "refused 12 E"),
    ("double-place 65536 0", "refused 12 raw"),
    ("double-place -32769 32768", "refused 12 raw"),
    ("double-place 70000 -1", "refused 12 raw"),
    ("double-place 65536 65536", "refused 12 raw"),
    // Without a scaling value: 20, before 12.
    ("double-place - !", "refused 20"),
    ("double-place 5 !", "refused 20"),
    ("double-place 5 !32768", "refused 20"),
    ("double-place 0 !0", "refused 20"),
    ("double-place - !55200", "refused 20"),
    ("double-place 5 !-1", "refused 20"),
    ("double-place 5 !65536", "refused 20"),
    ("double-place 70000 !", "refused 20"),
    ("double-place 65536 !0", "refused 20"),
    ("double-place -32769 !70000", "refused 20"),
    // Absent stays absent.
    ("double-place . !0", "absent"),
    ("double-place . !70000", "absent"),
    ("double-place . 0", "absent"),
    ("double-place . 32768", "absent"),
    ("double-place . 65536", "absent"),
    ("double-place . -1", "absent"),
];

pub const DOUBLE_UNREADABLE: Typed = &[
    ("doubles 1 16 0", NO_QUESTION),
    ("Double 1 16 0", NO_QUESTION),
    ("double1 16 0", NO_QUESTION),
    ("double- 1 16 0", NO_QUESTION),
    ("!double 1 16 0", NO_QUESTION),
    ("doubl 1 16 0", NO_QUESTION),
    ("double_place - 0", NO_QUESTION),
    ("doubleplace - 0", NO_QUESTION),
    ("double-places - 0", NO_QUESTION),
    ("Double-place - 0", NO_QUESTION),
    ("place-double - 0", NO_QUESTION),
    ("f64 1 16 0", NO_QUESTION),
    ("double", MISSING),
    ("double \t\r", MISSING),
    ("double 1", MISSING),
    ("double 1 16", MISSING),
    ("double-place", MISSING),
    ("double-place .", MISSING),
    ("double-place -", MISSING),
    ("double-place 5", MISSING),
    // `double place` is `double` with a RAW that is none.
    ("double place - 0", NOT_NUMBER),
    ("double x 16 0", NOT_NUMBER),
    ("double - 16 0", NOT_NUMBER),
    ("double . 16 0", NOT_NUMBER),
    ("double ! 16 0", NOT_NUMBER),
    ("double +1 16 0", NOT_NUMBER),
    ("double 1.0 16 0", NOT_NUMBER),
    ("double 1e3 16 0", NOT_NUMBER),
    ("double 0x1 16 0", NOT_NUMBER),
    ("double 1 -1 0", NOT_NUMBER),
    ("double 1 16 -1", NOT_NUMBER),
    ("double 1 16.0 0", NOT_NUMBER),
    ("double 1 !16 0", NOT_NUMBER),
    ("double 1 16 !", NOT_NUMBER),
    ("double 1 16 !0", NOT_NUMBER),
    ("double 1234567890123456789 16 0", NOT_NUMBER),
    ("double 1 1000000000000000000 0", NOT_NUMBER),
    ("double 1 16 0000000000000000000", NOT_NUMBER),
    // Also where a number before it is out of its range.
    ("double 65536 16 -1", NOT_NUMBER),
    ("double 65536 -1 0", NOT_NUMBER),
    ("double-place . x", NOT_NUMBER),
    ("double-place . -", NOT_NUMBER),
    ("double-place . .", NOT_NUMBER),
    ("double-place . !x", NOT_NUMBER),
    ("double-place - !!", NOT_NUMBER),
    ("double-place 5 !-", NOT_NUMBER),
    ("double-place 5 2147483648", NOT_NUMBER),
    ("double-place . !2147483648", NOT_NUMBER),
    ("double-place 5 -2147483649", NOT_NUMBER),
    ("double-place x !", NOT_PLACE),
    ("double-place ! !", NOT_PLACE),
    ("double-place !5 0", NOT_PLACE),
    ("double-place .. 0", NOT_PLACE),
    ("double-place -- 0", NOT_PLACE),
    ("double-place -. 0", NOT_PLACE),
    ("double-place +5 0", NOT_PLACE),
    ("double-place 5.0 0", NOT_PLACE),
    ("double-place x", NOT_PLACE),
    ("double-place 2147483648 0", NOT_PLACE),
    ("double-place -2147483649 0", NOT_PLACE),
    ("double-place 1234567890123456789 !", NOT_PLACE),
    ("double 1 16 0 0", TOO_MANY),
    ("double 1 16 0 x", TOO_MANY),
    ("double 65536 32 2048 !", TOO_MANY),
    ("double-place . ! .", TOO_MANY),
    ("double-place 5 16 0", TOO_MANY),
    ("double-place - ! !", TOO_MANY),
    // The first word that cannot be read decides.
    ("double x", NOT_NUMBER),
    ("double 1 x", NOT_NUMBER),
    ("double 1 2 x 4", NOT_NUMBER),
    ("double-place x x x", NOT_PLACE),
    ("double-place 5 x x", NOT_NUMBER),
    // And lines that can be read.
    (" \tdouble\t1\r26  1952\r", "double 3F40624DD2F1A9FC"),
    (
        "double 000000000000000001 0026 01952",
        "double 3F40624DD2F1A9FC",
    ),
    ("double -0001 -0 -0", "double C0F0000000000000"),
    ("\rdouble-place  -\t32768 ", "double 3FF0000000000000"),
    ("double-place -00001 032768", "double BFF0000000000000"),
    ("double-place\t.  !", "absent"),
];
