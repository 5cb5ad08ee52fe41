//! Request L2: answers typed from the papers and the readings, never worked out here.
//! `refused 12 WHICH`: the first number in stored order that is out of its range.

use crate::examples::Typed;

pub const NAMING_EXAMPLES: Typed = &[
    // Each attribute of X just outside. Minimum, maximum and mean have X's sign; the scaling
    // value and the deviation have none.
    ("write 0 - ! 1 X.scaling=-1 Y", "refused 12 X scaling AA"),
    ("write 0 - ! 1 X.scaling=65536 Y", "refused 12 X scaling AA"),
    (
        "write 0 - ! 1 X.minimum=-32769 Y",
        "refused 12 X minimum AA",
    ),
    ("write 0 - ! 1 X.maximum=32768 Y", "refused 12 X maximum AA"),
    ("write 0 - ! 1 X.mean=-32769 Y", "refused 12 X mean AA"),
    (
        "write 0 - ! 1 X.deviation=-1 Y",
        "refused 12 X deviation AA",
    ),
    (
        "write 0 - ! 1 X.deviation=65536 Y",
        "refused 12 X deviation AA",
    ),
    // The same numbers where they are in range: M's 17 bytes and two more need more room.
    ("write 0 - ! 1 X.scaling=65535 Y", "refused 15 AA"),
    ("write 0 - ! 1 X.minimum=-32768 Y", "refused 15 AA"),
    ("write 0 - ! 1 X.maximum=32767 Y", "refused 15 AA"),
    ("write 0 - ! 1 X.deviation=32768 Y", "refused 15 AA"),
    ("write 0 - ! 1 X Y Z.maximum=32768", "refused 15 AA"),
    // Unsigned channels, S among them: its attributes go to 65535, its values only to 1.
    ("write 0 - ! 0 X Y Z.minimum=-1", "refused 12 Z minimum -"),
    (
        "write 0 - ! 0 X Y R.maximum=65536",
        "refused 12 R maximum -",
    ),
    ("write 0 - ! 0 X Y S.mean=2", "refused 15 -"),
    ("write 0 - ! 0 X Y S.mean=65536", "refused 12 S mean -"),
    (
        "write 0 - ! 0 X Y Az.deviation=-5",
        "refused 12 Az deviation -",
    ),
    (
        "write 0 - ! 0 X Y El.scaling=70000",
        "refused 12 El scaling -",
    ),
    // Channel comes before attribute: X's deviation stands before Y's scaling value.
    (
        "write 0 - ! 0 X.deviation=-1 Y.scaling=-1",
        "refused 12 X deviation -",
    ),
    // In a channel the order of the bits, not that of the word.
    (
        "write 0 - ! 0 X.deviation=-1.minimum=40000 Y",
        "refused 12 X minimum -",
    ),
    (
        "write 0 - ! 0 X.mean=40000.maximum=40000 Y",
        "refused 12 X maximum -",
    ),
    // Channels in the order of the standard: VX before T, F before S, El before R.
    (
        "write 0 - ! 0 R.mean=-1 El.mean=-1 Y X",
        "refused 12 El mean -",
    ),
    (
        "write 0 - ! 0 S.mean=-1 F.mean=-1 Y X",
        "refused 12 F mean -",
    ),
    (
        "write 0 - ! 0 T.scaling=-1 VX.deviation=-1 Y X",
        "refused 12 VX deviation -",
    ),
    // The last word of a channel counts, and the last part of a word.
    (
        "write 0 - ! 0 X.mean=70000 X.maximum=70000 Y",
        "refused 12 X maximum -",
    ),
    (
        "write 0 - ! 0 X.mean=70000.mean=0 Y.mean=70000",
        "refused 12 Y mean -",
    ),
    // A number without its flag is untidy, never named; 4 is before it.
    ("write 0 - ! 0 X.!mean=70000 Y", "refused 11 -"),
    ("write 0 - ! 0 X.minimum=-40000 Y R.!mean=5", "refused 11 -"),
    (
        "write 0 - ! 0 X.minimum=-40000 Y !R.removed",
        "refused 11 -",
    ),
    ("write 0 - ! 0 X.minimum=-40000", "refused 4 -"),
    (
        "write 0 - ! 0 X.minimum=-40000 !Y.!mean=70000",
        "refused 4 -",
    ),
    (
        "write 0 - ! 0 X.!mean=0 Y.mean=70000",
        "refused 12 Y mean -",
    ),
    // The count is behind the attributes and before 13; 16777215 is good.
    (
        "write 16777216 - ! 2 X.constant Y.constant",
        "refused 12 count AAAA",
    ),
    (
        "write 16777215 - ! 2 X.constant Y.constant",
        "refused 15 AAAA",
    ),
    ("write 16777216 5 ! 2 X Y", "refused 12 count AAAA"),
    ("write 16777216 70000,0 ! 2 X Y", "refused 12 count AAAA"),
    (
        "write 16777216 - ! 2 X Y R.mean=-1",
        "refused 12 R mean AAAA",
    ),
    ("write 16777215 5 ! 2 X Y", "refused 13 AAAA"),
    // The values are behind 13. Their index goes on from point to point.
    ("write 1 70000 ! 0 X Y", "refused 13 -"),
    ("write 1 70000,0,0 ! 0 X Y", "refused 13 -"),
    ("write 1 32768,0 ! 0 X Y", "refused 12 value 0 X -"),
    ("write 1 0,-32769 ! 0 X Y", "refused 12 value 1 Y -"),
    ("write 2 0,0,-32769,70000 ! 0 X Y", "refused 12 value 2 X -"),
    ("write 3 0,0,0,0,0,32768 ! 0 X Y", "refused 12 value 5 Y -"),
    ("write 1 32767,-32768 ! 0 X Y", "refused 15 -"),
    ("write 1 70000,0 ! 0 X Y.mean=40000", "refused 12 Y mean -"),
    // Point after point, not channel after channel.
    ("write 2 0,40000,40000,0 ! 0 X Y", "refused 12 value 1 Y -"),
    // A constant channel has no value: X and Z here, so each point has Y and S.
    (
        "write 2 0,1,0,2 ! 0 X.constant Y Z.constant S",
        "refused 12 value 3 S -",
    ),
    (
        "write 2 0,1,40000,2 ! 0 X.constant Y Z.constant S",
        "refused 12 value 2 Y -",
    ),
    ("write 1 0,-1 ! 0 X.constant Y S", "refused 12 value 1 S -"),
    ("write 1 0,1 ! 0 X.constant Y S", "refused 15 -"),
    // Z to 65535 where X goes to 32767.
    ("write 1 0,0,65535 ! 0 X Y Z", "refused 15 -"),
    ("write 1 0,0,65536 ! 0 X Y Z", "refused 12 value 2 Z -"),
    ("write 1 0,0,-1 ! 0 X Y Z", "refused 12 value 2 Z -"),
    // Enough room, and extended data that are wanted: 12 before all of it.
    ("write 1 0,32768 AB 3 X Y", "refused 12 value 1 Y AAAAAA"),
    // A template's minimum, maximum, mean and deviation have one byte, its scaling value two.
    (
        "write-template ! 1 X.minimum=-129 Y",
        "refused 12 X minimum AA",
    ),
    ("write-template ! 1 X.minimum=-128 Y", "refused 15 AA"),
    ("write-template ! 1 X.mean=128 Y", "refused 12 X mean AA"),
    (
        "write-template ! 1 X.deviation=256 Y",
        "refused 12 X deviation AA",
    ),
    ("write-template ! 1 X.deviation=255 Y", "refused 15 AA"),
    ("write-template ! 1 X.scaling=65535 Y", "refused 15 AA"),
    (
        "write-template ! 1 X.scaling=65536 Y",
        "refused 12 X scaling AA",
    ),
    (
        "write-template ! 1 X Y Z.maximum=256",
        "refused 12 Z maximum AA",
    ),
    ("write-template ! 1 X Y S.maximum=255", "refused 15 AA"),
    // Its own maximum comes behind every attribute, and is another than a channel's.
    ("write-template 16777216 0 X Y", "refused 12 maximum -"),
    ("write-template 16777216 0 !", "refused 12 maximum -"),
    (
        "write-template 16777216 0 X Y R.maximum=256",
        "refused 12 R maximum -",
    ),
    (
        "write-template 16777215 0 X Y R.maximum=255",
        "refused 15 -",
    ),
    (
        "write-template 16777216 0 ! X.mean=70000",
        "refused 12 maximum -",
    ),
    ("write-template ! 2 ! X.mean=70000", "written 2 B100"),
    ("write-template !16777216 0 X Y", "refused 15 -"),
    (
        "write-template !16777216 0 X.mean=128 Y",
        "refused 12 X mean -",
    ),
    ("write-template 16777216 0 X.!mean=128 Y", "refused 11 -"),
    ("write-template 16777216 0 X.mean=128", "refused 4 -"),
    // Raw, then E, then F.
    ("thousandths -32769 0 0", "refused 12 raw"),
    ("thousandths 65536 32 2048", "refused 12 raw"),
    ("thousandths -32769 0 2048", "refused 12 raw"),
    ("thousandths 65535 32 2048", "refused 12 E"),
    ("thousandths 65535 32 2047", "refused 12 E"),
    ("thousandths -32768 31 2048", "refused 12 F"),
    ("thousandths 0 16 999999999999999999", "refused 12 F"),
    // A scaling value is one number: outside 0 to 65535 it is named E, behind raw.
    ("place 70000 -1", "refused 12 raw"),
    ("place 5 -1", "refused 12 E"),
    ("place 5 65536", "refused 12 E"),
    ("place -32769 65536", "refused 12 raw"),
    ("place 65536 0", "refused 12 raw"),
    ("place - -1", "refused 12 E"),
    ("place - 67583", "refused 12 E"),
    // Without its flag it isn't judged, and 20 comes before 12; absent stays absent.
    ("place 70000 !-1", "refused 20"),
    ("place 70000 !", "refused 20"),
    ("place . -1", "absent"),
];
