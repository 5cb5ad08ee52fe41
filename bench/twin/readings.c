// Readings in thousandths (7.3.4.3): raw * 2^27 / ((2048 + F) * 2^E), to the nearest, a half going away from zero.
#include "twin.h"

#define OUTSIDE ((struct reading){.number = 12, .kind = NUMBER})
#define UNCALIBRATED ((struct reading){.number = 20, .kind = NUMBER})

// The nearest to n / d, a half going away from zero, is the half of 2 * n / d without its rest: rounded up where it is
// not below zero, else down, as a shift does it by itself. So there is one division, and no rest is looked at.
LIBRARY struct reading thousandths(int64_t raw, uint64_t e, uint64_t f)
{
    if (SELDOM(98303 < (uint64_t)raw + 32768) || SELDOM(31 < e) || SELDOM(2047 < f))
        return OUTSIDE;
    int64_t d = (int64_t)((2048 + f) << e), twice = 2 * 134217728000 * raw / d;
    return (struct reading){.thousandths = (twice + (raw >= 0)) >> 1, .kind = NUMBER};
}

// One place of a point: a constant is read as raw 1; without a scaling value its channel's calibration is unknown.
LIBRARY struct reading place_thousandths(struct place place, struct attribute scaling)
{
    if (place.kind == ABSENT)
        return (struct reading){.kind = ABSENT};
    int64_t raw = place.kind == CONSTANT ? 1 : place.number;
    if (!scaling.given)
        return UNCALIBRATED;
    if (scaling.number < 0)
        return OUTSIDE;
    return thousandths(raw, (uint32_t)scaling.number >> 11, scaling.number & 2047);
}
