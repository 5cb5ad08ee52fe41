// Readings as doubles, in a library of their own, as crates/double_costs has it: raw / ((1 + F/2048) * 2^(E-16)), once.
#include "twin.h"
#include "calls.h"

#define OUTSIDE ((struct told_double){.number = 12})
#define UNCALIBRATED ((struct told_double){.number = 20})

// A double by its bits: no operation is needed for it, so nothing is rounded.
INLINE double of_bits(uint64_t bits)
{
    return (union { uint64_t bits; double number; }){bits}.number;
}

struct told_double twin_double(int64_t raw, uint64_t e, uint64_t f)
{
    if (SELDOM(98303 < (uint64_t)raw + 32768) || SELDOM(31 < e) || SELDOM(2047 < f))
        return OUTSIDE;
    return (struct told_double){0, (double)raw / of_bits((e + 1007) << 52 | f << 41)};
}

// A scaling value is 2048 * E + F: so E and F stand in it as they do in the double's bits, and need not be taken apart.
struct told_double twin_double_place(int32_t value, bool given, int32_t number)
{
    if (SELDOM(!given))
        return UNCALIBRATED;
    if (SELDOM(98303 < (uint32_t)value + 32768) || SELDOM(65535 < (uint32_t)number))
        return OUTSIDE;
    return (struct told_double){0, value / of_bits((uint64_t)((uint32_t)number + 1007 * 2048) << 41)};
}
