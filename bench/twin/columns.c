// The columns of a record, in a library of their own, as crates/column_costs has it.
#include "descriptions.c"
#include "records.c"
#include "calls.h"

// The numbers of one channel: a width apart among the bytes, side by side in the buffer.
INLINE void fill_numbers(int32_t *restrict values, const uint8_t *restrict s, size_t width, size_t count, int32_t offset)
{
    for (size_t i = 0; i < count; i++)
        values[i] = (int32_t)pair(s + i * width) - offset;
}

INLINE void fill_switches(int32_t *restrict values, const uint8_t *restrict s, size_t width, size_t count)
{
    for (size_t i = 0; i < count; i++)
        values[i] = s[i * width];
}

// The points were judged: so each number is there, and each of S is 0 or 1.
static void fill_columns(int32_t *values, const uint8_t *s, const struct channels *channels, size_t count)
{
    for (uint32_t stored = channels->stored; stored; values += count) {
        uint32_t rank = take_first(&stored);
        if (rank == RANK(S)) {
            fill_switches(values, s, channels->width, count);
            s += 1;
        } else {
            fill_numbers(values, s, channels->width, count, offsets[FULL][rank]);
            s += 2;
        }
    }
}

// 0 where the columns were filled in, or the refusal's number: the whole slice's own, then 13.
uint64_t twin_read_columns(const uint8_t *s, size_t n, int32_t *values, size_t amount)
{
    struct layout l;
    struct end e = lay(s, n, nullptr, &l);

    if (e.number)
        return e.number;
    if (l.end < n)
        return 9;
    if (amount != (size_t)l.count * __builtin_popcount(l.channels.stored))
        return 13;
    fill_columns(values, s + l.points, &l.channels, l.count);
    return 0;
}
