// The compact parameter template (8.2), with the limits of document 01.
#include "twin.h"

enum { OUTER = 0xB1, DESCRIBED = 0x81, LIMITED = 0x82 };

// The field 82 or the end. The maximum has one to three bytes, the first of several not zero.
static struct end read_limited(const uint8_t *s, size_t n, size_t at, struct template *t)
{
    if (n <= at)
        return done(at);
    if (s[at] != LIMITED)
        return refused(16, 0);
    if (n <= at + 1 || n - (at + 2) < s[at + 1])
        return refused(17, 0);
    size_t size = s[at + 1];
    at += 2;
    if (size == 0 || 3 < size || (1 < size && s[at] == 0))
        return refused(18, 0);
    t->limited = true;
    for (; size; size--)
        t->maximum = t->maximum << 8 | s[at++];
    if (at < n)
        return refused(16, 0);
    return done(at);
}

// The field 81, which its description has to fill, and what may follow it.
static struct end read_described(const uint8_t *s, size_t n, struct template *t)
{
    if (n <= 3 || n - 4 < s[3])
        return refused(17, 0);
    size_t size = s[3];
    struct channels channels;
    struct end e = go_over(s + 4, size, 0, COMPACT, &t->description, &channels);
    if (e.number == 1)
        return refused(17, 0);
    if (e.number)
        return refused(e.number, 4 + e.place);
    if (e.place != size)
        return refused(17, 0);
    t->described = true;
    return read_limited(s, n, 4 + size, t);
}

static struct end read_outer(const uint8_t *s, size_t n, struct template *t)
{
    if (n == 0)
        return is_short();
    if (s[0] != OUTER)
        return refused(16, 0);
    if (n == 1)
        return is_short();
    size_t size = s[1];
    if (128 <= size)
        return refused(17, 0);
    if (n - 2 < size)
        return is_short();
    if (size < n - 2)
        return refused(9, 2 + size);
    if (2 < n && s[2] == DESCRIBED)
        return read_described(s, n, t);
    return read_limited(s, n, 2, t);
}

// The template is all zeros where there is none.
LIBRARY struct end read_template(const uint8_t *s, size_t n, struct template *t)
{
    *t = (struct template){};
    struct end e = read_outer(s, n, t);
    if (e.number)
        *t = (struct template){};
    return e;
}

static size_t fewest(uint32_t number)
{
    return number < 256 ? 1 : number < 65536 ? 2 : 3;
}

INLINE uint8_t *put_head(uint8_t *out, uint8_t tag, size_t size)
{
    *out++ = tag;
    *out++ = size;
    return out;
}

// Writes what is wanted; what is not is not looked at. Refusals: 4, 11, 12 for the description, 12 for the maximum, 15.
LIBRARY struct end write_template(const struct template *t, uint8_t *out, size_t room)
{
    struct aside aside;
    size_t size = 0, limited = 0;

    if (t->described) {
        uint32_t flaw = put_aside(&t->description, COMPACT, &aside);
        if (flaw)
            return refused(flaw, 0);
        size += 2 + aside.size;
    }
    if (t->limited) {
        if (16777215 < t->maximum)
            return refused(12, 0);
        limited = fewest(t->maximum);
        size += 2 + limited;
    }
    if (room < 2 + size)
        return refused(15, 0);

    out = put_head(out, OUTER, size);
    if (t->described) {
        out = put_head(out, DESCRIBED, aside.size);
        __builtin_memcpy(out, aside.bytes, aside.size);
        out += aside.size;
    }
    if (t->limited) {
        out = put_head(out, LIMITED, limited);
        for (size_t i = limited; i-- > 0;)
            *out++ = t->maximum >> 8 * i;
    }
    return done(2 + size);
}
