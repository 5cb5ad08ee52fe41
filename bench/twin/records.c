// Full records (clause 7): judged, their parts and points handed back, written.
#include "twin.h"

// The format identifier (7.3.2) and the version (7.3.3).
static const uint8_t marks[8] = {0x53, 0x44, 0x49, 0x00, 0x20, 0x31, 0x30, 0x00};

// Whether eight bytes are the marks, in one look.
INLINE bool are_marks(const uint8_t *s)
{
    uint64_t these, those;

    __builtin_memcpy(&these, s, sizeof these);
    __builtin_memcpy(&those, marks, sizeof those);
    return these == those;
}

// Why bytes do not begin with the marks.
static struct end refuse_marks(const uint8_t *s, size_t n)
{
    size_t i = 0;

    while (i < n && s[i] == marks[i])
        i++;
    return i == n ? is_short() : refused(i < 4 ? 2 : 3, i);
}

// Why an opening is none of which fewer than five bytes are there.
static struct end refuse_opening(const uint8_t *s, size_t n, size_t at)
{
    if (at < n && s[at])
        return refused(6, at);
    if (at + 1 < n && s[at + 1] & 0x7F)
        return refused(7, at + 1);
    return is_short();
}

// The header's reserved byte (7.3.5), the body's opening byte (7.4.1), the count of points (7.4.2).
INLINE struct end read_opening(const uint8_t *s, size_t n, size_t at, struct layout *l)
{
    if (n - at < 5)
        return refuse_opening(s, n, at);
    if (s[at])
        return refused(6, at);
    uint32_t opening = four(s + at + 1);
    if (opening & 0x7F000000)
        return refused(7, at + 1);
    l->extended = opening >> 31;
    l->count = opening & 0xFFFFFF;
    return done(at + 5);
}

// The channels before S have the bits above that of S.
INLINE size_t numbers_before_switch(uint32_t stored)
{
    return __builtin_popcount(stored / (2 * BIT(S)));
}

// Points with a switch are looked at one byte a point. How many are whole is asked once, and not at each.
INLINE struct end pass_switches(const uint8_t *s, size_t n, size_t at, const struct layout *l)
{
    size_t width = l->channels.width, size = l->count * width;
    size_t offset = 2 * numbers_before_switch(l->channels.stored);
    bool cut = n - at < size;

    if (cut)
        size = (n - at) / width * width;
    size_t next = at + offset;
    for (size_t last = next + size; next != last; next += width)
        if (s[next] > 1)
            return refused(8, next);
    if (!cut)
        return done(at + size);
    return next < n && s[next] > 1 ? refused(8, next) : is_short();
}

// The points (7.4.2). Those without a switch may be any bytes, and are passed over at once.
INLINE struct end pass_points(const uint8_t *s, size_t n, size_t at, const struct layout *l)
{
    if (l->channels.stored & BIT(S))
        return pass_switches(s, n, at, l);
    size_t size = l->count * l->channels.width;
    return n - at < size ? is_short() : done(at + size);
}

// The extended data: a length of two bytes, and that many bytes (7.4.3).
INLINE struct end pass_extension(const uint8_t *s, size_t n, size_t at)
{
    if (n - at < 2)
        return is_short();
    size_t size = 2 + pair(s + at);
    return n - at < size ? is_short() : done(at + size);
}

// The record that some bytes begin with, described in `d` or, where that is NULL, only measured.
// Where the number is not 0 nothing else is to be looked at.
INLINE struct end lay(const uint8_t *s, size_t n, struct description *d, struct layout *l)
{
    if (n < sizeof marks || !are_marks(s))
        return refuse_marks(s, n);
    struct end e = go_over(s, n, sizeof marks, FULL, d, &l->channels);
    if (e.number)
        return e;
    e = read_opening(s, n, e.place, l);
    if (e.number)
        return e;
    l->points = e.place;
    e = pass_points(s, n, e.place, l);
    if (e.number)
        return e;
    l->extension = e.place;
    if (l->extended)
        e = pass_extension(s, n, e.place);
    l->end = e.place;
    return e;
}

// The verdict, with a description that says nothing where there is no record.
LIBRARY struct end judge(const uint8_t *s, size_t n, struct description *d, struct layout *l)
{
    *d = (struct description){};
    struct end e = lay(s, n, d, l);

    if (e.number) {
        *d = (struct description){};
        *l = (struct layout){};
    }
    return e;
}

// The extended data: the empty part at the record's end where it has none, and at the start where there is no record.
LIBRARY struct part extended_of(const uint8_t *s, size_t n)
{
    struct layout l;

    if (lay(s, n, nullptr, &l).number)
        return (struct part){s, 0};
    size_t start = l.extended ? l.extension + 2 : l.end;
    return (struct part){s + start, l.end - start};
}

// What stands behind the record: the empty part at the start where there is none.
LIBRARY struct part rest_of(const uint8_t *s, size_t n)
{
    struct layout l;

    if (lay(s, n, nullptr, &l).number)
        return (struct part){s, 0};
    return (struct part){s + l.end, n - l.end};
}

// The places of some channels that have two bytes each. Answers where the next one stands.
INLINE const uint8_t *places_of(const uint8_t *s, uint32_t stored, struct place places[CHANNELS])
{
    while (stored) {
        uint32_t rank = take_first(&stored);
        places[R - rank] = (struct place){NUMBER, (int32_t)pair(s) - offsets[FULL][rank]};
        s += 2;
    }
    return s;
}

// A point whose bytes are known to be there and good. S is between the channels that have two bytes.
INLINE void point_at(const uint8_t *s, const struct channels *channels, struct place places[CHANNELS])
{
    uint32_t stored = channels->stored, constant = channels->included & ~stored;

    __builtin_memset(places, 0, CHANNELS * sizeof *places);
    while (constant)
        places[R - take_first(&constant)].kind = CONSTANT;
    s = places_of(s, stored & ~(2 * BIT(S) - 1), places);
    if (stored & BIT(S))
        places[S] = (struct place){NUMBER, *s++};
    places_of(s, stored & (BIT(S) - 1), places);
}

// One point of the record at the front; 10 where it has none with this index. The places are all absent where there is
// none.
LIBRARY struct end point(const uint8_t *s, size_t n, size_t index, struct place places[CHANNELS])
{
    struct layout l;
    struct end e = lay(s, n, nullptr, &l);

    if (!e.number && l.count <= index)
        e = refused(10, 0);
    if (e.number)
        __builtin_memset(places, 0, CHANNELS * sizeof *places);
    else
        point_at(s + l.points + index * l.channels.width, &l.channels, places);
    return e;
}

// The numbers of a point in their order: what is added to each before it is stored, and the bits that it has not then.
struct row {
    size_t size;
    size_t before; // how many stand before S
    bool switched; // whether S is among them
    uint32_t offset[CHANNELS], outside[CHANNELS];
};

// S holds 0 and 1, any other channel what two bytes do.
static void stored_in(uint32_t stored, struct row *row)
{
    size_t size = 0;

    row->before = numbers_before_switch(stored);
    row->switched = stored & BIT(S);
    for (; stored; size++) {
        row->offset[size] = offsets[FULL][take_first(&stored)];
        row->outside[size] = ~0xFFFFu;
    }
    row->size = size;
    if (row->switched)
        row->outside[row->before] = ~1u;
}

// The bits that no number may have are gathered for a point, so that clang goes through its numbers four at a time.
static bool values_fit(const struct row *row, size_t count, const int32_t *values)
{
    size_t size = row->size;

    for (; count; count--) {
        uint32_t flaws = 0;
        for (size_t j = 0; j < size; j++)
            flaws |= ((uint32_t)values[j] + row->offset[j]) & row->outside[j];
        if (flaws)
            return false;
        values += size;
    }
    return true;
}

INLINE uint8_t *put_numbers(uint8_t *restrict out, const int32_t *restrict values, const uint32_t *restrict offset,
                            size_t size)
{
    for (size_t j = 0; j < size; j++) {
        uint16_t number = __builtin_bswap16((uint16_t)((uint32_t)values[j] + offset[j]));
        __builtin_memcpy(out + 2 * j, &number, 2);
    }
    return out + 2 * size;
}

// S has one byte, between the others.
static uint8_t *put_points(uint8_t *out, const struct row *row, size_t count, const int32_t *values)
{
    size_t size = row->size, before = row->before, behind = before + row->switched;

    for (; count; count--) {
        out = put_numbers(out, values, row->offset, before);
        if (before < behind)
            *out++ = values[before];
        out = put_numbers(out, values + behind, row->offset + behind, size - behind);
        values += size;
    }
    return out;
}

INLINE uint8_t *put_opening(uint8_t *out, bool extended, size_t count)
{
    *out++ = 0;
    *out++ = extended ? 0x80 : 0;
    *out++ = count >> 16;
    *out++ = count >> 8;
    *out++ = count;
    return out;
}

INLINE void put_extension(uint8_t *out, const struct part *extended)
{
    *out++ = extended->length >> 8;
    *out++ = extended->length;
    __builtin_memcpy(out, extended->bytes, extended->length);
}

// Writes a record. `extended` is NULL where none are wanted. The refusals come in this order: 4, 11, 12 for the
// description, 12 for the count, 13, 12 for the values, 14, 15; on any of them the output is as it was.
LIBRARY struct end write_record(const struct description *d, size_t count, const int32_t *values, size_t amount,
                        const struct part *extended, uint8_t *out, size_t room)
{
    struct aside aside;
    uint32_t flaw = put_aside(d, FULL, &aside);

    if (flaw)
        return refused(flaw, 0);
    if (16777215 < count)
        return refused(12, 0);
    size_t numbers = __builtin_popcount(aside.stored);
    if (amount != count * numbers)
        return refused(13, 0);
    struct row row;
    if (amount) {
        stored_in(aside.stored, &row);
        if (!values_fit(&row, count, values))
            return refused(12, 0);
    }
    if (extended && 65535 < extended->length)
        return refused(14, 0);
    size_t width = 2 * numbers - (aside.stored & BIT(S) ? 1 : 0);
    size_t size = 13 + aside.size + count * width + (extended ? 2 + extended->length : 0);
    if (room < size)
        return refused(15, 0);

    __builtin_memcpy(out, marks, sizeof marks);
    __builtin_memcpy(out + sizeof marks, aside.bytes, aside.size);
    out = put_opening(out + sizeof marks + aside.size, extended, count);
    if (amount)
        out = put_points(out, &row, count, values);
    if (extended)
        put_extension(out, extended);
    return done(size);
}
