// Inclusion bytes and descriptors (7.3.4; 8.2.2 in a template): measured, read, judged, written.
#include "twin.h"

// The flags of a descriptor (7.3.4.2).
enum { SCALED = 128, BOUNDED = 64, CAPPED = 32, AVERAGED = 16, SPREAD = 8, FIXED = 4, DETRENDED = 2, RESERVED = 1 };

// How many bytes a descriptor has, by the five flags that announce attributes. Scaling has two bytes in either format.
static const uint8_t descriptor_size[FULL + 1][32] = {
    [COMPACT] = {1, 2, 2, 3, 2, 3, 3, 4, 2, 3, 3, 4, 3, 4, 4, 5, 3, 4, 4, 5, 4, 5, 5, 6, 4, 5, 5, 6, 5, 6, 6, 7},
    [FULL] = {1, 3, 3, 5, 3, 5, 5, 7, 3, 5, 5, 7, 5, 7, 7, 9, 3, 5, 5, 7, 5, 7, 7, 9, 5, 7, 7, 9, 7, 9, 9, 11},
};

// What a stored number is larger by than the number itself, by the rank of its channel: X, Y, VX, VY, AX, AY, TX and TY
// are signed.
#define SIGNED(by)                                                                                                     \
    {                                                                                                                  \
        [RANK(X)] = by, [RANK(Y)] = by, [RANK(VX)] = by, [RANK(VY)] = by, [RANK(AX)] = by, [RANK(AY)] = by,            \
        [RANK(TX)] = by, [RANK(TY)] = by                                                                               \
    }

static const int32_t offsets[FULL + 1][CHANNELS] = {[COMPACT] = SIGNED(128), [FULL] = SIGNED(32768)};

// An attribute whose bytes are there, if it has any. Answers where the next one stands.
INLINE const uint8_t *read_attribute(const uint8_t *at, bool given, enum width width, int32_t offset,
                                     struct attribute *a)
{
    if (!given)
        return at; // it is zeros already
    a->given = true;
    a->number = (int32_t)(width == FULL ? pair(at) : *at) - offset;
    return at + width;
}

// A descriptor whose bytes are there, into one of zeros (7.3.4.3 to 7.3.4.5). Neither scaling nor the deviation has a
// sign.
INLINE void read_descriptor(const uint8_t *at, int32_t offset, enum width width, struct descriptor *d)
{
    uint8_t flags = *at++;

    d->included = true;
    if (flags & (FIXED | DETRENDED)) {
        d->constant = flags & FIXED;
        d->detrended = flags & DETRENDED;
    }
    at = read_attribute(at, flags & SCALED, FULL, 0, &d->scaling);
    at = read_attribute(at, flags & BOUNDED, width, offset, &d->minimum);
    at = read_attribute(at, flags & CAPPED, width, offset, &d->maximum);
    at = read_attribute(at, flags & AVERAGED, width, offset, &d->mean);
    read_attribute(at, flags & SPREAD, width, 0, &d->deviation);
}

// Goes over the inclusion bytes and the descriptors from a place on. A description that is wanted is of zeros and gets
// what is said; where `d` is NULL the header is only measured, and of a descriptor the first byte is looked at.
INLINE struct end go_over(const uint8_t *s, size_t n, size_t start, enum width width, struct description *d,
                          struct channels *channels)
{
    const uint8_t *at = s + start, *end = s + n;
    size_t size = 0;

    if (n - start < 2) // the first byte is judged before the second is looked for
        return n > start && *at < 0xC0 ? refused(4, start) : is_short();
    if (*at < 0xC0) // X and Y have the two highest bits
        return refused(4, start);
    uint32_t included = pair(at), stored = included, left = included;
    at += 2;
    do {
        uint32_t rank = take_first(&left);
        if (at == end)
            return is_short();
        uint8_t flags = *at;
        size += 2;
        if (flags & (RESERVED | FIXED)) { // one test where neither is set
            if (flags & RESERVED)
                return refused(5, at - s);
            stored &= ~BIT(R - rank);
            size -= 2;
        }
        size_t length = descriptor_size[width][flags / SPREAD];
        if ((size_t)(end - at) < length)
            return is_short();
        if (d)
            read_descriptor(at, offsets[width][rank], width, &d->channel[R - rank]);
        at += length;
    } while (left);
    *channels = (struct channels){included, stored, size - (stored & BIT(S) ? 1 : 0)};
    return done(at - s);
}

// The description that some bytes begin with: zeros where there is none.
LIBRARY struct end read_description(const uint8_t *s, size_t n, enum width width, struct description *d)
{
    struct channels channels;

    *d = (struct description){};
    struct end e = width == FULL ? go_over(s, n, 0, FULL, d, &channels) : go_over(s, n, 0, COMPACT, d, &channels);
    if (e.number)
        *d = (struct description){};
    return e;
}

static bool has_flag(const struct descriptor *d)
{
    return d->scaling.given | d->minimum.given | d->maximum.given | d->mean.given | d->deviation.given | d->constant |
           d->detrended;
}

static bool is_tidy_attribute(const struct attribute *a)
{
    return a->given || a->number == 0;
}

// A channel that is not included has no flag, and no number stands without its flag.
static bool is_tidy(const struct descriptor *d)
{
    return (d->included || !has_flag(d)) && is_tidy_attribute(&d->scaling) && is_tidy_attribute(&d->minimum) &&
           is_tidy_attribute(&d->maximum) && is_tidy_attribute(&d->mean) && is_tidy_attribute(&d->deviation);
}

// Why a description cannot be written that is known to have a flaw: 4, 11 or 12, stage by stage.
static uint32_t flaw_of(const struct description *d)
{
    if (!d->channel[X].included || !d->channel[Y].included)
        return 4;
    for (enum channel c = X; c < CHANNELS; c++)
        if (!is_tidy(&d->channel[c]))
            return 11;
    return 12;
}

INLINE uint8_t *put_number(uint8_t *out, uint32_t number, enum width width)
{
    if (width == FULL)
        *out++ = number >> 8;
    *out++ = number;
    return out;
}

// What goes on while a descriptor is put: where the next byte goes, the flags so far, and the bits that no number may
// have. These are gathered, and asked for once.
struct putting {
    uint8_t *out;
    uint32_t flags, flaws;
};

// A number that is not given is 0. One that is given has no bit above those that are stored: one that is too small
// wraps to a large one.
INLINE void put_attribute(struct putting *p, const struct attribute *a, uint32_t flag, enum width width,
                          uint32_t offset)
{
    uint32_t number = a->number;

    if (!a->given) {
        p->flaws |= number;
        return;
    }
    number += offset;
    p->flags |= flag;
    p->flaws |= number >> 8 * width;
    p->out = put_number(p->out, number, width);
}

INLINE void put_descriptor(struct putting *p, const struct descriptor *d, uint32_t offset, enum width width)
{
    uint8_t *start = p->out++;

    p->flags = d->constant * FIXED | d->detrended * DETRENDED;
    put_attribute(p, &d->scaling, SCALED, FULL, 0);
    put_attribute(p, &d->minimum, BOUNDED, width, offset);
    put_attribute(p, &d->maximum, CAPPED, width, offset);
    put_attribute(p, &d->mean, AVERAGED, width, offset);
    put_attribute(p, &d->deviation, SPREAD, width, 0);
    *start = p->flags;
}

// Of a channel that is not included nothing is said.
INLINE uint32_t flaws_of_absent(const struct descriptor *d)
{
    return has_flag(d) | d->scaling.number | d->minimum.number | d->maximum.number | d->mean.number |
           d->deviation.number;
}

INLINE uint32_t put_channels(const struct description *d, enum width width, struct aside *aside)
{
    struct putting p = {.out = aside->bytes + 2};
    uint32_t included = 0, stored = 0;

    for (enum channel c = X; c < CHANNELS; c++) {
        const struct descriptor *at = &d->channel[c];
        included = included << 1 | at->included;
        stored = stored << 1 | (at->included & !at->constant);
        if (at->included)
            put_descriptor(&p, at, offsets[width][RANK(c)], width);
        else
            p.flaws |= flaws_of_absent(at);
    }
    if (p.flaws || included < (BIT(X) | BIT(Y)))
        return flaw_of(d);
    put_number(aside->bytes, included, FULL);
    aside->size = p.out - aside->bytes;
    aside->stored = stored;
    return 0;
}

// Judges a description and puts it aside, in one go: 4, 11 or 12 where it cannot be written, stage by stage; or 0.
LIBRARY uint32_t put_aside(const struct description *d, enum width width, struct aside *aside)
{
    return width == FULL ? put_channels(d, FULL, aside) : put_channels(d, COMPACT, aside);
}
