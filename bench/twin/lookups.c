// One sample point by itself, in a library of its own, as crates/lookup_costs has it.
#include "descriptions.c"
#include "records.c"
#include "calls.h"

// All that stands before the points, only measured. `lay` begins so too: apart from the rest clang makes other code of it there.
INLINE struct end lay_front(const uint8_t *s, size_t n, struct layout *l)
{
    if (n < sizeof marks || !are_marks(s))
        return refuse_marks(s, n);
    struct end e = go_over(s, n, sizeof marks, FULL, nullptr, &l->channels);
    return e.number ? e : read_opening(s, n, e.place, l);
}

// A point by itself, of which `there` bytes are there: how many of them are looked at is added. Answers where it begins.
INLINE struct end look_at(const uint8_t *s, size_t start, size_t there, const struct channels *channels, size_t *looked)
{
    size_t offset = 2 * numbers_before_switch(channels->stored);

    if (channels->stored & BIT(S) && offset < there && s[start + offset] > 1) {
        *looked += offset + 1;
        return refused(8, start + offset);
    }
    if (there < channels->width) {
        *looked += there;
        return is_short();
    }
    *looked += channels->width;
    return done(start);
}

// One point by its front and itself alone, and how many bytes were looked at.
static struct end look_up(const uint8_t *s, size_t n, size_t index, struct channels *channels, size_t *looked)
{
    struct layout l;
    struct end e = lay_front(s, n, &l);

    *looked = !e.number ? e.place : e.number == 1 ? n : e.place + 1;
    if (e.number)
        return e;
    if (l.count <= index)
        return refused(10, 0);
    *channels = l.channels;
    size_t start = e.place + index * l.channels.width;
    return look_at(s, start, start < n ? n - start : 0, &l.channels, looked);
}

struct looked twin_look_up(const uint8_t *s, size_t n, size_t index)
{
    struct channels channels;
    size_t looked;
    struct end e = look_up(s, n, index, &channels, &looked);

    return (struct looked){e.number, looked};
}

// A place as one number: its own, or one that no place has.
int32_t twin_look_up_point(const uint8_t *s, size_t n, size_t index, size_t channel)
{
    struct place places[CHANNELS];
    struct channels channels;
    size_t looked;
    struct end e = look_up(s, n, index, &channels, &looked);

    if (e.number)
        return 100000;
    point_at(s + e.place, &channels, places);
    struct place at = places[channel % CHANNELS];
    return at.kind == NUMBER ? at.number : at.kind == CONSTANT ? 200000 : 100000;
}
