// The twin, called as crates/costs has the Rattle functions called.
#include "calls.h"

static struct said said_of(const struct descriptor *d)
{
    return (struct said){
        .included = d->included,
        .constant = d->constant,
        .detrended = d->detrended,
        .scaled = d->scaling.given,
        .scaling = d->scaling.number,
        .bounded = d->minimum.given,
        .minimum = d->minimum.number,
        .capped = d->maximum.given,
        .maximum = d->maximum.number,
        .averaged = d->mean.given,
        .mean = d->mean.number,
        .spread = d->deviation.given,
        .deviation = d->deviation.number,
    };
}

struct judgement twin_judge(const uint8_t *s, size_t n, size_t channel)
{
    struct description d;
    struct layout l;
    struct end e = judge(s, n, &d, &l);

    return (struct judgement){e.number, e.place, l.count, l.extended, said_of(&d.channel[channel % CHANNELS])};
}

struct told twin_describe(const uint8_t *s, size_t n, bool compact, size_t channel)
{
    struct description d;
    struct end e = read_description(s, n, compact ? COMPACT : FULL, &d);

    return (struct told){e.number, e.place, said_of(&d.channel[channel % CHANNELS])};
}

struct seat twin_point(const uint8_t *s, size_t n, size_t index, size_t channel)
{
    struct place places[CHANNELS];

    point(s, n, index, places);
    struct place at = places[channel % CHANNELS];
    return (struct seat){at.kind, at.number};
}

static struct piece piece_of(struct part part)
{
    return (struct piece){part.length, part.length ? *part.bytes : 0};
}

struct piece twin_extended(const uint8_t *s, size_t n)
{
    return piece_of(extended_of(s, n));
}

struct piece twin_rest(const uint8_t *s, size_t n)
{
    return piece_of(rest_of(s, n));
}

struct finished twin_write(const uint8_t *header, size_t size, size_t count, const int32_t *values, size_t amount,
                           bool wanted, const uint8_t *extended, size_t length, uint8_t *out, size_t room)
{
    struct description d;
    struct part part = {extended, length};

    read_description(header, size, FULL, &d);
    struct end e = write_record(&d, count, values, amount, wanted ? &part : nullptr, out, room);
    return (struct finished){e.number, e.place};
}

struct stepped twin_step(const uint8_t *file, size_t n, size_t place)
{
    struct step step;

    step_at(file, n, place, &step);
    return (struct stepped){step.number, step.place, step.count, step.extended, step.next};
}

struct templated twin_read_template(const uint8_t *s, size_t n, size_t channel)
{
    struct template t;
    struct end e = read_template(s, n, &t);

    return (struct templated){e.number,  e.number ? e.place : 0, t.described,
                              t.limited, t.maximum,              said_of(&t.description.channel[channel % CHANNELS])};
}

struct finished twin_write_template(const uint8_t *header, size_t size, bool limited, uint32_t maximum, uint8_t *out,
                                    size_t room)
{
    struct template t = {.described = true, .limited = limited, .maximum = maximum};

    read_description(header, size, COMPACT, &t.description);
    struct end e = write_template(&t, out, room);
    return (struct finished){e.number, e.place};
}

struct told_reading twin_thousandths(int64_t raw, uint64_t e, uint64_t f)
{
    struct reading r = thousandths(raw, e, f);

    return (struct told_reading){r.number, r.thousandths};
}

struct told_reading twin_place(uint64_t kind, int32_t value, bool given, int32_t number)
{
    struct reading r = place_thousandths((struct place){kind < 2 ? kind : NUMBER, value},
                                         (struct attribute){given, number});

    return (struct told_reading){r.kind == ABSENT ? 1 : r.number, r.thousandths};
}
