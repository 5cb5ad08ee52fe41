// The C twin of the library: the same questions, the same answers, the same refusals in the same order.
// ISO/IEC 19794-7:2007; the clauses are named where they are followed. No header but this one is used.
#pragma once

typedef __UINT8_TYPE__ uint8_t;
typedef __UINT16_TYPE__ uint16_t;
typedef __INT32_TYPE__ int32_t;
typedef __UINT32_TYPE__ uint32_t;
typedef __INT64_TYPE__ int64_t;
typedef __UINT64_TYPE__ uint64_t;
typedef __SIZE_TYPE__ size_t;

// For a function that clang is to see once for each use, with what is constant there.
#define INLINE static inline __attribute__((always_inline))

// For a function of the library: static, as the Rattle compiler has it, which sees all crates at once.
#define LIBRARY [[maybe_unused]] static

// A test that seldom holds: clang then branches, and does not gather the answers of several.
#define SELDOM(test) __builtin_expect(test, false)

// The channels in the order of 7.3.4.1.
enum channel { X, Y, Z, VX, VY, AX, AY, T, DT, F, S, TX, TY, AZ, EL, R, CHANNELS };

// A set of channels has a bit for each, as the inclusion bytes have them. The rank of a channel is its bit's: 15 for X,
// 0 for R.
#define RANK(channel) (R - (channel))
#define BIT(channel) (0x8000u >> (channel))

// What a descriptor says of a channel (7.3.4.2). A number whose flag is not set is 0.
struct attribute {
    bool given;
    int32_t number;
};

struct descriptor {
    bool included;
    struct attribute scaling, minimum, maximum, mean, deviation;
    bool constant, detrended;
};

struct description {
    struct descriptor channel[CHANNELS];
};

// A number is stored in two bytes in a record (clause 7), in one in a template (clause 8).
enum width { COMPACT = 1, FULL = 2 };

// What a header says of its channels without their attributes: which are included, which of these have a number in a
// sample point, and how many bytes a point has.
struct channels {
    uint32_t included, stored;
    size_t width;
};

// How something ended: number 0 and the place behind it, or a refusal's number and place. Short (1) has no place.
struct end {
    size_t place;
    uint32_t number;
};

// What a sample point says of a channel.
enum kind { ABSENT, CONSTANT, NUMBER };

struct place {
    enum kind kind;
    int32_t number;
};

// Where the parts of a record lie.
struct layout {
    struct channels channels;
    size_t points, extension, end;
    uint32_t count;
    bool extended;
};

// A part of the caller's own bytes.
struct part {
    const uint8_t *bytes;
    size_t length;
};

// A step over a file. At its end the number is END.
enum { END = 100 };

struct step {
    size_t place; // a record's length, or the refusal's place in the file
    size_t next;
    uint32_t number;
    uint32_t count;
    bool extended;
};

// A compact parameter template (8.2). What it does not have is zeros.
struct template {
    struct description description;
    uint32_t maximum;
    bool described, limited;
};

// A reading in thousandths; number 12 where something is outside its range. An absent place has the kind ABSENT.
struct reading {
    int64_t thousandths;
    uint32_t number;
    enum kind kind;
};

// A description that was put aside: its bytes, and the channels that have a number in a sample point.
struct aside {
    uint8_t bytes[178]; // two inclusion bytes, and eleven for each of sixteen channels
    size_t size;
    uint32_t stored;
};

INLINE struct end done(size_t place)
{
    return (struct end){place, 0};
}

INLINE struct end is_short(void)
{
    return (struct end){0, 1};
}

INLINE struct end refused(uint32_t number, size_t place)
{
    return (struct end){place, number};
}

// Two bytes and four, the highest first, in one load.
INLINE uint32_t pair(const uint8_t *at)
{
    uint16_t number;

    __builtin_memcpy(&number, at, sizeof number);
    return __builtin_bswap16(number);
}

INLINE uint32_t four(const uint8_t *at)
{
    uint32_t number;

    __builtin_memcpy(&number, at, sizeof number);
    return __builtin_bswap32(number);
}

// Takes the first channel out of a set that is not empty, and answers its rank. So a loop goes over the channels that
// are there, and not over sixteen.
INLINE uint32_t take_first(uint32_t *set)
{
    uint32_t rank = 31 - __builtin_clz(*set);

    *set &= ~(1u << rank);
    return rank;
}

LIBRARY struct end read_description(const uint8_t *s, size_t n, enum width width, struct description *d);
LIBRARY uint32_t put_aside(const struct description *d, enum width width, struct aside *aside);

LIBRARY struct end judge(const uint8_t *s, size_t n, struct description *d, struct layout *l);
LIBRARY struct part extended_of(const uint8_t *s, size_t n);
LIBRARY struct part rest_of(const uint8_t *s, size_t n);
LIBRARY struct end point(const uint8_t *s, size_t n, size_t index, struct place places[CHANNELS]);
LIBRARY struct end write_record(const struct description *d, size_t count, const int32_t *values, size_t amount,
                        const struct part *extended, uint8_t *out, size_t room);

LIBRARY void step_at(const uint8_t *file, size_t n, size_t place, struct step *step);

LIBRARY struct end read_template(const uint8_t *s, size_t n, struct template *t);
LIBRARY struct end write_template(const struct template *t, uint8_t *out, size_t room);

LIBRARY struct reading thousandths(int64_t raw, uint64_t e, uint64_t f);
LIBRARY struct reading place_thousandths(struct place place, struct attribute scaling);
