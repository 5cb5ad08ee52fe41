// Calls a function of the library or its twin on a prepared input, between two marks that bench/count.c looks for.
//   driver compare            both sides answer alike on many inputs, or the first difference is told
//   driver file SIZE          a file for the listing program, on standard output
//   driver mark SIDE ROW SIZE one call (or a loop of calls); SIDE is `rattle`, `twin` or `empty`
// The functions of the side `empty` do nothing: what they take is the driver's own cost, which is taken off.
#include "twin/calls.h"

long write(int file, const void *bytes, size_t size);
void *mmap(void *at, size_t size, int protection, int flags, int file, long offset);
int strcmp(const char *a, const char *b);
long strtol(const char *word, char **end, int base);
int memcmp(const void *a, const void *b, size_t size);

// ---- The two sides

struct side {
    typeof(costs_judge) *judge;
    typeof(costs_describe) *describe;
    typeof(costs_point) *point;
    typeof(costs_look_up) *look_up;
    typeof(costs_look_up_point) *look_up_point;
    typeof(costs_read_columns) *read_columns;
    typeof(costs_extended) *extended;
    typeof(costs_rest) *rest;
    typeof(costs_write) *write;
    typeof(costs_step) *step;
    typeof(costs_read_template) *read_template;
    typeof(costs_write_template) *write_template;
    typeof(costs_thousandths) *thousandths;
    typeof(costs_place) *place;
    typeof(costs_double) *to_double;
    typeof(costs_double_place) *double_place;
};

#define SIDE(s)                                                                                                        \
    {                                                                                                                  \
        s##_judge, s##_describe, s##_point, s##_look_up, s##_look_up_point, s##_read_columns, s##_extended, s##_rest,  \
            s##_write, s##_step, s##_read_template, s##_write_template, s##_thousandths, s##_place, s##_double,        \
            s##_double_place                                                                                           \
    }

static const struct side rattle = SIDE(costs), twin = SIDE(twin);

// Two instructions: the answer's address is handed back, as every function does that answers in memory, and nothing is stored there.
__attribute__((naked)) static void nothing(void)
{
    __asm__("mov %rdi, %rax\n\tret");
}

static const struct side empty = {
    (void *)nothing, (void *)nothing, (void *)nothing, (void *)nothing, (void *)nothing, (void *)nothing,
    (void *)nothing, (void *)nothing, (void *)nothing, (void *)nothing, (void *)nothing, (void *)nothing,
    (void *)nothing, (void *)nothing, (void *)nothing, (void *)nothing,
};

// ---- Inputs

enum { BARE = 0, EVERY = 0xF8, ALL = 0xFFFF, XY = 0xC000, SWITCH = 0x0020, CONSTANT_FLAG = 4 };

// Room for 16,777,215 points of X and Y; only what is written to has memory behind it.
enum { ROOM = 80 << 20 };

static uint8_t *bytes, *output;
static int32_t *values;

static void *room(size_t size)
{
    return mmap(nullptr, size, 3, 0x4022, -1, 0); // read and write; private, anonymous, no reserve
}

static uint32_t dice = 1;

static uint32_t throw(void)
{
    dice = dice * 1664525 + 1013904223;
    return dice >> 8;
}

// A description: the channels of the inclusion bits, each with these flags; S is constant where it may not be stored.
static size_t put_header(uint8_t *at, uint32_t inclusion, uint32_t flags, bool switched, enum width width)
{
    uint8_t *start = at;

    *at++ = inclusion >> 8;
    *at++ = inclusion;
    for (enum channel c = X; c < CHANNELS; c++) {
        if (!(inclusion & 0x8000u >> c))
            continue;
        uint32_t own = c == S && !switched ? flags | CONSTANT_FLAG : flags;
        *at++ = own;
        for (uint32_t bit = 128; bit >= 8; bit /= 2) {
            if (!(own & bit))
                continue;
            if (bit == 128 || width == FULL)
                *at++ = 0x80 + c;
            *at++ = bit;
        }
    }
    return at - start;
}

// A record with `count` points whose bytes are zeros, S among them, and perhaps extended data.
static size_t put_record(uint8_t *at, uint32_t inclusion, uint32_t flags, bool switched, uint32_t count, long extended)
{
    static const uint8_t marks[8] = {0x53, 0x44, 0x49, 0x00, 0x20, 0x31, 0x30, 0x00};
    uint8_t *start = at;
    size_t width = 0;

    __builtin_memcpy(at, marks, sizeof marks);
    at += sizeof marks;
    at += put_header(at, inclusion, flags, switched, FULL);
    for (enum channel c = X; c < CHANNELS; c++)
        if (inclusion & 0x8000u >> c && !(flags & CONSTANT_FLAG) && (c != S || switched))
            width += c == S ? 1 : 2;
    *at++ = 0;
    *at++ = extended >= 0 ? 128 : 0;
    *at++ = count >> 16;
    *at++ = count >> 8;
    *at++ = count;
    at += count * width;
    if (extended >= 0) {
        *at++ = extended >> 8;
        *at++ = extended;
        at += extended;
    }
    return at - start;
}

// ---- The rows

// The counter looks for the one int3 that is here.
__attribute__((noinline)) static void mark(void)
{
    __asm__ volatile("int3" ::: "memory");
}

// The answer is in memory afterwards, and is not looked at.
#define BETWEEN(call)                                                                                                  \
    do {                                                                                                               \
        typeof(call) answer;                                                                                           \
        mark();                                                                                                        \
        answer = call;                                                                                                 \
        __asm__ volatile("" ::"m"(answer) : "memory");                                                                 \
        mark();                                                                                                        \
    } while (0)

#define BETWEEN_EACH(call)                                                                                             \
    do {                                                                                                               \
        typeof(call) answer;                                                                                           \
        mark();                                                                                                        \
        for (size_t i = 0; i < size; i++) {                                                                            \
            answer = call;                                                                                             \
            __asm__ volatile("" ::"m"(answer) : "memory");                                                             \
        }                                                                                                              \
        mark();                                                                                                        \
    } while (0)

static bool is(const char *a, const char *b)
{
    return strcmp(a, b) == 0;
}

// A known number of instructions: 2 * size + 1.
static void known(size_t size)
{
    __asm__ volatile("mov %0, %%rax\n1: dec %%rax\njnz 1b" ::"r"(size) : "rax", "cc", "memory");
}

// One step for each record of a file.
static void walk(const struct side *side, size_t n, size_t records)
{
    size_t place = 0;

    mark();
    for (size_t i = 0; i < records; i++)
        place = side->step(bytes, n, place).next;
    mark();
}

__attribute__((noinline)) static bool count_row(const struct side *side, const char *row, size_t size)
{
    size_t n;

    if (is(row, "known")) {
        mark();
        if (side != &empty)
            known(size);
        mark();
    } else if (is(row, "judge")) { // points of X and Y, not looked at
        n = put_record(bytes, XY, BARE, false, size, -1);
        BETWEEN(side->judge(bytes, n, Y));
    } else if (is(row, "judge-full")) { // a header of 187 bytes; points of fifteen channels, not looked at
        n = put_record(bytes, ALL, EVERY, false, size, -1);
        BETWEEN(side->judge(bytes, n, Y));
    } else if (is(row, "judge-switch")) { // points of X, Y and S
        n = put_record(bytes, XY | SWITCH, BARE, true, size, -1);
        BETWEEN(side->judge(bytes, n, Y));
    } else if (is(row, "describe")) {
        n = put_header(bytes, ALL, EVERY, true, FULL);
        BETWEEN(side->describe(bytes, n, false, Y));
    } else if (is(row, "describe-compact")) {
        n = put_header(bytes, ALL, EVERY, true, COMPACT);
        BETWEEN(side->describe(bytes, n, true, Y));
    } else if (is(row, "point")) { // the last of `size` points of X and Y
        n = put_record(bytes, XY, BARE, false, size, -1);
        BETWEEN(side->point(bytes, n, size - 1, Y));
    } else if (is(row, "point-full")) { // the last of `size` points of fifteen channels
        n = put_record(bytes, ALL, EVERY, false, size, -1);
        BETWEEN(side->point(bytes, n, size - 1, Y));
    } else if (is(row, "look-up")) { // the last of `size` points of X and Y
        n = put_record(bytes, XY, BARE, false, size, -1);
        BETWEEN(side->look_up(bytes, n, size - 1));
    } else if (is(row, "look-up-index")) { // the point of index `size`, of 1,000 points of X and Y
        n = put_record(bytes, XY, BARE, false, 1000, -1);
        BETWEEN(side->look_up(bytes, n, size));
    } else if (is(row, "look-up-constant")) { // the last of `size` points of X, Y and a constant S
        n = put_record(bytes, XY | SWITCH, BARE, false, size, -1);
        BETWEEN(side->look_up(bytes, n, size - 1));
    } else if (is(row, "look-up-switch")) { // the last of `size` points of X, Y and S
        n = put_record(bytes, XY | SWITCH, BARE, true, size, -1);
        BETWEEN(side->look_up(bytes, n, size - 1));
    } else if (is(row, "look-up-full")) { // the last of `size` points of sixteen channels
        n = put_record(bytes, ALL, EVERY, true, size, -1);
        BETWEEN(side->look_up(bytes, n, size - 1));
    } else if (is(row, "look-up-point")) { // the places of the same points
        n = put_record(bytes, XY, BARE, false, size, -1);
        BETWEEN(side->look_up_point(bytes, n, size - 1, Y));
    } else if (is(row, "look-up-point-constant")) {
        n = put_record(bytes, XY | SWITCH, BARE, false, size, -1);
        BETWEEN(side->look_up_point(bytes, n, size - 1, Y));
    } else if (is(row, "look-up-point-switch")) {
        n = put_record(bytes, XY | SWITCH, BARE, true, size, -1);
        BETWEEN(side->look_up_point(bytes, n, size - 1, Y));
    } else if (is(row, "look-up-point-full")) {
        n = put_record(bytes, ALL, EVERY, true, size, -1);
        BETWEEN(side->look_up_point(bytes, n, size - 1, Y));
    } else if (is(row, "columns")) { // `size` points of X and Y
        n = put_record(bytes, XY, BARE, false, size, -1);
        BETWEEN(side->read_columns(bytes, n, values, 2 * size));
    } else if (is(row, "columns-switch")) { // `size` points of X, Y and S
        n = put_record(bytes, XY | SWITCH, BARE, true, size, -1);
        BETWEEN(side->read_columns(bytes, n, values, 3 * size));
    } else if (is(row, "columns-full")) { // `size` points of sixteen channels
        n = put_record(bytes, ALL, EVERY, true, size, -1);
        BETWEEN(side->read_columns(bytes, n, values, 16 * size));
    } else if (is(row, "extended")) { // `size` bytes of extended data
        n = put_record(bytes, XY, BARE, false, 100, size);
        BETWEEN(side->extended(bytes, n));
    } else if (is(row, "rest")) { // `size` bytes behind the record
        n = put_record(bytes, XY, BARE, false, 100, -1);
        BETWEEN(side->rest(bytes, n + size));
    } else if (is(row, "write")) { // `size` points of sixteen values
        n = put_header(bytes, ALL, EVERY, true, FULL);
        BETWEEN(side->write(bytes, n, size, values, 16 * size, false, bytes, 0, output, ROOM));
    } else if (is(row, "write-extended")) { // `size` bytes of extended data, no point
        n = put_header(bytes, ALL, EVERY, true, FULL);
        BETWEEN(side->write(bytes, n, 0, values, 0, true, output + 70000, size, output, 70000));
    } else if (is(row, "step")) { // `size` records of X and Y, with ten points each
        n = 0;
        for (size_t i = 0; i < size; i++)
            n += put_record(bytes + n, XY, BARE, false, 10, -1);
        walk(side, n, size);
    } else if (is(row, "step-full")) { // `size` records with headers of 187 bytes
        n = 0;
        for (size_t i = 0; i < size; i++)
            n += put_record(bytes + n, ALL, EVERY, false, 10, -1);
        walk(side, n, size);
    } else if (is(row, "read-template")) { // every channel with every attribute, and a maximum of three bytes
        n = put_header(bytes + 4, ALL, EVERY, true, COMPACT);
        __builtin_memcpy(bytes, (uint8_t[]){0xB1, n + 7, 0x81, n}, 4);
        __builtin_memcpy(bytes + 4 + n, (uint8_t[]){0x82, 3, 1, 2, 3}, 5);
        BETWEEN(side->read_template(bytes, n + 9, Y));
    } else if (is(row, "read-template-bare")) { // X and Y, and a maximum of one byte
        n = put_header(bytes + 4, XY, BARE, true, COMPACT);
        __builtin_memcpy(bytes, (uint8_t[]){0xB1, n + 5, 0x81, n}, 4);
        __builtin_memcpy(bytes + 4 + n, (uint8_t[]){0x82, 1, 100}, 3);
        BETWEEN(side->read_template(bytes, n + 7, Y));
    } else if (is(row, "write-template")) {
        n = put_header(bytes, ALL, EVERY, true, COMPACT);
        BETWEEN(side->write_template(bytes, n, true, 66051, output, 129));
    } else if (is(row, "thousandths")) { // `size` readings
        BETWEEN_EACH(side->thousandths(3199, 22, 1151));
    } else if (is(row, "place")) {
        BETWEEN_EACH(side->place(NUMBER, 3199, true, 22 * 2048 + 1151));
    } else if (is(row, "double")) {
        BETWEEN_EACH(side->to_double(3199, 22, 1151));
    } else if (is(row, "double-place")) {
        BETWEEN_EACH(side->double_place(3199, true, 22 * 2048 + 1151));
    } else {
        return false;
    }
    return true;
}

// ---- Both sides answer alike

static size_t compared;

static void tell(const char *words)
{
    size_t n = 0;
    while (words[n])
        n++;
    write(1, words, n);
}

static void tell_number(size_t number)
{
    char digits[21];
    size_t n = sizeof digits;

    digits[--n] = 0;
    do
        digits[--n] = '0' + number % 10;
    while (number /= 10);
    tell(digits + n);
}

static bool same_said(const struct said *a, const struct said *b)
{
    return a->included == b->included && a->constant == b->constant && a->detrended == b->detrended &&
           a->scaled == b->scaled && a->scaling == b->scaling && a->bounded == b->bounded &&
           a->minimum == b->minimum && a->capped == b->capped && a->maximum == b->maximum &&
           a->averaged == b->averaged && a->mean == b->mean && a->spread == b->spread && a->deviation == b->deviation;
}

#define SAME(test, name)                                                                                               \
    do {                                                                                                               \
        compared++;                                                                                                    \
        if (!(test)) {                                                                                                 \
            tell("the twin answers otherwise: " name "\n");                                                            \
            return false;                                                                                              \
        }                                                                                                              \
    } while (0)

// The columns of a record that has `right` numbers, in a buffer of that amount and of its neighbours. Each holds one number more, which stays.
static bool same_columns(const uint8_t *s, size_t n, size_t right)
{
    enum { MOST = 64, UNTOUCHED = 99999 };
    static int32_t x[MOST], y[MOST];

    for (size_t amount = right ? right - 1 : 0; amount <= right + 1 && amount < MOST; amount++) {
        for (size_t i = 0; i < MOST; i++)
            x[i] = y[i] = UNTOUCHED;
        uint64_t a = costs_read_columns(s, n, x, amount), b = twin_read_columns(s, n, y, amount);
        SAME(a == b && memcmp(x, y, sizeof x) == 0, "columns");
    }
    return true;
}

// Every question that some bytes can be asked.
static bool same_reading(const uint8_t *s, size_t n)
{
    size_t count = 0, stored = 0;

    for (size_t c = 0; c < CHANNELS; c++) {
        struct judgement a = costs_judge(s, n, c), b = twin_judge(s, n, c);
        SAME(a.number == b.number && a.place == b.place && a.count == b.count && a.extended == b.extended &&
                 same_said(&a.said, &b.said),
             "judge");
        count = a.number ? 0 : a.count;
        stored += a.said.included && !a.said.constant;
        struct templated t = costs_read_template(s, n, c), u = twin_read_template(s, n, c);
        SAME(t.number == u.number && t.place == u.place && t.described == u.described && t.limited == u.limited &&
                 t.maximum == u.maximum && same_said(&t.said, &u.said),
             "read template");
        for (int compact = 0; compact < 2; compact++) {
            struct told d = costs_describe(s, n, compact, c), e = twin_describe(s, n, compact, c);
            SAME(d.number == e.number && d.place == e.place && same_said(&d.said, &e.said), "describe");
        }
        for (size_t index = 0; index < 4; index++) {
            struct seat p = costs_point(s, n, index, c), q = twin_point(s, n, index, c);
            SAME(p.kind == q.kind && p.value == q.value, "point");
            SAME(costs_look_up_point(s, n, index, c) == twin_look_up_point(s, n, index, c), "look up, its places");
        }
    }
    if (!same_columns(s, n, count * stored))
        return false;
    for (size_t index = 0; index < 4; index++) {
        struct looked a = costs_look_up(s, n, index), b = twin_look_up(s, n, index);
        SAME(a.number == b.number && a.looked == b.looked, "look up");
    }
    struct piece e = costs_extended(s, n), f = twin_extended(s, n);
    SAME(e.length == f.length && e.first == f.first, "extended");
    e = costs_rest(s, n), f = twin_rest(s, n);
    SAME(e.length == f.length && e.first == f.first, "rest");
    for (size_t place = 0; place <= n + 1; place += 1 + n / 3) {
        struct stepped a = costs_step(s, n, place), b = twin_step(s, n, place);
        SAME(a.number == b.number && a.place == b.place && a.count == b.count && a.extended == b.extended &&
                 a.next == b.next,
             "step");
    }
    return true;
}

static bool same_written(struct finished a, struct finished b, const uint8_t *x, const uint8_t *y, size_t size)
{
    SAME(a.number == b.number && a.length == b.length && memcmp(x, y, size) == 0, "write");
    return true;
}

static bool same_writing(void)
{
    enum { OUT = 700 };
    static uint8_t header[400], x[OUT], y[OUT], extended[66000];
    static int32_t numbers[64];

    for (int turn = 0; turn < 40000; turn++) {
        bool compact = throw() % 2;
        size_t size = put_header(header, throw() % 8 ? XY | throw() % 0x4000 : throw() % 0x10000, throw() % 256 & ~1u,
                                 throw() % 2, compact ? COMPACT : FULL);
        size_t room = throw() % 4 ? OUT : throw() % OUT;
        __builtin_memset(x, 0xAA, OUT);
        __builtin_memset(y, 0xAA, OUT);
        if (compact) {
            bool limited = throw() % 2;
            static const uint32_t ends[] = {0, 255, 256, 65535, 65536, 16777215, 16777216, 0xFFFFFFFF};
            uint32_t maximum = throw() % 2 ? ends[throw() % 8] : throw() >> throw() % 24;
            if (!same_written(costs_write_template(header, size, limited, maximum, x, room),
                              twin_write_template(header, size, limited, maximum, y, room), x, y, OUT))
                return false;
            continue;
        }
        size_t stored = 0;
        for (enum channel c = X; c < CHANNELS; c++) {
            struct said said = twin_describe(header, size, false, c).said;
            if (said.included && !said.constant)
                stored++;
        }
        size_t count = throw() % 16 ? throw() % 4 : 16777214 + throw() % 4;
        size_t amount = throw() % 8 ? count * stored : throw() % 64;
        if (amount > 64)
            amount = 64;
        for (size_t i = 0; i < 64; i++) {
            static const int32_t ends[] = {2, -1, -32768, -32769, 32767, 32768, 65535, 65536};
            int32_t value = throw() % 2;
            if (throw() % 32 == 0)
                value = throw() % 4 ? ends[throw() % 8] : (int32_t)(throw() << 8);
            numbers[i] = value;
        }
        bool wanted = throw() % 2;
        size_t length = throw() % 8 ? throw() % 40 : 65530 + throw() % 12;
        if (!same_written(costs_write(header, size, count, numbers, amount, wanted, extended, length, x, room),
                          twin_write(header, size, count, numbers, amount, wanted, extended, length, y, room), x, y,
                          OUT))
            return false;
    }
    return true;
}

static bool same_thousandths(void)
{
    for (int turn = 0; turn < 200000; turn++) {
        int64_t raw = throw() % 8 ? (int64_t)(throw() % 98310) - 32771 : (int64_t)((uint64_t)throw() << 44 | throw());
        uint64_t e = throw() % 8 ? throw() % 33 : throw(), f = throw() % 8 ? throw() % 2049 : throw();
        struct told_reading a = costs_thousandths(raw, e, f), b = twin_thousandths(raw, e, f);
        SAME(a.number == b.number && a.thousandths == b.thousandths, "thousandths");
        uint64_t kind = throw() % 3;
        int32_t number = throw() % 4 ? throw() % 65600 : (int32_t)(throw() << 8);
        a = costs_place(kind, (int32_t)raw, throw() % 2, number);
        dice = (dice - 1013904223) * 4276115653u; // the same throw again
        b = twin_place(kind, (int32_t)raw, throw() % 2, number);
        SAME(a.number == b.number && a.thousandths == b.thousandths, "a place in thousandths");
    }
    return true;
}

// The doubles are compared bit for bit. A refusal's is of no account, but both have none there.
static bool is_same_double(struct told_double a, struct told_double b)
{
    return a.number == b.number && memcmp(&a.value, &b.value, sizeof a.value) == 0;
}

static bool same_doubles(void)
{
    for (int turn = 0; turn < 200000; turn++) {
        int64_t raw = throw() % 8 ? (int64_t)(throw() % 98310) - 32771 : (int64_t)((uint64_t)throw() << 44 | throw());
        uint64_t e = throw() % 8 ? throw() % 33 : throw(), f = throw() % 8 ? throw() % 2049 : throw();
        SAME(is_same_double(costs_double(raw, e, f), twin_double(raw, e, f)), "double");
        int32_t number = throw() % 4 ? throw() % 65600 : (int32_t)(throw() << 8);
        bool given = throw() % 8;
        SAME(is_same_double(costs_double_place((int32_t)raw, given, number), twin_double_place((int32_t)raw, given, number)),
             "a place as a double");
    }
    return true;
}

// Records and templates of every kind, cut short at every place, and with a byte changed.
static bool same_all(void)
{
    uint8_t *s = bytes;

    for (int turn = 0; turn < 600; turn++) {
        uint32_t inclusion = throw() % 8 ? XY | throw() % 0x4000 : throw() % 0x10000, flags = throw() % 256 & ~1u;
        size_t n;
        if (turn % 3 == 0) {
            n = put_header(s + 4, inclusion, flags, throw() % 2, COMPACT);
            __builtin_memcpy(s, (uint8_t[]){0xB1, n + 2, 0x81, n}, 4);
            n += 4;
            if (throw() % 2) {
                size_t size = throw() % 5;
                s[1] += 2 + size;
                s[n++] = 0x82;
                s[n++] = size;
                for (size_t i = 0; i < size; i++)
                    s[n++] = throw() % 4 ? throw() : 0;
            }
        } else {
            n = put_record(s, inclusion, flags, throw() % 2, throw() % 4, throw() % 2 ? (long)(throw() % 20) : -1);
        }
        n += throw() % 3;
        for (size_t size = 0; size <= n; size += 1 + (n > 200 ? throw() % 8 : 0))
            if (!same_reading(s, size))
                return false;
        for (int changed = 0; changed < 30; changed++) {
            size_t at = throw() % n;
            uint8_t was = s[at];
            s[at] = throw() % 2 ? throw() : throw() % 4;
            if (!same_reading(s, n))
                return false;
            s[at] = was;
        }
        __builtin_memset(s, 0, 2048);
    }
    return same_writing() && same_thousandths() && same_doubles();
}

// A file for the listing program: one record of full points, as many as `size` bytes hold.
static void put_file(size_t size)
{
    size_t header = put_record(bytes, ALL, BARE, true, 0, -1);
    uint32_t count = (size - header) / 31;
    size_t n = put_record(bytes, ALL, BARE, true, count, -1);

    for (size_t i = header; i < n; i++)
        bytes[i] = (i - header) % 31 == 20 ? throw() % 2 : throw();
    write(1, bytes, n);
}

int main(int amount, char **words)
{
    bytes = room(ROOM);
    output = room(ROOM);
    values = room(ROOM);
    if (amount == 2 && is(words[1], "compare")) {
        if (!same_all())
            return 1;
        tell_number(compared);
        tell("\n");
        return 0;
    }
    if (amount == 3 && is(words[1], "file")) {
        put_file(strtol(words[2], nullptr, 10));
        return 0;
    }
    if (amount != 5 || !is(words[1], "mark")) {
        tell("usage: driver compare, driver file SIZE, or driver mark SIDE ROW SIZE\n");
        return 2;
    }
    // A row's stack begins at the same place of a page, however long the program's path is: memcpy and memset choose by the address.
    char *gap = __builtin_alloca((size_t)__builtin_frame_address(0) & 4095);
    __asm__ volatile("" ::"r"(gap));
    const struct side *side = is(words[2], "rattle") ? &rattle : is(words[2], "twin") ? &twin : &empty;
    if (!count_row(side, words[3], strtol(words[4], nullptr, 10))) {
        tell("driver: no such row\n");
        return 2;
    }
    return 0;
}
