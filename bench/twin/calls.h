// The calls that are counted, as crates/costs hands them out and as calls.c does for the twin.
// An answer is in plain numbers: 0 for what was asked for, else the refusal's number.
// Of sixteen descriptors or places the one that is asked for is handed over, so that all have to be made.
#pragma once
#include "twin.h"

struct said {
    bool included, constant, detrended, scaled;
    int32_t scaling;
    bool bounded;
    int32_t minimum;
    bool capped;
    int32_t maximum;
    bool averaged;
    int32_t mean;
    bool spread;
    int32_t deviation;
};

struct judgement {
    uint64_t number;
    size_t place;
    uint32_t count;
    bool extended;
    struct said said;
};

struct told {
    uint64_t number;
    size_t place;
    struct said said;
};

struct seat {
    uint64_t kind;
    int32_t value;
};

struct looked {
    uint64_t number;
    size_t looked;
};

struct piece {
    size_t length;
    uint8_t first;
};

struct finished {
    uint64_t number;
    size_t length;
};

struct stepped {
    uint64_t number;
    size_t place;
    uint32_t count;
    bool extended;
    size_t next;
};

struct templated {
    uint64_t number;
    size_t place;
    bool described, limited;
    uint32_t maximum;
    struct said said;
};

struct told_reading {
    uint64_t number;
    int64_t thousandths;
};

struct told_double {
    uint64_t number;
    double value;
};

#define CALLS(side)                                                                                                    \
    struct judgement side##_judge(const uint8_t *s, size_t n, size_t channel);                                         \
    struct told side##_describe(const uint8_t *s, size_t n, bool compact, size_t channel);                             \
    struct seat side##_point(const uint8_t *s, size_t n, size_t index, size_t channel);                                \
    struct looked side##_look_up(const uint8_t *s, size_t n, size_t index);                                            \
    int32_t side##_look_up_point(const uint8_t *s, size_t n, size_t index, size_t channel);                            \
    uint64_t side##_read_columns(const uint8_t *s, size_t n, int32_t *values, size_t amount);                           \
    struct piece side##_extended(const uint8_t *s, size_t n);                                                          \
    struct piece side##_rest(const uint8_t *s, size_t n);                                                              \
    struct finished side##_write(const uint8_t *header, size_t size, size_t count, const int32_t *values,              \
                                 size_t amount, bool wanted, const uint8_t *extended, size_t length, uint8_t *out,     \
                                 size_t room);                                                                         \
    struct stepped side##_step(const uint8_t *file, size_t n, size_t place);                                           \
    struct templated side##_read_template(const uint8_t *s, size_t n, size_t channel);                                 \
    struct finished side##_write_template(const uint8_t *header, size_t size, bool limited, uint32_t maximum,          \
                                          uint8_t *out, size_t room);                                                  \
    struct told_reading side##_thousandths(int64_t raw, uint64_t e, uint64_t f);                                       \
    struct told_reading side##_place(uint64_t kind, int32_t value, bool given, int32_t number);                        \
    struct told_double side##_double(int64_t raw, uint64_t e, uint64_t f);                                             \
    struct told_double side##_double_place(int32_t value, bool given, int32_t number);

CALLS(costs)
CALLS(twin)
