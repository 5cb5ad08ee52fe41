// The twin of the listing program: standard input, at most 65,536 bytes, told in lines of text.
// It is linked with descriptions.c and records.c, as one file.
#include "twin.h"

long read(int file, void *bytes, size_t size);
long write(int file, const void *bytes, size_t size);

enum { LARGEST = 65536 };

static uint8_t input[LARGEST + 1];

// No line is longer than a point's: `point`, an index of eight digits, sixteen values of five digits and a sign, each
// behind a space, and the end.
enum { LONGEST_LINE = 5 + 9 + CHANNELS * 7 + 1 };

// Text is gathered line by line, and written out where a line might not have room. So no byte is asked whether it has.
static uint8_t text[65536];

// What cannot be written is not reported: standard output is where it would be.
static void write_out(const uint8_t *end)
{
    for (const uint8_t *from = text; from < end;) {
        long taken = write(1, from, end - from);
        if (taken <= 0)
            break;
        from += taken;
    }
}

// Each function here puts something into the text, and answers where the next byte goes.

static uint8_t *make_room(uint8_t *out)
{
    if (text + sizeof text - out >= LONGEST_LINE)
        return out;
    write_out(out);
    return text;
}

#define put_word(out, word) (__builtin_memcpy(out, word, sizeof word - 1), (out) + sizeof word - 1)

// Two digits of each number below 100.
static const char pairs[] = "0001020304050607080910111213141516171819202122232425262728293031323334353637383940414243444546"
                            "4748495051525354555657585960616263646566676869707172737475767778798081828384858687888990919293"
                            "949596979899";

INLINE size_t digit_count(uint32_t number)
{
    if (number >= 10000)
        return number < 100000 ? 5 : number < 1000000 ? 6 : number < 10000000 ? 7 : 8;
    return number >= 1000 ? 4 : number >= 100 ? 3 : number >= 10 ? 2 : 1;
}

// A number below 100,000,000: two digits at a time, the last ones first, each where it belongs.
INLINE uint8_t *put_decimal(uint8_t *out, uint32_t number)
{
    uint8_t *end = out + digit_count(number), *at = end;

    while (number >= 100) {
        at -= 2;
        __builtin_memcpy(at, pairs + 2 * (number % 100), 2);
        number /= 100;
    }
    if (number >= 10)
        __builtin_memcpy(at - 2, pairs + 2 * number, 2);
    else
        at[-1] = '0' + number;
    return end;
}

static uint8_t *put_field(uint8_t *out, uint32_t number)
{
    *out++ = ' ';
    return put_decimal(out, number);
}

INLINE uint8_t *put_value(uint8_t *out, int32_t value)
{
    *out++ = ' ';
    if (value < 0) {
        *out++ = '-';
        value = -value;
    }
    return put_decimal(out, value);
}

// A point, whose bytes are known to be there and good. Its channels are gone through where its bytes are.
static uint8_t *put_point(uint8_t *out, const uint8_t *s, uint32_t index, const struct channels *channels)
{
    out = put_word(out, "point");
    out = put_field(out, index);
    for (uint32_t left = channels->included; left;) {
        uint32_t rank = take_first(&left);
        if (!(channels->stored & 1u << rank)) {
            out = put_word(out, " -");
        } else if (rank == RANK(S)) {
            *out++ = ' ';
            *out++ = '0' + *s++; // 0 or 1
        } else {
            out = put_value(out, (int32_t)pair(s) - offsets[FULL][rank]);
            s += 2;
        }
    }
    *out++ = '\n';
    return out;
}

// Points that have no bytes have no lines, however many they are.
static uint8_t *put_points_of(uint8_t *out, const uint8_t *s, const struct layout *l)
{
    if (l->channels.width == 0)
        return out;
    s += l->points;
    for (uint32_t i = 0; i < l->count; i++) {
        out = put_point(make_room(out), s, i, &l->channels);
        s += l->channels.width;
    }
    return out;
}

static uint8_t *put_file(uint8_t *out, const uint8_t *file, size_t n)
{
    struct layout l;

    for (size_t place = 0;; place += l.end) {
        out = make_room(out);
        if (place == n) {
            out = put_field(put_word(out, "end"), place);
            break;
        }
        struct end e = lay(file + place, n - place, nullptr, &l);
        if (e.number == 1) {
            out = put_field(put_word(out, "short"), place);
            break;
        }
        if (e.number) {
            out = put_field(put_field(put_word(out, "refused"), e.number), place + e.place);
            break;
        }
        out = put_field(put_field(put_field(put_word(out, "record"), place), l.end), l.count);
        *out++ = '\n';
        out = put_points_of(out, file + place, &l);
    }
    *out++ = '\n';
    return out;
}

int main(void)
{
    size_t n = 0;
    long more = 1;

    // one byte more than is listed, so that it is seen where there are more
    while (n < sizeof input && (more = read(0, input + n, sizeof input - n)) > 0)
        n += more;
    if (more < 0)
        write_out(put_word(text, "unreadable\n"));
    else if (LARGEST < n)
        write_out(put_word(text, "large\n"));
    else
        write_out(put_file(text, input, n));
    return 0;
}
