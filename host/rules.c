#include "rules.h"

/* Inside this file a pulse is 2 x place + sign bit, so that sorting goes by place
 * and two pulses with both signs of one place differ in bit 0 alone.
 *
 * A place is never counted anew for a half: a rule of width m looks at the low m
 * bits of a place only, and bit m - 1 tells the half. In a sorted set the pulses of
 * a half stand together, so a group in a half is a pointer into the set. */
typedef uint8_t pulse;

static inline uint32_t sign(pulse p) { return p & 1u; }
static inline uint32_t place(pulse p, unsigned m) { return (p >> 1) & ((1u << m) - 1); }
static inline uint32_t half(pulse p, unsigned m) { return (p >> m) & 1u; }

/* How many of a sorted set lie in half 0. */
static inline unsigned in_half_0(const pulse *p, unsigned count, unsigned m)
{
    unsigned n = count;
    for (unsigned i = 0; i < count; i++)
        n -= half(p[i], m);
    return n;
}

/* ---- writing: the house index of a sorted set ---- */

/* | s : 1 | p : M | */
static inline uint32_t write_one(pulse p, unsigned m)
{
    return sign(p) << m | place(p, m);
}

/* | s : 1 | a : M | b : M |, p not above q */
static inline uint32_t write_two(pulse p, pulse q, unsigned m)
{
    bool equal = sign(p) == sign(q);
    pulse a = equal ? p : q;
    pulse b = equal ? q : p;
    return sign(a) << 2 * m | place(a, m) << m | place(b, m);
}

/* | One(third) : M+1 | h : 1 | Two(pair in half h) : 2M-1 |
 * The middle pulse lies in the half that holds two or more. */
static inline uint32_t write_three(const pulse *p, unsigned m)
{
    uint32_t h = half(p[1], m);
    bool lowest_alone = h > half(p[0], m);
    const pulse *pair = p + lowest_alone;
    pulse third = lowest_alone ? p[0] : p[2];
    return write_one(third, m) << 2 * m | h << (2 * m - 1) | write_two(pair[0], pair[1], m - 1);
}

/* | Two(other two) : 2M+1 | h : 1 | Two(pair in half h) : 2M-1 |
 * Half 0 holds two or more if the second pulse lies there. */
static inline uint32_t write_close(const pulse *p, unsigned m)
{
    uint32_t h = half(p[1], m);
    bool lowest_alone = h > half(p[0], m);
    const pulse *pair = p + lowest_alone;
    pulse other = lowest_alone ? p[0] : p[2];
    return write_two(other, p[3], m) << 2 * m | h << (2 * m - 1)
         | write_two(pair[0], pair[1], m - 1);
}

/* | c : 2 | body : 4M-2 | */
static inline uint32_t write_four(const pulse *p, unsigned m)
{
    unsigned c = in_half_0(p, 4, m);
    uint32_t body;
    switch (c) {
    case 1:
        body = write_one(p[0], m - 1) << (3 * m - 2) | write_three(p + 1, m - 1);
        break;
    case 2:
        body = write_two(p[0], p[1], m - 1) << (2 * m - 1) | write_two(p[2], p[3], m - 1);
        break;
    case 3:
        body = write_three(p, m - 1) << m | write_one(p[3], m - 1);
        break;
    default:
        body = half(p[0], m) << (4 * m - 3) | write_close(p, m - 1);
    }
    return (c & 3u) << (4 * m - 2) | body;
}

/* | h : 1 | Three(triple in half h) : 3M-2 | Two(other two) : 2M+1 |
 * The middle pulse lies in the half that holds three or more. */
static inline uint32_t write_five(const pulse *p, unsigned m)
{
    uint32_t h = half(p[2], m);
    unsigned below = h ? in_half_0(p, 2, m) : 0;
    pulse first = below > 0 ? p[0] : p[3];
    pulse second = below > 1 ? p[1] : p[4];
    return h << (5 * m - 1) | write_three(p + below, m - 1) << (2 * m + 1)
         | write_two(first, second, m);
}

/* | j : 1 | Five(in half j) : 5M-5 | One(in a half) : M | */
static inline uint32_t write_five_one(const pulse *five, pulse one, unsigned m)
{
    return half(five[0], m) << (6 * m - 5) | write_five(five, m - 1) << m | write_one(one, m - 1);
}

/* | j : 1 | Four(in half j) : 4M-4 | Two(in the other half) : 2M-1 | */
static inline uint32_t write_four_two(const pulse *four, const pulse *two, unsigned m)
{
    return half(four[0], m) << (6 * m - 5) | write_four(four, m - 1) << (2 * m - 1)
         | write_two(two[0], two[1], m - 1);
}

/* | c : 2 | body : 6M-4 | */
static inline uint32_t write_six(const pulse *p, unsigned m)
{
    const unsigned c_at = 6 * m - 4;
    switch (in_half_0(p, 6, m)) {
    case 1:
        return 1u << c_at | write_five_one(p + 1, p[0], m);
    case 2:
        return 2u << c_at | write_four_two(p + 2, p, m);
    case 3:
        return 3u << c_at | write_three(p, m - 1) << (3 * m - 2) | write_three(p + 3, m - 1);
    case 4:
        return 2u << c_at | write_four_two(p, p + 4, m);
    case 5:
        return 1u << c_at | write_five_one(p, p[5], m);
    default:
        return write_five_one(p, p[5], m);
    }
}

static uint32_t house_index(const pulse *p, unsigned count, unsigned width)
{
    switch (count) {
    case 1:
        return write_one(p[0], width);
    case 2:
        return write_two(p[0], p[1], 4);
    case 3:
        return write_three(p, 4);
    case 4:
        return write_four(p, 4);
    case 5:
        return write_five(p, 4);
    default:
        return write_six(p, 4);
    }
}

/* ---- reading: the pulses of an index, unsorted ---- */

/* The low bits of an index. */
static inline uint32_t low(uint32_t index, unsigned bits) { return index & ((1u << bits) - 1); }

/* The first place of half h, in a track whose own first place is `base`. */
static inline uint32_t first_of(uint32_t h, uint32_t base, unsigned m)
{
    return base + (h << (m - 1));
}

static inline pulse pulse_at(uint32_t at, uint32_t sign_bit) { return (pulse)(at << 1 | sign_bit); }

static inline void read_one(uint32_t index, unsigned m, uint32_t base, pulse *p)
{
    p[0] = pulse_at(base + low(index, m), index >> m);
}

static inline void read_two(uint32_t index, unsigned m, uint32_t base, pulse *p)
{
    uint32_t s = index >> 2 * m;
    uint32_t a = low(index >> m, m);
    uint32_t b = low(index, m);
    p[0] = pulse_at(base + a, s);
    p[1] = pulse_at(base + b, s ^ (a > b));
}

/* The low 2M bits of Three and Close: | h : 1 | Two(pair in half h) : 2M-1 | */
static inline void read_pair(uint32_t index, unsigned m, uint32_t base, pulse *p)
{
    uint32_t h = index >> (2 * m - 1) & 1u;
    read_two(low(index, 2 * m - 1), m - 1, first_of(h, base, m), p);
}

static inline void read_three(uint32_t index, unsigned m, uint32_t base, pulse *p)
{
    read_pair(index, m, base, p);
    read_one(index >> 2 * m, m, base, p + 2);
}

static inline void read_close(uint32_t index, unsigned m, uint32_t base, pulse *p)
{
    read_pair(index, m, base, p);
    read_two(index >> 2 * m, m, base, p + 2);
}

static inline void read_four(uint32_t index, unsigned m, uint32_t base, pulse *p)
{
    uint32_t body = low(index, 4 * m - 2);
    uint32_t half_1 = first_of(1, base, m);
    switch (index >> (4 * m - 2)) {
    case 0:
        read_close(low(body, 4 * m - 3), m - 1, first_of(body >> (4 * m - 3), base, m), p);
        break;
    case 1:
        read_one(body >> (3 * m - 2), m - 1, base, p);
        read_three(low(body, 3 * m - 2), m - 1, half_1, p + 1);
        break;
    case 2:
        read_two(body >> (2 * m - 1), m - 1, base, p);
        read_two(low(body, 2 * m - 1), m - 1, half_1, p + 2);
        break;
    default:
        read_three(body >> m, m - 1, base, p);
        read_one(low(body, m), m - 1, half_1, p + 3);
    }
}

static inline void read_five(uint32_t index, unsigned m, uint32_t base, pulse *p)
{
    uint32_t h = index >> (5 * m - 1);
    read_three(low(index >> (2 * m + 1), 3 * m - 2), m - 1, first_of(h, base, m), p);
    read_two(low(index, 2 * m + 1), m, base, p + 3);
}

static inline void read_six(uint32_t index, unsigned m, uint32_t base, pulse *p)
{
    uint32_t c = index >> (6 * m - 4);
    if (c == 3) {
        read_three(low(index >> (3 * m - 2), 3 * m - 2), m - 1, base, p);
        read_three(low(index, 3 * m - 2), m - 1, first_of(1, base, m), p + 3);
        return;
    }
    uint32_t j = index >> (6 * m - 5) & 1u;
    uint32_t rest = low(index, 6 * m - 5);
    uint32_t fuller = first_of(j, base, m);
    uint32_t emptier = first_of(1 - j, base, m);
    if (c == 2) {
        read_four(rest >> (2 * m - 1), m - 1, fuller, p);
        read_two(low(rest, 2 * m - 1), m - 1, emptier, p + 4);
    } else {
        read_five(rest >> m, m - 1, fuller, p);
        read_one(low(rest, m), m - 1, c == 0 ? fuller : emptier, p + 5);
    }
}

static void read_set(uint32_t index, unsigned count, unsigned width, pulse *p)
{
    switch (count) {
    case 1:
        read_one(index, width, 0, p);
        break;
    case 2:
        read_two(index, 4, 0, p);
        break;
    case 3:
        read_three(index, 4, 0, p);
        break;
    case 4:
        read_four(index, 4, 0, p);
        break;
    case 5:
        read_five(index, 4, 0, p);
        break;
    default:
        read_six(index, 4, 0, p);
    }
}

/* ---- the calls ---- */

/* Sorts without branches on the pulses: they are few, and seldom predictable. */
static inline void sort(pulse *p, unsigned count)
{
    for (unsigned i = 1; i < count; i++)
        for (unsigned k = i; k > 0; k--) {
            pulse x = p[k - 1], y = p[k];
            p[k - 1] = x < y ? x : y;
            p[k] = x < y ? y : x;
        }
}

/* Of a sorted set. */
static inline bool has_both_signs(const pulse *p, unsigned count)
{
    bool both = false;
    for (unsigned i = 1; i < count; i++)
        both |= (p[i - 1] ^ p[i]) == 1;
    return both;
}

unsigned rules_index_bits(uint32_t pulses, uint32_t width)
{
    static const uint8_t at_width_4[] = {0, 5, 9, 13, 16, 20, 22};
    if (width == 4 && pulses <= RULES_MAX_PULSES)
        return at_width_4[pulses];
    return width == 5 && pulses == 1 ? 6 : 0;
}

int32_t rules_read_index(uint32_t pulses, uint32_t width, uint32_t index, bool strict,
                         uint8_t *out, size_t out_len)
{
    unsigned bits = rules_index_bits(pulses, width);
    if (bits == 0 || index >> bits != 0)
        return -RULES_NO_SUCH_INDEX;

    pulse p[RULES_MAX_PULSES];
    read_set(index, pulses, width, p);
    sort(p, pulses);
    if (has_both_signs(p, pulses))
        return -RULES_BOTH_SIGNS;
    if (strict && house_index(p, pulses, width) != index)
        return -RULES_NOT_HOUSE_INDEX;
    if (out_len < pulses)
        return -RULES_BUFFER_TOO_SHORT;

    for (unsigned i = 0; i < pulses; i++)
        out[i] = (uint8_t)(p[i] >> 1 | sign(p[i]) << 5);
    return (int32_t)pulses;
}

int32_t rules_write_index(uint32_t width, const uint8_t *pulses, size_t count)
{
    if (count > RULES_MAX_PULSES || rules_index_bits((uint32_t)count, width) == 0)
        return -RULES_WRONG_NUMBER;

    pulse p[RULES_MAX_PULSES];
    uint8_t seen = 0;
    for (size_t i = 0; i < count; i++) {
        seen |= pulses[i];
        p[i] = (pulse)((pulses[i] & 31u) << 1 | (pulses[i] >> 5 & 1u));
    }
    /* Bits that no place or sign at this width has. */
    if (seen & (width == 5 ? 0xC0 : 0xD0))
        return -RULES_OFF_TRACK;
    sort(p, (unsigned)count);
    if (has_both_signs(p, (unsigned)count))
        return -RULES_BOTH_SIGNS;
    return (int32_t)house_index(p, (unsigned)count, width);
}
