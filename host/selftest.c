/* Tests rules.c without the library: the worked examples; every index read and
 * written back; and the rules themselves, tried on every arrangement of a set. */
#include <inttypes.h>
#include <stdio.h>
#include <stdlib.h>
#include <string.h>

#include "examples.h"
#include "rules.h"

static unsigned long wrong;

static void fault(const char *what, uint32_t pulses, uint32_t width, uint32_t index)
{
    if (wrong++ < 20)
        printf("difference\t%s\t%" PRIu32 " %" PRIu32 " %" PRIu32 "\n", what, pulses, width, index);
}

/* ---- every index ---- */

static void test_every_index(uint32_t pulses, uint32_t width, uint32_t lawful_sets)
{
    uint32_t accepted = 0;
    for (uint32_t index = 0; index >> rules_index_bits(pulses, width) == 0; index++) {
        uint8_t set[RULES_MAX_PULSES], again[RULES_MAX_PULSES];
        int32_t open = rules_read_index(pulses, width, index, false, set, sizeof set);
        int32_t strict = rules_read_index(pulses, width, index, true, again, sizeof again);
        if (open == -RULES_BOTH_SIGNS) {
            if (strict != open)
                fault("strict reading of both signs", pulses, width, index);
            continue;
        }
        if (open != (int32_t)pulses) {
            fault("open reading", pulses, width, index);
            continue;
        }
        int32_t house = rules_write_index(width, set, pulses);
        if (house < 0) {
            fault("writing back", pulses, width, index);
            continue;
        }
        bool is_house = (uint32_t)house == index;
        if (strict != (is_house ? (int32_t)pulses : -RULES_NOT_HOUSE_INDEX))
            fault("strict reading", pulses, width, index);
        if (rules_read_index(pulses, width, (uint32_t)house, true, again, sizeof again)
                != (int32_t)pulses
            || memcmp(set, again, pulses) != 0)
            fault("reading the house index", pulses, width, index);
        accepted += is_house;
    }
    if (accepted != lawful_sets)
        fault("number of house indices", pulses, width, accepted);
}

/* ---- every arrangement ----
 *
 * The rules as they stand, on pulses dealt out to the groups in one sequence: does
 * the sequence fit the rule, is it the house's, and which number comes out? Over
 * all sequences of a set this gives all of its indices. */

struct dealt {
    bool fits, house;
    uint64_t number;
};

static int place_of(uint8_t pulse) { return pulse & 31; }
static int sign_of(uint8_t pulse) { return pulse >> 5; }

static int half_of(uint8_t pulse, int m, int base)
{
    return place_of(pulse) - base >= 1 << (m - 1);
}

static bool all_in(int h, const uint8_t *q, int count, int m, int base)
{
    for (int i = 0; i < count; i++)
        if (half_of(q[i], m, base) != h)
            return false;
    return true;
}

static int count_in(int h, const uint8_t *q, int count, int m, int base)
{
    int n = 0;
    for (int i = 0; i < count; i++)
        n += half_of(q[i], m, base) == h;
    return n;
}

/* Are the first `group` pulses on the lowest places of half h, of all `count`? */
static bool lowest(const uint8_t *q, int group, int count, int h, int m, int base)
{
    for (int i = group; i < count; i++)
        for (int k = 0; k < group; k++)
            if (half_of(q[i], m, base) == h && place_of(q[i]) < place_of(q[k]))
                return false;
    return true;
}

static struct dealt no_fit(void) { return (struct dealt){false, false, 0}; }

/* high x 2^at + low, on top of `more`. */
static struct dealt joined(struct dealt high, int at, struct dealt low, uint64_t more)
{
    return (struct dealt){high.fits && low.fits, high.house && low.house,
                          (high.number << at) + low.number + more};
}

static struct dealt deal(int count, const uint8_t *q, int m, int base);

static struct dealt deal_close(const uint8_t *q, int m, int base)
{
    int h = half_of(q[0], m, base);
    if (!all_in(h, q, 2, m, base))
        return no_fit();
    struct dealt d = joined(deal(2, q + 2, m, base), 2 * m,
                            deal(2, q, m - 1, base + h * (1 << (m - 1))),
                            (uint64_t)h << (2 * m - 1));
    d.house = d.house && lowest(q, 2, 4, h, m, base)
           && h == (count_in(0, q, 4, m, base) >= 2 ? 0 : 1);
    return d;
}

static struct dealt deal_four(const uint8_t *q, int m, int base)
{
    int upper = base + (1 << (m - 1));
    int in_0 = count_in(0, q, 4, m, base);
    if (!all_in(0, q, in_0, m, base))
        return no_fit();
    uint64_t c = (uint64_t)(in_0 % 4) << (4 * m - 2);
    switch (in_0) {
    case 0: {
        struct dealt d = deal_close(q, m - 1, upper);
        d.number += c + ((uint64_t)1 << (4 * m - 3));
        return d;
    }
    case 1:
        return joined(deal(1, q, m - 1, base), 3 * m - 2, deal(3, q + 1, m - 1, upper), c);
    case 2:
        return joined(deal(2, q, m - 1, base), 2 * m - 1, deal(2, q + 2, m - 1, upper), c);
    case 3:
        return joined(deal(3, q, m - 1, base), m, deal(1, q + 3, m - 1, upper), c);
    default:
        return deal_close(q, m - 1, base);
    }
}

static struct dealt deal_six(const uint8_t *q, int m, int base)
{
    int upper = base + (1 << (m - 1));
    int in_0 = count_in(0, q, 6, m, base);
    int j = in_0 > 3 ? 0 : 1;
    int c = j == 0 ? 6 - in_0 : in_0;
    uint64_t top = (uint64_t)c << (6 * m - 4);
    if (c == 3) {
        if (!all_in(0, q, 3, m, base))
            return no_fit();
        return joined(deal(3, q, m - 1, base), 3 * m - 2, deal(3, q + 3, m - 1, upper), top);
    }
    int fuller = j == 0 ? base : upper;
    int emptier = j == 0 ? upper : base;
    top += (uint64_t)j << (6 * m - 5);
    if (c == 2) {
        if (!all_in(j, q, 4, m, base))
            return no_fit();
        return joined(deal(4, q, m - 1, fuller), 2 * m - 1, deal(2, q + 4, m - 1, emptier), top);
    }
    if (!all_in(j, q, 5, m, base))
        return no_fit();
    struct dealt d = joined(deal(5, q, m - 1, fuller), m,
                            deal(1, q + 5, m - 1, c == 0 ? fuller : emptier), top);
    d.house = d.house && lowest(q, 5, 6, j, m, base);
    return d;
}

static struct dealt deal(int count, const uint8_t *q, int m, int base)
{
    int h, a, b;
    struct dealt d;
    switch (count) {
    case 1:
        return (struct dealt){true, true,
                              (uint64_t)(place_of(q[0]) - base) + ((uint64_t)sign_of(q[0]) << m)};
    case 2:
        a = place_of(q[0]) - base;
        b = place_of(q[1]) - base;
        if (sign_of(q[0]) == sign_of(q[1]) ? a > b : a <= b)
            return no_fit();
        return (struct dealt){true, true, (uint64_t)b + ((uint64_t)a << m)
                                              + ((uint64_t)sign_of(q[0]) << 2 * m)};
    case 3:
        h = half_of(q[0], m, base);
        if (!all_in(h, q, 2, m, base))
            return no_fit();
        d = joined(deal(1, q + 2, m, base), 2 * m, deal(2, q, m - 1, base + h * (1 << (m - 1))),
                   (uint64_t)h << (2 * m - 1));
        d.house = d.house && lowest(q, 2, 3, h, m, base);
        return d;
    case 4:
        return deal_four(q, m, base);
    case 5:
        h = half_of(q[0], m, base);
        if (!all_in(h, q, 3, m, base))
            return no_fit();
        d = joined(deal(3, q, m - 1, base + h * (1 << (m - 1))), 2 * m + 1,
                   deal(2, q + 3, m, base), (uint64_t)h << (5 * m - 1));
        d.house = d.house && lowest(q, 3, 5, h, m, base);
        return d;
    default:
        return deal_six(q, m, base);
    }
}

/* The set under test, from the lowest place up, and what its sequences gave. */
struct trial {
    int count, width;
    uint8_t set[RULES_MAX_PULSES];
    bool lawful;
    uint8_t *met; /* each index met, or NULL */
    int64_t house;
};

static void judge(struct trial *t, const uint8_t *q)
{
    struct dealt d = deal(t->count, q, t->width, 0);
    if (!d.fits)
        return;
    uint32_t pulses = (uint32_t)t->count, width = (uint32_t)t->width;
    uint32_t index = (uint32_t)d.number;
    if (d.number >> rules_index_bits(pulses, width) != 0) {
        fault("an index too large", pulses, width, index);
        return;
    }
    if (t->met != NULL)
        t->met[index] = 1;
    uint8_t out[RULES_MAX_PULSES];
    int32_t answer = rules_read_index(pulses, width, index, false, out, sizeof out);
    if (answer != (t->lawful ? t->count : -RULES_BOTH_SIGNS)
        || (t->lawful && memcmp(out, t->set, pulses) != 0))
        fault("reading against the rules", pulses, width, index);
    if (t->lawful && d.house) {
        if (t->house >= 0 && t->house != (int64_t)index)
            fault("two house indices", pulses, width, index);
        t->house = index;
    }
}

/* All sequences of a set; equal pulses are not exchanged. */
static void all_sequences(struct trial *t, uint8_t *q, int done)
{
    if (done == t->count) {
        judge(t, q);
        return;
    }
    for (int i = done; i < t->count; i++) {
        bool tried = false;
        for (int k = done; k < i; k++)
            tried = tried || q[k] == q[i];
        if (tried)
            continue;
        uint8_t at_done = q[done], at_i = q[i];
        q[done] = at_i;
        q[i] = at_done;
        all_sequences(t, q, done + 1);
        q[done] = at_done;
        q[i] = at_i;
    }
}

static void test_set(struct trial *t)
{
    uint8_t q[RULES_MAX_PULSES];
    memcpy(q, t->set, sizeof q);
    t->lawful = true;
    for (int i = 1; i < t->count; i++)
        t->lawful = t->lawful
                 && (place_of(q[i - 1]) != place_of(q[i]) || sign_of(q[i - 1]) == sign_of(q[i]));
    t->house = -1;
    all_sequences(t, q, 0);
    int32_t written = rules_write_index((uint32_t)t->width, t->set, (size_t)t->count);
    if (written != (t->lawful ? t->house : -RULES_BOTH_SIGNS))
        fault("writing against the rules", (uint32_t)t->count, (uint32_t)t->width,
              (uint32_t)t->house);
}

/* All sets, lawful or not, by place and then sign; of these every `step`th is tested. */
static unsigned long all_sets(struct trial *t, int done, int from, unsigned long seen,
                              unsigned long step)
{
    if (done == t->count) {
        if (seen % step == 0)
            test_set(t);
        return seen + 1;
    }
    for (int k = from; k < 2 << t->width; k++) {
        t->set[done] = (uint8_t)(k / 2 + 32 * (k % 2));
        seen = all_sets(t, done + 1, k, seen, step);
    }
    return seen;
}

static void test_rules(int count, int width, unsigned long step)
{
    struct trial t = {.count = count, .width = width};
    size_t indices = (size_t)1 << rules_index_bits((uint32_t)count, (uint32_t)width);
    if (step == 1) {
        t.met = calloc(indices, 1);
        if (t.met == NULL)
            abort();
    }
    all_sets(&t, 0, 0, 0, step);
    for (size_t i = 0; t.met != NULL && i < indices; i++)
        if (!t.met[i])
            fault("an index of no set", (uint32_t)count, (uint32_t)width, (uint32_t)i);
    free(t.met);
}

int main(void)
{
    struct example_count examples
        = try_examples((struct index_calls){rules_read_index, rules_write_index});
    wrong += examples.differences;

    test_every_index(1, 5, 64);
    test_every_index(1, 4, 32);
    test_every_index(2, 4, 512);
    test_every_index(3, 4, 5472);
    test_every_index(4, 4, 44032);
    test_every_index(5, 4, 285088);
    test_every_index(6, 4, 1549824);

    test_rules(1, 5, 1);
    test_rules(1, 4, 1);
    test_rules(2, 4, 1);
    test_rules(3, 4, 1);
    test_rules(4, 4, 1);
    test_rules(5, 4, 29);
    test_rules(6, 4, 499);

    printf("selftest: %u examples, every index, all sets of one to four pulses and some of five "
           "and six: %lu differences\n",
           examples.examples, wrong);
    return wrong == 0 ? EXIT_SUCCESS : EXIT_FAILURE;
}
