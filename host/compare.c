/* Compares the library's two calls with rules.c: compare [all]
 *
 * Every index of one to four pulses, 200,000 each of five and six (with `all`:
 * every one), each set written back in several sequences, and damaged calls.
 * Prints what was compared and a line `difference` for what differs; ends with
 * status 1 if anything did. */
#include <inttypes.h>
#include <stdarg.h>
#include <stdio.h>
#include <stdlib.h>
#include <string.h>

#include "examples.h"
#include "rules.h"
#include "vilchuqa.h"

#define COUNT(array) (sizeof(array) / sizeof((array)[0]))

/* No pulse has this octet, so an octet left alone is told from one put there. */
#define GUARD 0xA5
#define GUARD_LENGTH 8
#define ROOM 16

#define DIFFERENCES_SHOWN 20

static unsigned long reads, writes, differences;

static void difference(const char *form, ...)
{
    if (differences++ >= DIFFERENCES_SHOWN)
        return;
    va_list values;
    va_start(values, form);
    printf("difference\t");
    vprintf(form, values);
    printf("\n");
    va_end(values);
}

/* Marsaglia's xorshift, from a fixed seed: each run makes the same calls. */
static uint32_t random_number(void)
{
    static uint32_t x = 2463534242u;
    x ^= x << 13;
    x ^= x >> 17;
    x ^= x << 5;
    return x;
}

static uint32_t below(uint32_t limit) { return random_number() % limit; }

/* ---- one call of both ---- */

/* Reads with both, the library's buffer between guards. Answers what rules.c does,
 * with its pulses in `set`. */
static int32_t read_both(uint32_t pulses, uint32_t width, uint32_t index, bool strict,
                         size_t length, uint8_t set[RULES_MAX_PULSES])
{
    uint8_t expected[GUARD_LENGTH + ROOM + GUARD_LENGTH];
    uint8_t found[sizeof expected];
    memset(expected, GUARD, sizeof expected);
    memset(found, GUARD, sizeof found);

    size_t held = length < RULES_MAX_PULSES ? length : RULES_MAX_PULSES;
    int32_t right = rules_read_index(pulses, width, index, strict, set, held);
    if (right > 0)
        memcpy(expected + GUARD_LENGTH, set, (size_t)right);

    uint8_t *out = found + GUARD_LENGTH;
    int32_t answer = vilchuqa_read_index(pulses, width, index, strict, out, length);
    reads++;
    const char *how = strict ? "strictly" : "openly";
    if (answer != right)
        difference("read %" PRIu32 " %" PRIu32 " %" PRIu32 " %s, buffer of %zu\tanswer %" PRId32
                   "\texpected %" PRId32,
                   pulses, width, index, how, length, answer, right);
    else if (memcmp(found, expected, sizeof found) != 0)
        difference("read %" PRIu32 " %" PRIu32 " %" PRIu32 " %s, buffer of %zu\tthe buffer",
                   pulses, width, index, how, length);
    return right;
}

/* Writes with both. Answers what rules.c does. */
static int32_t write_both(uint32_t width, const uint8_t *set, size_t count)
{
    int32_t right = rules_write_index(width, set, count);
    int32_t answer = vilchuqa_write_index(width, set, count);
    writes++;
    if (answer != right)
        difference("write %zu at width %" PRIu32 ": %u %u %u ..\tanswer %" PRId32
                   "\texpected %" PRId32,
                   count, width, count > 0 ? set[0] : 0, count > 1 ? set[1] : 0,
                   count > 2 ? set[2] : 0, answer, right);
    return right;
}

/* ---- indices ---- */

static void reverse(uint8_t *set, size_t count)
{
    for (size_t i = 0; i < count / 2; i++) {
        uint8_t kept = set[i];
        set[i] = set[count - 1 - i];
        set[count - 1 - i] = kept;
    }
}

static void shuffle(uint8_t *set, size_t count)
{
    for (size_t i = count; i > 1; i--) {
        size_t k = below((uint32_t)i);
        uint8_t kept = set[i - 1];
        set[i - 1] = set[k];
        set[k] = kept;
    }
}

/* In rising sequence, reversed, and shuffled twice. */
static void compare_writing_back(uint32_t width, uint8_t *set, size_t count)
{
    int32_t house = write_both(width, set, count);
    if (count == 1)
        return;
    for (int turn = 0; turn < 3; turn++) {
        if (turn == 0)
            reverse(set, count);
        else
            shuffle(set, count);
        if (write_both(width, set, count) != house)
            difference("rules.c goes by the sequence of the pulses of index %" PRId32, house);
    }
}

static void compare_index(uint32_t pulses, uint32_t width, uint32_t index)
{
    uint8_t set[RULES_MAX_PULSES];
    read_both(pulses, width, index, true, RULES_MAX_PULSES, set);
    if (read_both(pulses, width, index, false, RULES_MAX_PULSES, set) > 0)
        compare_writing_back(width, set, pulses);
}

static void compare_every_index(uint32_t pulses, uint32_t width)
{
    uint32_t end = 1u << rules_index_bits(pulses, width);
    for (uint32_t index = 0; index < end; index++)
        compare_index(pulses, width, index);
    printf("compared\tall %" PRIu32 " indices\t%" PRIu32 " at width %" PRIu32 "\n", end, pulses,
           width);
}

/* `wanted` indices, evenly spread; and those around each multiple of 1/64 of the range. */
static void compare_spread(uint32_t pulses, uint32_t width, uint32_t wanted)
{
    uint32_t end = 1u << rules_index_bits(pulses, width);
    for (uint32_t i = 0; i < wanted; i++)
        compare_index(pulses, width, (uint32_t)((uint64_t)i * end / wanted));
    uint32_t edges = 0;
    for (uint32_t i = 0; i <= 64; i++) {
        uint32_t edge = end / 64 * i;
        for (uint32_t k = 0; k < 32; k++, edges++)
            compare_index(pulses, width, edge < 16 ? k : edge - 16 + k);
    }
    printf("compared\t%" PRIu32 " indices, %" PRIu32 " at edges\t%" PRIu32 " at width %" PRIu32
           "\n",
           wanted, edges, pulses, width);
}

/* ---- damaged calls ---- */

static const uint32_t numbers[] = {0, 1, 2, 3, 4, 5, 6, 7, 8, 16, 255, 256, 257, 260,
                                   65537, 0x7FFFFFFFu, 0x80000000u, 0x80000001u, UINT32_MAX};

static const uint32_t widths[] = {0, 1, 2, 3, 4, 5, 6, 7, 8, 31, 32, 33, 36, 64,
                                  256, 260, 261, 65540, 0x80000004u, UINT32_MAX};

static const uint32_t indices[] = {
    0, 1, 31, 32, 33, 63, 64, 65, 511, 512, 513, 601, 4874, 5421, 8191, 8192, 8193, 65535, 65536,
    65537, 1048575, 1048576, 1048577, 4194303, 4194304, 4194305, 0x00FFFFFFu, 0x01000000u,
    0x7FFFFFFFu, 0x80000000u, 0x80000001u, UINT32_MAX};

static void compare_damaged_reads(void)
{
    uint8_t set[RULES_MAX_PULSES];
    for (size_t n = 0; n < COUNT(numbers); n++)
        for (size_t w = 0; w < COUNT(widths); w++)
            for (size_t i = 0; i < COUNT(indices); i++)
                for (size_t length = 0; length <= ROOM; length += 8)
                    for (int strict = 0; strict < 2; strict++)
                        read_both(numbers[n], widths[w], indices[i], strict, length, set);
    printf("compared\tnumbers, widths and indices that are not used\n");
}

static void compare_buffers(uint32_t pulses, uint32_t width)
{
    uint8_t set[RULES_MAX_PULSES];
    uint32_t end = 1u << rules_index_bits(pulses, width);
    for (uint32_t i = 0; i < 2000; i++) {
        uint32_t index = below(end);
        for (size_t length = 0; length <= pulses + 2; length++)
            for (int strict = 0; strict < 2; strict++)
                read_both(pulses, width, index, strict, length, set);
    }
}

static void compare_null(void)
{
    for (size_t n = 0; n < COUNT(numbers); n++)
        for (size_t w = 0; w < COUNT(widths); w++)
            for (size_t i = 0; i < COUNT(indices); i++)
                for (int strict = 0; strict < 2; strict++) {
                    int32_t right
                        = rules_read_index(numbers[n], widths[w], indices[i], strict, NULL, 0);
                    int32_t answer
                        = vilchuqa_read_index(numbers[n], widths[w], indices[i], strict, NULL, 0);
                    reads++;
                    if (answer != right)
                        difference("read %" PRIu32 " %" PRIu32 " %" PRIu32
                                   ", no buffer\tanswer %" PRId32 "\texpected %" PRId32,
                                   numbers[n], widths[w], indices[i], answer, right);
                }
    for (size_t w = 0; w < COUNT(widths); w++)
        write_both(widths[w], NULL, 0);
    printf("compared\tno buffer and no pulses\n");
}

static void compare_damaged_counts(void)
{
    static uint8_t many[300];
    for (size_t w = 0; w < COUNT(widths); w++)
        for (size_t count = 0; count <= sizeof many; count++) {
            memset(many, 3, sizeof many);
            write_both(widths[w], many, count);
            memset(many, 0xFF, sizeof many);
            write_both(widths[w], many, count);
        }
    printf("compared\tnumbers of pulses that are not used\n");
}

static void compare_octets(void)
{
    uint8_t set[2];
    for (unsigned first = 0; first < 256; first++) {
        set[0] = (uint8_t)first;
        write_both(4, set, 1);
        write_both(5, set, 1);
        for (unsigned second = 0; second < 256; second++) {
            set[1] = (uint8_t)second;
            write_both(4, set, 2);
        }
    }
    printf("compared\tall octets of one pulse and of two\n");
}

/* A pulse on the track, now and then one off it or an octet of 64 and more. */
static uint8_t random_octet(uint32_t places)
{
    if (below(40) == 0)
        return (uint8_t)below(256);
    return (uint8_t)(below(places) + 32 * below(2));
}

/* Few places make both signs on one place likely. */
static void compare_random_sets(uint32_t wanted)
{
    uint8_t set[RULES_MAX_PULSES], before[RULES_MAX_PULSES];
    for (uint32_t i = 0; i < wanted; i++) {
        size_t count = 1 + below(RULES_MAX_PULSES);
        uint32_t places = 1 + below(16);
        for (size_t k = 0; k < count; k++)
            set[k] = random_octet(places);
        memcpy(before, set, count);
        write_both(4, set, count);
        if (memcmp(before, set, count) != 0)
            difference("writing changed the pulses that it was handed");
    }
    printf("compared\t%" PRIu32 " sets, lawful or not\n", wanted);
}

int main(int argc, char **argv)
{
    bool all = argc == 2 && strcmp(argv[1], "all") == 0;
    if (argc > 1 && !all) {
        fprintf(stderr, "usage: compare [all]\n");
        return EXIT_FAILURE;
    }

    setvbuf(stdout, NULL, _IOLBF, BUFSIZ); /* a crash loses no line */
    struct example_count examples
        = try_examples((struct index_calls){vilchuqa_read_index, vilchuqa_write_index});
    differences += examples.differences;
    printf("compared\t%u examples\n", examples.examples);

    compare_every_index(1, 5);
    for (uint32_t pulses = 1; pulses <= 4; pulses++)
        compare_every_index(pulses, 4);
    for (uint32_t pulses = 5; pulses <= 6; pulses++)
        if (all)
            compare_every_index(pulses, 4);
        else
            compare_spread(pulses, 4, 200000);

    compare_damaged_reads();
    compare_buffers(1, 5);
    for (uint32_t pulses = 1; pulses <= 6; pulses++)
        compare_buffers(pulses, 4);
    printf("compared\tbuffers too short, just long enough and longer\n");
    compare_null();
    compare_damaged_counts();
    compare_octets();
    compare_random_sets(200000);

    printf("compare: %u examples, %lu reads, %lu writes, %lu differences\n", examples.examples,
           reads, writes, differences);
    return differences == 0 ? EXIT_SUCCESS : EXIT_FAILURE;
}
