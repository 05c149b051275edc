#include "examples.h"

#include <inttypes.h>
#include <stdio.h>
#include <string.h>

#define MINUS 32
#define UNTOUCHED 0xEE

/* `length` is the buffer's in reading; the pulses stand in it from the lowest place up. */
struct read_example {
    uint32_t pulses, width, index;
    bool strict;
    size_t length;
    int32_t answer;
    uint8_t set[8];
};

struct write_example {
    uint32_t width;
    size_t count;
    uint8_t set[8];
    int32_t answer;
};

static const struct read_example reads[] = {
    {1, 5, 35, true, 6, 1, {3 + MINUS}},
    {2, 4, 55, true, 6, 2, {3, 7}},
    {2, 4, 371, true, 6, 2, {3, 7 + MINUS}},
    {2, 4, 115, true, 6, 2, {3 + MINUS, 7}},
    {2, 4, 375, true, 6, 2, {7 + MINUS, 7 + MINUS}},
    {3, 4, 4874, true, 6, 3, {1, 2, 3 + MINUS}},
    {4, 4, 43257, true, 6, 4, {1, 2 + MINUS, 9, 15 + MINUS}},
    {4, 4, 65535, true, 6, 4, {7 + MINUS, 7 + MINUS, 7 + MINUS, 15 + MINUS}},
    {5, 4, 66100, true, 6, 5, {0, 1, 2, 3, 4}},
    {6, 4, 3278481, true, 6, 6, {0, 1, 2, 8 + MINUS, 9 + MINUS, 10 + MINUS}},
    {6, 4, 1116615, true, 6, 6, {0, 1, 2, 3, 4, 15}},
    /* other than the house index */
    {3, 4, 601, false, 6, 3, {1, 2, 3 + MINUS}},
    {3, 4, 601, true, 6, -8, {0}},
    /* both signs */
    {3, 4, 5421, false, 6, -6, {0}},
    {3, 4, 5421, true, 6, -6, {0}},
    /* the largest index, and one more */
    {1, 4, 31, true, 6, 1, {15 + MINUS}},
    {1, 4, 32, true, 6, -7, {0}},
    {1, 5, 63, true, 6, 1, {31 + MINUS}},
    {1, 5, 64, true, 6, -7, {0}},
    {2, 4, 511, true, 6, 2, {15 + MINUS, 15 + MINUS}},
    {2, 4, 512, false, 6, -7, {0}},
    {2, 4, 512, true, 6, -7, {0}},
    {3, 4, 8192, false, 6, -7, {0}},
    {4, 4, 65536, false, 6, -7, {0}},
    {5, 4, 1048576, false, 6, -7, {0}},
    {6, 4, 4194304, false, 6, -7, {0}},
    /* numbers and widths that no mode uses */
    {0, 4, 0, false, 6, -7, {0}},
    {7, 4, 0, false, 8, -7, {0}},
    {2, 5, 0, false, 6, -7, {0}},
    {1, 3, 0, false, 6, -7, {0}},
    {1, 6, 0, false, 6, -7, {0}},
    /* the buffer: just long enough, longer, and too short; asked last */
    {3, 4, 4874, true, 3, 3, {1, 2, 3 + MINUS}},
    {3, 4, 4874, true, 8, 3, {1, 2, 3 + MINUS}},
    {3, 4, 4874, true, 2, -17, {0}},
    {3, 4, 4874, false, 0, -17, {0}},
    {3, 4, 601, false, 2, -17, {0}},
    {3, 4, 601, true, 2, -8, {0}},
    {3, 4, 5421, true, 2, -6, {0}},
    {2, 4, 512, true, 1, -7, {0}},
};

static const struct write_example writes[] = {
    {5, 1, {3 + MINUS}, 35},
    {4, 2, {3, 7}, 55},
    {4, 2, {7, 3}, 55},
    {4, 2, {3, 7 + MINUS}, 371},
    {4, 2, {7 + MINUS, 3}, 371},
    {4, 2, {3 + MINUS, 7}, 115},
    {4, 2, {7, 3 + MINUS}, 115},
    {4, 2, {7 + MINUS, 7 + MINUS}, 375},
    {4, 3, {3 + MINUS, 1, 2}, 4874},
    {4, 4, {15 + MINUS, 1, 9, 2 + MINUS}, 43257},
    {4, 4, {7 + MINUS, 15 + MINUS, 7 + MINUS, 7 + MINUS}, 65535},
    {4, 5, {4, 3, 2, 1, 0}, 66100},
    {4, 6, {10 + MINUS, 0, 9 + MINUS, 1, 8 + MINUS, 2}, 3278481},
    {4, 6, {15, 0, 4, 1, 3, 2}, 1116615},
    /* numbers and widths that no mode uses; asked first */
    {4, 0, {0}, -4},
    {4, 7, {0}, -4},
    {4, 7, {255}, -4},
    {5, 2, {0, 1}, -4},
    {3, 1, {0}, -4},
    {6, 1, {0}, -4},
    /* off the track; asked of all pulses before both signs */
    {4, 1, {15}, 15},
    {4, 1, {16}, -5},
    {4, 1, {31}, -5},
    {4, 1, {15 + MINUS}, 31},
    {4, 1, {16 + MINUS}, -5},
    {5, 1, {31 + MINUS}, 63},
    {5, 1, {64}, -5},
    {5, 1, {128 + 3}, -5},
    {5, 1, {255}, -5},
    {4, 3, {5, 5 + MINUS, 16}, -5},
    {4, 3, {16, 5, 5 + MINUS}, -5},
    {4, 2, {3 + 64, 3 + MINUS}, -5},
    /* both signs */
    {4, 2, {5, 5 + MINUS}, -6},
    {4, 3, {5, 5, 5 + MINUS}, -6},
    {4, 6, {0, 1, 2, 3, 4, 0 + MINUS}, -6},
};

static bool read_differs(struct index_calls calls, const struct read_example *e)
{
    uint8_t expected[8], out[8];
    memset(expected, UNTOUCHED, sizeof expected);
    memset(out, UNTOUCHED, sizeof out);
    if (e->answer > 0)
        memcpy(expected, e->set, (size_t)e->answer);
    int32_t answer = calls.read(e->pulses, e->width, e->index, e->strict, out, e->length);
    if (answer == e->answer && memcmp(out, expected, sizeof out) == 0)
        return false;
    printf("difference\texample\tread %" PRIu32 " %" PRIu32 " %" PRIu32
           " %s, buffer of %zu\tanswer %" PRId32 "\texpected %" PRId32 "\n",
           e->pulses, e->width, e->index, e->strict ? "strictly" : "openly", e->length, answer,
           e->answer);
    return true;
}

static bool write_differs(struct index_calls calls, const struct write_example *e)
{
    int32_t answer = calls.write(e->width, e->set, e->count);
    if (answer == e->answer)
        return false;
    printf("difference\texample\twrite at width %" PRIu32 ":", e->width);
    for (size_t i = 0; i < e->count; i++)
        printf(" %u", e->set[i]);
    printf("\tanswer %" PRId32 "\texpected %" PRId32 "\n", answer, e->answer);
    return true;
}

struct example_count try_examples(struct index_calls calls)
{
    const size_t n_reads = sizeof reads / sizeof reads[0];
    const size_t n_writes = sizeof writes / sizeof writes[0];
    struct example_count count = {(unsigned)(n_reads + n_writes), 0};
    for (size_t i = 0; i < n_reads; i++)
        count.differences += read_differs(calls, &reads[i]);
    for (size_t i = 0; i < n_writes; i++)
        count.differences += write_differs(calls, &writes[i]);
    return count;
}
