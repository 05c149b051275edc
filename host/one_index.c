/* Reads one index openly and prints its pulses, as the program `indices` does for
 * one line: one_index PULSES WIDTH INDEX */
#include <inttypes.h>
#include <stdio.h>
#include <stdlib.h>

#include "vilchuqa.h"

/* Decimal digits alone, up to 4294967295. */
static bool parse_number(const char *text, uint32_t *number)
{
    uint64_t value = 0;
    const char *c = text;
    for (; *c >= '0' && *c <= '9'; c++) {
        value = 10 * value + (uint64_t)(*c - '0');
        if (value > UINT32_MAX)
            return false;
    }
    if (c == text || *c != '\0')
        return false;
    *number = (uint32_t)value;
    return true;
}

static void print_set(const uint8_t *set, int32_t count)
{
    for (int32_t i = 0; i < count; i++)
        printf("%s%c%d", i > 0 ? " " : "\t", set[i] & 32 ? '-' : '+', set[i] & 31);
}

static void print_index(uint32_t pulses, uint32_t width, uint32_t index)
{
    uint8_t set[VILCHUQA_MAX_PULSES];
    int32_t count = vilchuqa_read_index(pulses, width, index, false, set, sizeof set);

    printf("%" PRIu32 "\t%" PRIu32 "\t%" PRIu32, pulses, width, index);
    if (count < 0) {
        printf("\tR\t%" PRId32 "\n", -count);
        return;
    }
    print_set(set, count);
    int32_t house = vilchuqa_write_index(width, set, (size_t)count);
    bool strict = vilchuqa_read_index(pulses, width, index, true, set, sizeof set) >= 0;
    printf("\t%" PRId32 "\t%s\n", house, strict ? "house" : "other");
}

int main(int argc, char **argv)
{
    uint32_t pulses, width, index;
    if (argc != 4 || !parse_number(argv[1], &pulses) || !parse_number(argv[2], &width)
        || !parse_number(argv[3], &index)) {
        fprintf(stderr, "usage: one_index PULSES WIDTH INDEX (decimal, up to 4294967295)\n");
        return EXIT_FAILURE;
    }
    print_index(pulses, width, index);
    return fflush(stdout) == 0 ? EXIT_SUCCESS : EXIT_FAILURE;
}
