/* The index rules in plain C, written from docs/RULES.md alone: the second opinion
 * that the library is compared with, and the yardstick of its speed.
 *
 * Calls, octets and answers are those of include/vilchuqa.h. */
#ifndef RULES_H
#define RULES_H

#include <stdbool.h>
#include <stddef.h>
#include <stdint.h>

#define RULES_MAX_PULSES 6

enum rules_refusal {
    RULES_WRONG_NUMBER = 4,
    RULES_OFF_TRACK = 5,
    RULES_BOTH_SIGNS = 6,
    RULES_NO_SUCH_INDEX = 7,
    RULES_NOT_HOUSE_INDEX = 8,
    RULES_BUFFER_TOO_SHORT = 17
};

/* The bits of an index, or 0 if no mode uses this number and width. */
unsigned rules_index_bits(uint32_t pulses, uint32_t width);

int32_t rules_read_index(uint32_t pulses, uint32_t width, uint32_t index, bool strict,
                         uint8_t *out, size_t out_len);

int32_t rules_write_index(uint32_t width, const uint8_t *pulses, size_t count);

#endif
