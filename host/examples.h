/* The worked examples of docs/RULES.md, and each refusal of the two calls. */
#ifndef EXAMPLES_H
#define EXAMPLES_H

#include <stdbool.h>
#include <stddef.h>
#include <stdint.h>

/* The two calls of one implementation. */
struct index_calls {
    int32_t (*read)(uint32_t pulses, uint32_t width, uint32_t index, bool strict, uint8_t *out,
                    size_t out_len);
    int32_t (*write)(uint32_t width, const uint8_t *pulses, size_t count);
};

struct example_count {
    unsigned examples;
    unsigned differences;
};

/* Tries all examples; prints a line `difference` for each that comes out otherwise. */
struct example_count try_examples(struct index_calls calls);

#endif
