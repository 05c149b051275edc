#include "trial.h"

#include <stdlib.h>

/* Marsaglia's xorshift. */
uint32_t random_number(void)
{
    static uint32_t x = 2463534242u;
    x ^= x << 13;
    x ^= x >> 17;
    x ^= x << 5;
    return x;
}

uint32_t below(uint32_t limit) { return random_number() % limit; }

uint32_t random_bits(unsigned width) { return random_number() >> 7 & ((1u << width) - 1); }

/* A lawful set, from the lowest place up. In one of four the places are few, so that
 * pulses meet. */
static void random_set(unsigned pulses, unsigned width, uint8_t *out)
{
    uint32_t minus = random_number();
    uint32_t first = below(1u << width);
    uint32_t span = below(4) == 0 ? 1 + below(3) : 1u << width;
    for (unsigned i = 0; i < pulses; i++) {
        uint32_t place = (first + below(span)) & ((1u << width) - 1);
        unsigned k = i;
        for (; k > 0 && (out[k - 1] & 31u) > place; k--)
            out[k] = out[k - 1];
        out[k] = (uint8_t)(place | (minus >> place & 1u) << 5);
    }
}

struct message_frame blank_frame(unsigned mode)
{
    struct message_frame frame = {.mode = (uint8_t)mode};
    if (!message_set_indices(&frame))
        abort();
    return frame;
}

struct message_frame random_frame(unsigned number)
{
    struct message_frame frame = {.mode = (uint8_t)number};
    const struct message_mode *mode = &message_modes[number];
    frame.voice = (uint8_t)random_bits(1);
    for (unsigned i = 0; i < mode->spectrum_fields; i++)
        frame.spectrum[i] = (uint8_t)random_bits(mode->spectrum[i]);
    for (unsigned s = 0; s < MESSAGE_SUBFRAMES; s++) {
        struct message_subframe *sub = &frame.subframe[s];
        sub->delay = (uint16_t)random_bits(mode->delay[s]);
        sub->filter = (uint8_t)random_bits(mode->filter);
        sub->gain = (uint8_t)random_bits(mode->gain);
        sub->high_band = (uint8_t)random_bits(mode->high_band);
        for (unsigned t = 0; t < mode->tracks; t++)
            random_set(mode->pulses[t], mode->width, sub->pulses[t]);
    }
    if (!message_set_indices(&frame))
        abort();
    return frame;
}

/* An index that strict reading refuses so; some numbers of pulses have none. */
static bool find_index(unsigned pulses, unsigned width, enum message_refusal refusal,
                       uint32_t *index)
{
    uint8_t set[RULES_MAX_PULSES];
    for (unsigned tries = 0; tries < 10000; tries++) {
        *index = random_bits(rules_index_bits(pulses, width));
        if (rules_read_index(pulses, width, *index, true, set, sizeof set) == -(int32_t)refusal)
            return true;
    }
    return false;
}

bool spoil_track(struct message_frame *frame, enum message_refusal refusal)
{
    const struct message_mode *mode = &message_modes[frame->mode];
    unsigned s = below(MESSAGE_SUBFRAMES), t = below(mode->tracks);
    return find_index(mode->pulses[t], mode->width, refusal, &frame->subframe[s].index[t]);
}
