#include "message.h"

#include <string.h>

#define MODE_BITS 4

#define SPECTRUM_1 7, {8, 8, 6, 7, 7, 5, 5}
#define DELAY_2 {9, 6, 9, 6}

const struct message_mode message_modes[MESSAGE_MODES] = {
    {132, 5, {8, 8, 7, 7, 6}, {8, 5, 5, 5}, 0, 6, 0, 2, 5, {1, 1}},
    {177, SPECTRUM_1, {8, 5, 8, 5}, 0, 6, 0, 4, 4, {1, 1, 1, 1}},
    {253, SPECTRUM_1, DELAY_2, 1, 7, 0, 4, 4, {2, 2, 2, 2}},
    {285, SPECTRUM_1, DELAY_2, 1, 7, 0, 4, 4, {3, 3, 2, 2}},
    {317, SPECTRUM_1, DELAY_2, 1, 7, 0, 4, 4, {3, 3, 3, 3}},
    {365, SPECTRUM_1, DELAY_2, 1, 7, 0, 4, 4, {4, 4, 4, 4}},
    {397, SPECTRUM_1, DELAY_2, 1, 7, 0, 4, 4, {5, 5, 4, 4}},
    {461, SPECTRUM_1, DELAY_2, 1, 7, 0, 4, 4, {6, 6, 6, 6}},
    {477, SPECTRUM_1, DELAY_2, 1, 7, 4, 4, 4, {6, 6, 6, 6}},
};

unsigned message_high_bits(unsigned index_bits)
{
    switch (index_bits) {
    case 16:
        return 2;
    case 20:
        return 10;
    case 22:
        return 11;
    default:
        return 0;
    }
}

/* ---- delays ---- */

static unsigned long_delay(unsigned bits, unsigned d)
{
    if (bits == 8)
        return d < 116 ? 136 + 2 * d : 4 * (d - 24);
    if (d < 376)
        return 136 + d;
    return d < 440 ? 512 + 2 * (d - 376) : 4 * (d - 280);
}

/* The whole sample L that short delays count from. */
static unsigned short_base(unsigned quarters)
{
    unsigned nearest = (quarters + 2) / 4;
    if (nearest < 34 + 8)
        return 34;
    return nearest > 216 + 8 ? 216 : nearest - 8;
}

void message_set_delays(struct message_frame *frame)
{
    const struct message_mode *mode = &message_modes[frame->mode];
    unsigned base = 0;
    for (unsigned s = 0; s < MESSAGE_SUBFRAMES; s++) {
        struct message_subframe *sub = &frame->subframe[s];
        unsigned quarters;
        if (mode->delay[s] >= 8) {
            quarters = long_delay(mode->delay[s], sub->delay);
            base = short_base(quarters);
        } else {
            quarters = 4 * base + (mode->delay[s] == 5 ? 2u * sub->delay : sub->delay);
        }
        sub->quarters = (uint16_t)quarters;
        sub->microseconds = quarters * 625 / 32;
    }
}

/* ---- reading ---- */

/* A message being read, either from octets or from cells. */
struct reader {
    const uint8_t *octets, *cells;
    uint32_t length; /* in cells */
    uint32_t at;     /* the next cell */
    bool strict;
    struct message_answer answer;
};

static bool refuse(struct reader *r, enum message_refusal why, int subframe, int track,
                   uint32_t cell)
{
    r->answer.refusal = why;
    r->answer.spot
        = (struct message_spot){(int32_t)r->answer.frames, subframe, track, (int32_t)cell};
    return false;
}

/* The first cell that is missing or bad decides; the spot is the field's first cell. */
static bool read_from_cells(struct reader *r, unsigned width, int subframe, int track,
                            uint32_t *value)
{
    uint32_t sum = 0;
    for (uint32_t i = r->at; i < r->at + width; i++) {
        if (i >= r->length)
            return refuse(r, MESSAGE_CELL_MISSING, subframe, track, r->at);
        if (r->cells[i] > MESSAGE_ONE)
            return refuse(r, MESSAGE_BAD_CELL, subframe, track, r->at);
        sum = sum << 1 | r->cells[i];
    }
    r->at += width;
    *value = sum;
    return true;
}

/* A field has at most 14 bits, so it lies within three octets. */
static inline bool read_field(struct reader *r, unsigned width, int subframe, int track,
                              uint32_t *value)
{
    if (r->cells != NULL)
        return read_from_cells(r, width, subframe, track, value);
    uint32_t end = r->at + width;
    if (end > r->length)
        return refuse(r, MESSAGE_CELL_MISSING, subframe, track, r->at);
    uint32_t sum = 0;
    for (uint32_t i = r->at / 8; i < (end + 7) / 8; i++)
        sum = sum << 8 | r->octets[i];
    *value = sum >> (-end & 7) & ((1u << width) - 1);
    r->at = end;
    return true;
}

/* All high parts, then each low part; a track is questioned right after its last part. */
static bool read_tracks(struct reader *r, const struct message_mode *mode, int s,
                        struct message_subframe *sub)
{
    uint32_t part, high[MESSAGE_MAX_TRACKS] = {0};
    for (int t = 0; t < mode->tracks; t++) {
        unsigned cut = message_high_bits(rules_index_bits(mode->pulses[t], mode->width));
        if (cut > 0 && !read_field(r, cut, s, t, &high[t]))
            return false;
    }
    for (int t = 0; t < mode->tracks; t++) {
        unsigned bits = rules_index_bits(mode->pulses[t], mode->width);
        unsigned low = bits - message_high_bits(bits);
        uint32_t first = r->at;
        if (!read_field(r, low, s, t, &part))
            return false;
        sub->index[t] = high[t] << low | part;
        int32_t got = rules_read_index(mode->pulses[t], mode->width, sub->index[t], r->strict,
                                       sub->pulses[t], RULES_MAX_PULSES);
        if (got < 0)
            return refuse(r, (enum message_refusal)-got, s, t, first);
    }
    return true;
}

static bool read_subframe(struct reader *r, const struct message_mode *mode, int s,
                          struct message_subframe *sub)
{
    uint32_t value;
    if (!read_field(r, mode->delay[s], s, MESSAGE_ABSENT, &value))
        return false;
    sub->delay = (uint16_t)value;
    if (mode->filter > 0) {
        if (!read_field(r, mode->filter, s, MESSAGE_ABSENT, &value))
            return false;
        sub->filter = (uint8_t)value;
    }
    if (!read_tracks(r, mode, s, sub))
        return false;
    if (!read_field(r, mode->gain, s, MESSAGE_ABSENT, &value))
        return false;
    sub->gain = (uint8_t)value;
    if (mode->high_band > 0) {
        if (!read_field(r, mode->high_band, s, MESSAGE_ABSENT, &value))
            return false;
        sub->high_band = (uint8_t)value;
    }
    return true;
}

static bool read_frame(struct reader *r, struct message_frame *frame)
{
    const struct message_mode *mode = &message_modes[frame->mode];
    uint32_t value;
    if (!read_field(r, 1, MESSAGE_ABSENT, MESSAGE_ABSENT, &value))
        return false;
    frame->voice = (uint8_t)value;
    for (unsigned i = 0; i < mode->spectrum_fields; i++) {
        if (!read_field(r, mode->spectrum[i], MESSAGE_ABSENT, MESSAGE_ABSENT, &value))
            return false;
        frame->spectrum[i] = (uint8_t)value;
    }
    for (int s = 0; s < MESSAGE_SUBFRAMES; s++)
        if (!read_subframe(r, mode, s, &frame->subframe[s]))
            return false;
    message_set_delays(frame);
    return true;
}

/* All fill cells are read before any is asked to be zero. */
static bool read_fill(struct reader *r)
{
    uint32_t first = r->at, fill;
    if (!read_field(r, -first & 7, MESSAGE_ABSENT, MESSAGE_ABSENT, &fill))
        return false;
    if (fill != 0 || r->at < r->length)
        return refuse(r, MESSAGE_BAD_FILL, MESSAGE_ABSENT, MESSAGE_ABSENT, first);
    return true;
}

static struct message_answer read_message(struct reader r, struct message_frame *frames)
{
    for (;;) {
        uint32_t first = r.at, mode;
        if (!read_field(&r, MODE_BITS, MESSAGE_ABSENT, MESSAGE_ABSENT, &mode))
            break;
        if (mode == MESSAGE_END_MARK) {
            read_fill(&r);
            break;
        }
        if (mode >= MESSAGE_MODES) {
            refuse(&r, MESSAGE_NO_SUCH_MODE, MESSAGE_ABSENT, MESSAGE_ABSENT, first);
            break;
        }
        if (r.answer.frames == MESSAGE_MAX_FRAMES) {
            refuse(&r, MESSAGE_TOO_MANY_FRAMES, MESSAGE_ABSENT, MESSAGE_ABSENT, first);
            break;
        }
        struct message_frame *frame = &frames[r.answer.frames];
        memset(frame, 0, sizeof *frame);
        frame->mode = (uint8_t)mode;
        if (!read_frame(&r, frame))
            break;
        r.answer.frames++;
    }
    return r.answer;
}

struct message_answer message_read_octets(const uint8_t *octets, size_t count, bool strict,
                                          struct message_frame *frames)
{
    uint32_t length = count < MESSAGE_MAX_OCTETS ? 8 * (uint32_t)count : MESSAGE_MAX_CELLS;
    return read_message((struct reader){.octets = octets, .length = length, .strict = strict},
                        frames);
}

struct message_answer message_read_cells(const uint8_t *cells, size_t count, bool strict,
                                         struct message_frame *frames)
{
    static const uint8_t none[1];
    uint32_t length = count < MESSAGE_MAX_CELLS ? (uint32_t)count : MESSAGE_MAX_CELLS;
    return read_message((struct reader){.cells = count > 0 ? cells : none,
                                        .length = length,
                                        .strict = strict},
                        frames);
}

struct message_answer message_return(struct message_answer read, uint32_t n)
{
    if (read.refusal != MESSAGE_ACCEPTED || n < read.frames)
        return read;
    return (struct message_answer){
        .refusal = MESSAGE_NO_SUCH_FRAME,
        .spot = {MESSAGE_ABSENT, MESSAGE_ABSENT, MESSAGE_ABSENT, MESSAGE_ABSENT}};
}

/* ---- writing ---- */

bool message_set_indices(struct message_frame *frame)
{
    const struct message_mode *mode = &message_modes[frame->mode];
    for (unsigned s = 0; s < MESSAGE_SUBFRAMES; s++)
        for (unsigned t = 0; t < mode->tracks; t++) {
            struct message_subframe *sub = &frame->subframe[s];
            int32_t house = rules_write_index(mode->width, sub->pulses[t], mode->pulses[t]);
            if (house < 0)
                return false;
            sub->index[t] = (uint32_t)house;
        }
    return true;
}

struct writer {
    uint8_t *octets;
    size_t at; /* in cells */
};

static void write_field(struct writer *w, unsigned width, uint32_t value)
{
    for (unsigned i = width; i-- > 0; w->at++) {
        if (w->at % 8 == 0)
            w->octets[w->at / 8] = 0;
        w->octets[w->at / 8] |= (uint8_t)((value >> i & 1u) << (7 - w->at % 8));
    }
}

static void write_subframe(struct writer *w, const struct message_mode *mode, unsigned s,
                           const struct message_subframe *sub)
{
    write_field(w, mode->delay[s], sub->delay);
    write_field(w, mode->filter, sub->filter);
    for (unsigned t = 0; t < mode->tracks; t++) {
        unsigned bits = rules_index_bits(mode->pulses[t], mode->width);
        unsigned high = message_high_bits(bits);
        write_field(w, high, sub->index[t] >> (bits - high));
    }
    for (unsigned t = 0; t < mode->tracks; t++) {
        unsigned bits = rules_index_bits(mode->pulses[t], mode->width);
        write_field(w, bits - message_high_bits(bits), sub->index[t]);
    }
    write_field(w, mode->gain, sub->gain);
    write_field(w, mode->high_band, sub->high_band);
}

size_t message_write(const struct message_frame *frames, size_t count, uint8_t *octets)
{
    struct writer w = {octets, 0};
    for (size_t n = 0; n < count; n++) {
        const struct message_frame *frame = &frames[n];
        const struct message_mode *mode = &message_modes[frame->mode];
        write_field(&w, MODE_BITS, frame->mode);
        write_field(&w, 1, frame->voice);
        for (unsigned i = 0; i < mode->spectrum_fields; i++)
            write_field(&w, mode->spectrum[i], frame->spectrum[i]);
        for (unsigned s = 0; s < MESSAGE_SUBFRAMES; s++)
            write_subframe(&w, mode, s, &frame->subframe[s]);
    }
    write_field(&w, MODE_BITS, MESSAGE_END_MARK);
    write_field(&w, (unsigned)(-w.at & 7), 0);
    return w.at / 8;
}

/* ---- the delay sheet ---- */

static char *put_number(char *out, uint32_t value)
{
    char digits[10];
    unsigned count = 0;
    do
        digits[count++] = (char)('0' + value % 10);
    while ((value /= 10) > 0);
    while (count > 0)
        *out++ = digits[--count];
    return out;
}

/* A letter and numbers, parted by tabs. */
static char *put_line(char *out, char letter, const uint32_t *values, unsigned count)
{
    *out++ = letter;
    for (unsigned i = 0; i < count; i++) {
        *out++ = '\t';
        out = put_number(out, values[i]);
    }
    *out++ = '\n';
    return out;
}

size_t message_sheet(struct message_answer answer, const struct message_frame *frames, char *out)
{
    char *start = out;
    if (answer.refusal != MESSAGE_ACCEPTED) {
        const uint32_t values[] = {answer.refusal, (uint32_t)answer.spot.frame,
                                   (uint32_t)answer.spot.cell};
        return (size_t)(put_line(out, 'R', values, 3) - start);
    }
    for (uint32_t n = 0; n < answer.frames; n++)
        for (uint32_t s = 0; s < MESSAGE_SUBFRAMES; s++) {
            const struct message_subframe *sub = &frames[n].subframe[s];
            const uint32_t values[] = {n, s, sub->quarters, sub->microseconds};
            out = put_line(out, 'D', values, 4);
        }
    return (size_t)(put_line(out, 'E', &answer.frames, 1) - start);
}
