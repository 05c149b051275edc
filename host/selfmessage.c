/* Tests message.c by itself: the worked examples of docs/RULES.md, the places of all
 * fields, whole messages read back, and what can be damaged, missing or too much. */
#include <stdio.h>
#include <stdlib.h>
#include <string.h>

#include "message.h"
#include "trial.h"

#define COUNT(array) (sizeof(array) / sizeof((array)[0]))

static unsigned long checks, wrong;

static void check(bool holds, const char *what, unsigned mode)
{
    checks++;
    if (!holds && wrong++ < 20)
        printf("difference\t%s\tmode %u\n", what, mode);
}

static uint8_t octets[MESSAGE_MAX_OCTETS + 1000];
static uint8_t cells[8 * 1000];
static struct message_frame made[MESSAGE_MAX_FRAMES + 1], found[MESSAGE_MAX_FRAMES];
static char lines[MESSAGE_SHEET_ROOM];

static struct message_answer read_octets(size_t count, bool strict)
{
    return message_read_octets(octets, count, strict, found);
}

/* ---- answers ---- */

static bool is_spot(struct message_spot spot, int frame, int subframe, int track, int cell)
{
    return spot.frame == frame && spot.subframe == subframe && spot.track == track
        && spot.cell == cell;
}

static bool refused(struct message_answer answer, enum message_refusal refusal, int frame,
                    int subframe, int track, int cell)
{
    return answer.refusal == refusal && is_spot(answer.spot, frame, subframe, track, cell);
}

static bool outside_subframes(struct message_answer answer, enum message_refusal refusal,
                              int frame, int cell)
{
    return refused(answer, refusal, frame, MESSAGE_ABSENT, MESSAGE_ABSENT, cell);
}

static bool accepted(struct message_answer answer, uint32_t frames)
{
    return answer.refusal == MESSAGE_ACCEPTED && answer.frames == frames;
}

static bool same_answer(struct message_answer x, struct message_answer y)
{
    if (x.refusal != y.refusal)
        return false;
    return x.refusal == MESSAGE_ACCEPTED
             ? x.frames == y.frames
             : is_spot(x.spot, y.spot.frame, y.spot.subframe, y.spot.track, y.spot.cell);
}

static bool same_frame(const struct message_frame *x, const struct message_frame *y)
{
    const struct message_mode *mode = &message_modes[x->mode];
    bool same = x->mode == y->mode && x->voice == y->voice
             && memcmp(x->spectrum, y->spectrum, sizeof x->spectrum) == 0;
    for (unsigned s = 0; same && s < MESSAGE_SUBFRAMES; s++) {
        const struct message_subframe *a = &x->subframe[s], *b = &y->subframe[s];
        same = a->delay == b->delay && a->filter == b->filter && a->gain == b->gain
            && a->high_band == b->high_band;
        for (unsigned t = 0; same && t < mode->tracks; t++)
            same = a->index[t] == b->index[t]
                && memcmp(a->pulses[t], b->pulses[t], mode->pulses[t]) == 0;
    }
    return same;
}

static size_t cells_of(size_t count)
{
    for (size_t i = 0; i < 8 * count; i++)
        cells[i] = octets[i / 8] >> (7 - i % 8) & 1u;
    return 8 * count;
}

/* ---- worked examples ---- */

static void check_sheet(size_t count, const char *expected)
{
    size_t length = message_sheet(read_octets(count, true), found, lines);
    check(length == strlen(expected) && memcmp(lines, expected, length) == 0, expected, 0);
}

static void test_sheets(void)
{
    memset(octets, 0, 17);
    octets[17] = 0xF0;
    check_sheet(18, "D\t0\t0\t136\t2656\nD\t0\t1\t136\t2656\nD\t0\t2\t136\t2656\n"
                    "D\t0\t3\t136\t2656\nE\t1\n");
    check_sheet(17, "R\t14\t1\t136\n");
    check_sheet(0, "R\t14\t0\t0\n");
    octets[0] = 0xF0;
    check_sheet(1, "E\t0\n");
    check_sheet(2, "R\t16\t0\t4\n");
    check_sheet(MESSAGE_MAX_OCTETS + 1000, "R\t16\t0\t4\n");
    octets[0] = 0xF4;
    check_sheet(1, "R\t16\t0\t4\n");
    octets[0] = 0x90;
    check_sheet(1, "R\t1\t0\t0\n");
}

static void check_delays(unsigned mode, const uint16_t *delays, const uint16_t *quarters)
{
    struct message_frame frame = blank_frame(mode);
    for (unsigned s = 0; s < MESSAGE_SUBFRAMES; s++)
        frame.subframe[s].delay = delays[s];
    message_set_delays(&frame);
    for (unsigned s = 0; s < MESSAGE_SUBFRAMES; s++)
        check(frame.subframe[s].quarters == quarters[s], "quarter samples", mode);
}

static void test_delays(void)
{
    static const struct {
        unsigned mode;
        uint16_t delays[MESSAGE_SUBFRAMES], quarters[MESSAGE_SUBFRAMES];
    } examples[] = {
        {0, {0, 0, 0, 0}, {136, 136, 136, 136}},
        {0, {116, 31, 1, 0}, {368, 398, 338, 336}},
        {1, {115, 0, 255, 31}, {366, 336, 924, 926}},
        {2, {375, 0, 376, 63}, {511, 480, 512, 543}},
        {8, {439, 63, 440, 0}, {638, 671, 640, 608}},
        {8, {511, 63, 33, 0}, {924, 927, 169, 136}},
        {8, {34, 0, 38, 0}, {170, 140, 174, 144}},
    };
    for (unsigned i = 0; i < COUNT(examples); i++)
        check_delays(examples[i].mode, examples[i].delays, examples[i].quarters);
}

/* ---- the places of fields ---- */

/* The slots of a frame: `-` before the subframes, in a subframe `.` for one without a
 * track and else the track; then the width. Subframes are parted by a bar, and the last
 * stands for all that follow, but for the widths of their delays. */
static const char *const layouts[MESSAGE_MODES] = {
    "-1 -8 -8 -7 -7 -6 | .d 06 16 .6",
    "-1 -8 -8 -6 -7 -7 -5 -5 | .d 05 15 25 35 .6",
    "-1 -8 -8 -6 -7 -7 -5 -5 | .d .1 09 19 29 39 .7",
    "-1 -8 -8 -6 -7 -7 -5 -5 | .d .1 013 113 29 39 .7",
    "-1 -8 -8 -6 -7 -7 -5 -5 | .d .1 013 113 213 313 .7",
    "-1 -8 -8 -6 -7 -7 -5 -5 | .d .1 02 12 22 32 014 114 214 314 .7",
    "-1 -8 -8 -6 -7 -7 -5 -5 | .d .1 010 110 22 32 010 110 214 314 .7",
    "-1 -8 -8 -6 -7 -7 -5 -5 | .d .1 011 111 211 311 011 111 211 311 .7",
    "-1 -8 -8 -6 -7 -7 -5 -5 | .d .1 011 111 211 311 011 111 211 311 .7 .4",
};
static const char *const delay_widths[MESSAGE_MODES]
    = {"8555", "8585", "9696", "9696", "9696", "9696", "9696", "9696", "9696"};
static const unsigned frame_bits[MESSAGE_MODES] = {132, 177, 253, 285, 317, 365, 397, 461, 477};

/* Cuts the message off at, and spoils, each cell of a slot; answers the cell after it. */
static unsigned check_slot(unsigned mode, int subframe, int track, unsigned first, unsigned width,
                           size_t count)
{
    for (unsigned i = first; i < first + width; i++) {
        uint8_t was = cells[i];
        check(refused(message_read_cells(cells, i, true, found), MESSAGE_CELL_MISSING, 0,
                      subframe, track, (int)first),
              "spot of a missing cell", mode);
        cells[i] = MESSAGE_BAD;
        check(refused(message_read_cells(cells, count, false, found), MESSAGE_BAD_CELL, 0,
                      subframe, track, (int)first),
              "spot of a bad cell", mode);
        cells[i] = was;
    }
    return first + width;
}

static unsigned check_slots(const char *slots, unsigned mode, int subframe, unsigned at,
                            size_t count)
{
    for (; *slots != '\0' && *slots != '|'; slots += strspn(slots, " ")) {
        int track = *slots >= '0' && *slots <= '3' ? *slots - '0' : MESSAGE_ABSENT;
        char *end = (char *)slots + 2;
        unsigned width = slots[1] == 'd' ? (unsigned)(delay_widths[mode][subframe] - '0')
                                         : (unsigned)strtoul(slots + 1, &end, 10);
        at = check_slot(mode, subframe, track, at, width, count);
        slots = end;
    }
    return at;
}

static void test_slots(unsigned mode)
{
    made[0] = random_frame(mode);
    size_t count = cells_of(message_write(made, 1, octets));
    unsigned at = check_slots(layouts[mode], mode, MESSAGE_ABSENT, 4, count);
    for (int s = 0; s < MESSAGE_SUBFRAMES; s++)
        at = check_slots(strchr(layouts[mode], '|') + 2, mode, s, at, count);
    check(at == 4 + frame_bits[mode], "bits of a frame", mode);
    check(message_modes[mode].bits == frame_bits[mode], "bits in the table", mode);
    check(count == (at + 4 + 7) / 8 * 8, "cells of a message", mode);
}

/* ---- reading what was written ---- */

static void test_whole(unsigned mode, size_t frames)
{
    for (size_t n = 0; n < frames; n++)
        made[n] = random_frame(mode < MESSAGE_MODES ? mode : below(MESSAGE_MODES));
    size_t count = message_write(made, frames, octets);
    for (int strict = 0; strict <= 1; strict++) {
        check(accepted(read_octets(count, strict), (uint32_t)frames), "whole message", mode);
        for (size_t n = 0; n < frames; n++)
            check(same_frame(&made[n], &found[n]), "frame read back", mode);
    }
    struct message_answer read = read_octets(count, true);
    if (frames > 0)
        check(accepted(message_return(read, (uint32_t)frames - 1), read.frames), "last frame",
              mode);
    check(refused(message_return(read, (uint32_t)frames), MESSAGE_NO_SUCH_FRAME, MESSAGE_ABSENT,
                  MESSAGE_ABSENT, MESSAGE_ABSENT, MESSAGE_ABSENT),
          "frame past the last", mode);

    octets[count] = 0;
    check(read_octets(count + 1, false).refusal == MESSAGE_BAD_FILL, "octet after the end", mode);
    check(read_octets(count - 1, false).refusal == MESSAGE_CELL_MISSING, "octet missing", mode);
}

/* Openly every lawful index gives the frame; strictly only the house's. */
static void test_spoiled(unsigned mode)
{
    static struct message_frame again;
    made[0] = random_frame(mode);
    if (spoil_track(&made[0], MESSAGE_NOT_HOUSE_INDEX)) {
        size_t count = message_write(made, 1, octets);
        check(read_octets(count, true).refusal == MESSAGE_NOT_HOUSE_INDEX, "other index", mode);
        check(accepted(read_octets(count, false), 1), "other index, openly", mode);
        again = found[0];
        check(message_set_indices(&again), "lawful sets", mode);
        count = message_write(&again, 1, octets);
        check(accepted(read_octets(count, true), 1), "house index of the same set", mode);
        check(same_frame(&again, &found[0]), "same frame by the house index", mode);
    }
    made[0] = random_frame(mode);
    if (spoil_track(&made[0], MESSAGE_BOTH_SIGNS)) {
        size_t count = message_write(made, 1, octets);
        struct message_answer strict = read_octets(count, true);
        check(strict.refusal == MESSAGE_BOTH_SIGNS, "both signs", mode);
        check(same_answer(strict, read_octets(count, false)), "both signs, openly", mode);
    }
}

/* Octets and cells are read alike, and what is accepted strictly is accepted openly. */
static void test_damaged(void)
{
    size_t frames = below(4);
    for (size_t n = 0; n < frames; n++)
        made[n] = random_frame(below(MESSAGE_MODES));
    size_t count = message_write(made, frames, octets);
    if (below(2) == 0)
        octets[below((uint32_t)count)] ^= (uint8_t)(1u << below(8));
    if (below(3) == 0)
        count -= below((uint32_t)count);
    size_t length = cells_of(count);
    struct message_answer open = read_octets(count, false), strict = read_octets(count, true);
    check(same_answer(strict, message_read_cells(cells, length, true, found)), "cells", 9);
    check(same_answer(open, message_read_cells(cells, length, false, found)), "cells, openly", 9);
    if (strict.refusal == MESSAGE_ACCEPTED) {
        check(same_answer(strict, open), "strict and open", 9);
        check(message_write(found, strict.frames, octets) == count, "octets written again", 9);
        check(cells_of(count) == length && accepted(read_octets(count, true), strict.frames),
              "message written again", 9);
    }
}

/* 601 for three pulses is not the house's index; 8 for six pulses has both signs. */
static void test_tracks(void)
{
    made[0] = blank_frame(3);
    made[0].subframe[2].index[1] = 601;
    size_t count = message_write(made, 1, octets);
    check(refused(read_octets(count, true), MESSAGE_NOT_HOUSE_INDEX, 0, 2, 1, 193),
          "spot of an index that is not cut", 3);

    made[0] = blank_frame(8);
    made[0].subframe[0].index[0] = 8;
    count = cells_of(message_write(made, 1, octets));
    for (size_t length = 94; length <= count; length++) {
        struct message_answer answer = message_read_cells(cells, length, true, found);
        if (length < 105)
            check(refused(answer, MESSAGE_CELL_MISSING, 0, 0, 3, 94), "before low parts", 8);
        else if (length < 116)
            check(refused(answer, MESSAGE_CELL_MISSING, 0, 0, 0, 105), "in the low part", 8);
        else
            check(refused(answer, MESSAGE_BOTH_SIGNS, 0, 0, 0, 105), "after the low part", 8);
    }
}

/* ---- ends ---- */

static void test_fill(void)
{
    made[0] = random_frame(0);
    size_t count = cells_of(message_write(made, 1, octets)), end = count - 4;
    int spot = (int)end;
    for (size_t i = end; i < count; i++) {
        cells[i] = MESSAGE_ONE;
        check(outside_subframes(message_read_cells(cells, count, true, found), MESSAGE_BAD_FILL, 1,
                                spot),
              "a one in the fill", 0);
        check(outside_subframes(message_read_cells(cells, i, true, found), MESSAGE_CELL_MISSING, 1,
                                spot),
              "fill cut off", 0);
        cells[i] = MESSAGE_BAD;
        check(outside_subframes(message_read_cells(cells, count, true, found), MESSAGE_BAD_CELL, 1,
                                spot),
              "bad fill", 0);
        cells[end] = i > end ? MESSAGE_ONE : MESSAGE_BAD;
        check(outside_subframes(message_read_cells(cells, count, true, found), MESSAGE_BAD_CELL, 1,
                                spot),
              "a one, then bad fill", 0);
        cells[end] = cells[i] = MESSAGE_ZERO;
    }
    for (uint8_t cell = MESSAGE_ZERO; cell <= MESSAGE_BAD; cell++) {
        cells[count] = cell;
        check(outside_subframes(message_read_cells(cells, count + 1, true, found),
                                MESSAGE_BAD_FILL, 1, spot),
              "a cell after the fill", 0);
    }
}

/* 512 frames of the longest mode, and what a 513th mode is. */
static void test_limits(void)
{
    test_whole(8, MESSAGE_MAX_FRAMES);
    check(message_write(made, MESSAGE_MAX_FRAMES, octets) == 30785, "longest message", 8);
    for (unsigned n = 0; n <= MESSAGE_MAX_FRAMES; n++)
        made[n] = random_frame(0);
    size_t count = message_write(made, MESSAGE_MAX_FRAMES, octets);
    for (unsigned mode = 0; mode < 16; mode++) {
        octets[count - 1] = (uint8_t)(mode << 4);
        struct message_answer answer = read_octets(count, true);
        if (mode == MESSAGE_END_MARK)
            check(accepted(answer, MESSAGE_MAX_FRAMES), "512 frames", 0);
        else
            check(outside_subframes(answer,
                                    mode < MESSAGE_MODES ? MESSAGE_TOO_MANY_FRAMES
                                                         : MESSAGE_NO_SUCH_MODE,
                                    MESSAGE_MAX_FRAMES, 136 * MESSAGE_MAX_FRAMES),
                  "513th mode", mode);
    }
    check(outside_subframes(read_octets(count - 1, true), MESSAGE_CELL_MISSING,
                            MESSAGE_MAX_FRAMES, 136 * MESSAGE_MAX_FRAMES),
          "no 513th mode", 0);
}

int main(void)
{
    test_sheets();
    test_delays();
    for (unsigned mode = 0; mode < MESSAGE_MODES; mode++) {
        test_slots(mode);
        for (unsigned i = 0; i < 200; i++) {
            test_whole(mode, 1);
            test_spoiled(mode);
        }
    }
    for (unsigned i = 0; i < 50; i++)
        test_whole(MESSAGE_MODES, i % 10);
    for (unsigned i = 0; i < 5000; i++)
        test_damaged();
    test_tracks();
    test_fill();
    test_limits();
    printf("selfmessage: %lu checks of messages: %lu differences\n", checks, wrong);
    return wrong == 0 ? EXIT_SUCCESS : EXIT_FAILURE;
}
