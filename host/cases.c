/* Makes messages, whole and damaged, with the answers of message.c:
 *
 *   cases reading FOLDER     messages to be read, and frames of them to be returned
 *   cases sheet FOLDER       one message of real length, and its delay sheet
 *
 * Each writes FOLDER/stdin, which a program under test is given, and FOLDER/stdout,
 * which it has to print. Each run writes the same. docs/RULES.md has the rules.
 *
 * A line of `reading` is a letter for what it is, then `s` (strict) or `o` (open), and
 * the message:
 *
 * m   octets, two hexadecimal digits each. It is answered with
 *         ok FRAMES CHECKSUM QUARTERS ...
 *         R NUMBER FRAME SUBFRAME TRACK CELL     (- for an absent part)
 *     The checksum is FNV-1a of 32 bits over the octets of the delay sheet, as eight
 *     hexadecimal digits. The quarter samples of all subframes follow if there are at
 *     most SMALL frames.
 * c   as m, but of cells, a character for each: 0, 1, or x if bad.
 * f   as m, but the first two octets are the number of a frame, high octet first, which
 *     is to be returned. An accepted one is answered with
 *         F MODE FIELD ... / SAMPLE AMPLITUDE ...
 *     that is, the fields that the mode has in the order of their bits, and the samples
 *     of the frame whose amplitude is not 0. */
#include <inttypes.h>
#include <stdio.h>
#include <stdlib.h>
#include <string.h>

#include "message.h"
#include "trial.h"

#define COUNT(array) (sizeof(array) / sizeof((array)[0]))

/* Up to so many frames the answer tells all delays. */
#define SMALL 4

#define SAMPLE_FRAMES 150

/* The longest message here, with room for what is put after it. */
#define MOST_FRAMES (MESSAGE_MAX_FRAMES + 1)
#define ROOM (61 * MOST_FRAMES + 64)

static FILE *cases, *answers;

/* ---- messages ---- */

struct message {
    size_t count;
    uint8_t octets[ROOM];
};

static struct message scratch;

static struct message *written(const struct message_frame *frames, size_t count)
{
    scratch.count = message_write(frames, count, scratch.octets);
    return &scratch;
}

static struct message *random_message(unsigned mode)
{
    struct message_frame frame = random_frame(mode);
    return written(&frame, 1);
}

static struct message *mixed_message(struct message_frame *frames, size_t count)
{
    for (size_t n = 0; n < count; n++)
        frames[n] = random_frame(below(MESSAGE_MODES));
    return written(frames, count);
}

static void append(struct message *m, uint8_t octet) { m->octets[m->count++] = octet; }

static void flip(struct message *m, size_t cell)
{
    m->octets[cell / 8] ^= (uint8_t)(0x80 >> cell % 8);
}

/* ---- answers ---- */

static uint32_t fnv_1a(const char *octets, size_t count)
{
    uint32_t hash = 2166136261u;
    for (size_t i = 0; i < count; i++)
        hash = (hash ^ (uint8_t)octets[i]) * 16777619u;
    return hash;
}

static void print_part(int32_t part)
{
    if (part == MESSAGE_ABSENT)
        fputs(" -", answers);
    else
        fprintf(answers, " %" PRId32, part);
}

static void print_refusal(struct message_answer answer)
{
    fprintf(answers, "R %d", (int)answer.refusal);
    print_part(answer.spot.frame);
    print_part(answer.spot.subframe);
    print_part(answer.spot.track);
    print_part(answer.spot.cell);
    fputc('\n', answers);
}

static struct message_frame read_frames[MESSAGE_MAX_FRAMES];

static void print_reading(struct message_answer answer)
{
    static char lines[MESSAGE_SHEET_ROOM];
    if (answer.refusal != MESSAGE_ACCEPTED) {
        print_refusal(answer);
        return;
    }
    size_t length = message_sheet(answer, read_frames, lines);
    fprintf(answers, "ok %" PRIu32 " %08" PRIx32, answer.frames, fnv_1a(lines, length));
    for (uint32_t n = 0; answer.frames <= SMALL && n < answer.frames; n++)
        for (unsigned s = 0; s < MESSAGE_SUBFRAMES; s++)
            fprintf(answers, " %u", read_frames[n].subframe[s].quarters);
    fputc('\n', answers);
}

static void print_field(unsigned width, unsigned value)
{
    if (width > 0)
        fprintf(answers, " %u", value);
}

static void print_frame(const struct message_frame *frame)
{
    const struct message_mode *mode = &message_modes[frame->mode];
    int amplitude[64 * MESSAGE_SUBFRAMES] = {0};
    fprintf(answers, "F %u %u", frame->mode, frame->voice);
    for (unsigned i = 0; i < mode->spectrum_fields; i++)
        print_field(mode->spectrum[i], frame->spectrum[i]);
    for (unsigned s = 0; s < MESSAGE_SUBFRAMES; s++) {
        const struct message_subframe *sub = &frame->subframe[s];
        print_field(mode->delay[s], sub->delay);
        print_field(mode->filter, sub->filter);
        print_field(mode->gain, sub->gain);
        print_field(mode->high_band, sub->high_band);
        for (unsigned t = 0; t < mode->tracks; t++)
            for (unsigned i = 0; i < mode->pulses[t]; i++) {
                unsigned place = sub->pulses[t][i] & 31u;
                amplitude[64 * s + mode->tracks * place + t] += sub->pulses[t][i] < 32 ? 1 : -1;
            }
    }
    fputs(" /", answers);
    for (unsigned j = 0; j < COUNT(amplitude); j++)
        if (amplitude[j] != 0)
            fprintf(answers, " %u %d", j, amplitude[j]);
    fputc('\n', answers);
}

/* ---- cases ---- */

static void print_case(char letter, bool strict, const uint8_t *octets, size_t count)
{
    fputc(letter, cases);
    fputc(strict ? 's' : 'o', cases);
    for (size_t i = 0; i < count; i++)
        fprintf(cases, "%02x", octets[i]);
    fputc('\n', cases);
}

static void read_case(const struct message *m, bool strict)
{
    print_case('m', strict, m->octets, m->count);
    print_reading(message_read_octets(m->octets, m->count, strict, read_frames));
}

/* The octet that has the spot's cell. */
static size_t octet_of_refusal(const struct message *m)
{
    struct message_answer answer = message_read_octets(m->octets, m->count, true, read_frames);
    return (size_t)answer.spot.cell / 8;
}

static void read_both_ways(const struct message *m)
{
    read_case(m, true);
    read_case(m, false);
}

static void return_case(const struct message *m, bool strict, uint32_t n)
{
    static uint8_t line[2 + ROOM];
    line[0] = (uint8_t)(n >> 8);
    line[1] = (uint8_t)n;
    memcpy(line + 2, m->octets, m->count);
    print_case('f', strict, line, 2 + m->count);
    struct message_answer answer
        = message_return(message_read_octets(m->octets, m->count, strict, read_frames), n);
    if (answer.refusal != MESSAGE_ACCEPTED)
        print_refusal(answer);
    else
        print_frame(&read_frames[n]);
}

static void cell_case(const uint8_t *cells, size_t count, bool strict)
{
    fputs(strict ? "cs" : "co", cases);
    for (size_t i = 0; i < count; i++)
        fputc("01x"[cells[i]], cases);
    fputc('\n', cases);
    print_reading(message_read_cells(cells, count, strict, read_frames));
}

/* ---- octets ---- */

/* No octet, each single octet, and octets at random. */
static void loose_octets(void)
{
    struct message m = {.count = 0};
    read_both_ways(&m);
    for (unsigned octet = 0; octet < 256; octet++) {
        m.count = 0;
        append(&m, (uint8_t)octet);
        read_both_ways(&m);
    }
    for (unsigned i = 0; i < 150; i++) {
        m.count = 1 + below(24);
        for (size_t k = 0; k < m.count; k++)
            m.octets[k] = (uint8_t)random_bits(8);
        read_case(&m, below(2) == 0);
    }
}

static void whole_frames(unsigned mode)
{
    struct message_frame blank = blank_frame(mode);
    read_both_ways(written(&blank, 1));
    for (unsigned i = 0; i < 8; i++)
        read_both_ways(random_message(mode));
}

/* Each delay field at its least, its greatest and around the limits of its rules. */
static void delay_limits(unsigned mode)
{
    static const uint16_t delays[] = {0, 1, 2, 31, 63, 115, 116, 117, 255, 375, 376, 377, 439,
                                      440, 441, 511};
    for (unsigned i = 0; i < COUNT(delays); i++) {
        struct message_frame frame = blank_frame(mode);
        for (unsigned s = 0; s < MESSAGE_SUBFRAMES; s++) {
            unsigned width = message_modes[mode].delay[s];
            uint16_t delay = width < 8 ? (uint16_t)random_bits(width) : delays[i];
            frame.subframe[s].delay = delay & ((1u << width) - 1);
        }
        read_case(written(&frame, 1), true);
    }
}

static void cut_at_every_octet(struct message *m)
{
    for (size_t count = m->count; m->count-- > 0;) {
        read_case(m, true);
        if (m->count % 4 == count % 4)
            read_case(m, false);
    }
}

static void flip_every_bit(struct message *m)
{
    for (size_t cell = 0; cell < 8 * m->count; cell++) {
        flip(m, cell);
        read_both_ways(m);
        flip(m, cell);
    }
}

static void flip_some_bits(unsigned mode, unsigned times)
{
    for (unsigned i = 0; i < times; i++) {
        struct message *m = random_message(mode);
        flip(m, below(8 * (uint32_t)m->count));
        read_case(m, true);
        if (i % 2 == 0)
            read_case(m, false);
    }
}

/* One track with an index that is not the house's, or with both signs on a place. */
static void spoiled_tracks(unsigned mode, unsigned times)
{
    for (unsigned i = 0; i < times; i++) {
        struct message_frame frame = random_frame(mode);
        if (spoil_track(&frame, i % 3 == 0 ? MESSAGE_BOTH_SIGNS : MESSAGE_NOT_HOUSE_INDEX))
            read_both_ways(written(&frame, 1));
    }
}

/* Two faults at once: a spoiled track, and the message cut off before, in or soon after
 * its last part. */
static void spoiled_and_cut(unsigned mode, unsigned times)
{
    for (unsigned i = 0; i < times; i++) {
        struct message_frame frame = random_frame(mode);
        if (!spoil_track(&frame, i % 2 == 0 ? MESSAGE_NOT_HOUSE_INDEX : MESSAGE_BOTH_SIGNS))
            continue;
        struct message *m = written(&frame, 1);
        size_t part = octet_of_refusal(m);
        for (m->count = part; m->count < part + 4; m->count++)
            read_case(m, true);
        read_case(m, false);
    }
}

/* Each fill bit set, all of them, and octets after the end, alone and together. */
static void wrong_ends(struct message *m, unsigned fill)
{
    size_t count = m->count;
    uint8_t last = m->octets[count - 1];
    for (unsigned bits = 0; bits < 1u << fill; bits++) {
        if (fill > 4 && bits > 2 && (bits & (bits - 1)) != 0 && bits != (1u << fill) - 1)
            continue;
        m->octets[count - 1] = (uint8_t)(last | bits);
        if (bits > 0)
            read_case(m, bits % 2 == 0);
        append(m, (uint8_t)(bits % 3 == 0 ? 0x00 : bits % 3 == 1 ? 0xF0 : 0xFF));
        read_case(m, true);
        if (bits < 2) {
            append(m, 0xF0);
            read_case(m, false);
        }
        m->count = count;
        m->octets[count - 1] = last;
    }
}

/* A mode from 9 to 14, first and after a frame; frames of mode 0 have whole octets. */
static void unlawful_modes(void)
{
    for (unsigned mode = MESSAGE_MODES; mode < MESSAGE_END_MARK; mode++)
        for (unsigned before = 0; before < 3; before++) {
            struct message_frame frames[2] = {random_frame(0), random_frame(0)};
            struct message *m = written(frames, before);
            m->octets[m->count - 1] = (uint8_t)(mode << 4 | random_bits(4));
            read_both_ways(m);
            append(m, (uint8_t)random_bits(8));
            read_case(m, true);
        }
}

static void several_frames(void)
{
    struct message_frame frames[8];
    for (unsigned i = 0; i < 24; i++) {
        size_t count = 2 + below(i % 8 == 0 ? 7 : 3);
        struct message *m = mixed_message(frames, count);
        read_case(m, i % 4 != 0);
        if (i % 2 == 0) {
            flip(m, 4 * (uint32_t)m->count + below(4 * (uint32_t)m->count));
            read_case(m, true);
        } else {
            m->count -= 1 + below((uint32_t)m->count / 2);
            read_case(m, false);
        }
    }
    /* A fault in each frame: the first in the order of reading decides. */
    for (unsigned i = 0; i < 12; i++) {
        for (unsigned n = 0; n < 3; n++) {
            frames[n] = random_frame(2 + below(MESSAGE_MODES - 2));
            spoil_track(&frames[n], i % 2 == n % 2 ? MESSAGE_BOTH_SIGNS : MESSAGE_NOT_HOUSE_INDEX);
        }
        read_both_ways(written(frames, 3));
    }
}

/* 511, 512 and 513 frames; after 512 also an unlawful mode, a cut one and a wrong fill. */
static void many_frames(void)
{
    static struct message_frame frames[MOST_FRAMES];
    for (unsigned n = 0; n < MOST_FRAMES; n++)
        frames[n] = random_frame(0);
    read_case(written(frames, MESSAGE_MAX_FRAMES - 1), true);
    read_case(written(frames, MESSAGE_MAX_FRAMES), false);
    read_case(written(frames, MESSAGE_MAX_FRAMES + 1), true);

    struct message *m = written(frames, MESSAGE_MAX_FRAMES);
    m->octets[m->count - 1] = 0x90;
    read_case(m, true);
    m->count--;
    read_case(m, true);
}

static void make_octets(void)
{
    struct message m;
    loose_octets();
    for (unsigned mode = 0; mode < MESSAGE_MODES; mode++) {
        whole_frames(mode);
        delay_limits(mode);
        flip_some_bits(mode, mode == 0 ? 100 : 28);
        spoiled_tracks(mode, mode < 3 ? 0 : 20);
        spoiled_and_cut(mode, mode < 3 ? 0 : 6);
        wrong_ends(random_message(mode), (unsigned)-(message_modes[mode].bits + 8) & 7);
    }
    m = *random_message(0);
    flip_every_bit(&m);
    cut_at_every_octet(&m);
    m = *random_message(3);
    cut_at_every_octet(&m);
    m = *random_message(6);
    cut_at_every_octet(&m);
    m = *random_message(8);
    cut_at_every_octet(&m);

    /* No frames, and four frames of mode 1, which leave no fill. */
    wrong_ends(written(NULL, 0), 4);
    struct message_frame four[4] = {random_frame(1), random_frame(1), random_frame(1),
                                    random_frame(1)};
    wrong_ends(written(four, 4), 0);

    unlawful_modes();
    several_frames();
    many_frames();
}

/* ---- returning ---- */

static void make_returning(void)
{
    struct message_frame frames[5];
    for (unsigned mode = 0; mode < MESSAGE_MODES; mode++) {
        struct message_frame blank = blank_frame(mode);
        return_case(written(&blank, 1), true, 0);
        for (unsigned i = 0; i < 5; i++)
            return_case(random_message(mode), i % 2 == 0, 0);
        return_case(random_message(mode), true, 1);
        struct message_frame foreign = random_frame(mode);
        if (spoil_track(&foreign, MESSAGE_NOT_HOUSE_INDEX)) {
            return_case(written(&foreign, 1), true, 0);
            return_case(written(&foreign, 1), false, 0);
            return_case(written(&foreign, 1), false, 1);
        }
    }
    return_case(written(NULL, 0), true, 0);
    return_case(written(NULL, 0), false, 0xFFFF);
    for (unsigned i = 0; i < 12; i++) {
        size_t count = 2 + below(2);
        struct message *m = mixed_message(frames, count);
        for (uint32_t n = 0; n <= count; n++)
            return_case(m, (i + n) % 2 == 0, n);
        /* A fault in the last frame refuses every frame, and before 12. */
        m->count -= 4;
        return_case(m, true, 0);
        return_case(m, false, 512);
    }
}

/* ---- cells ---- */

#define CELL_ROOM (8 * 64)

static size_t cells_of(const struct message *m, uint8_t *cells)
{
    for (size_t i = 0; i < 8 * m->count; i++)
        cells[i] = m->octets[i / 8] >> (7 - i % 8) & 1u;
    return 8 * m->count;
}

/* A bad cell at every place, or at about every `step`th, and the message cut off there. */
static void bad_or_cut(const struct message *m, size_t step)
{
    uint8_t cells[CELL_ROOM];
    size_t count = cells_of(m, cells);
    for (size_t i = 0; i < count; i += 1 + below(2 * (uint32_t)step - 1)) {
        uint8_t was = cells[i];
        cells[i] = MESSAGE_BAD;
        cell_case(cells, count, i % 2 == 0);
        cells[i] = was;
        cell_case(cells, i, i % 2 != 0);
    }
}

/* What the fill and the cell after it can be. */
static void ends_in_cells(const struct message *m, size_t fill)
{
    uint8_t cells[CELL_ROOM];
    size_t count = cells_of(m, cells), end = count - fill;
    for (size_t i = end; i <= count; i++)
        for (uint8_t cell = MESSAGE_ZERO; cell <= MESSAGE_BAD; cell++) {
            cells_of(m, cells);
            cells[count] = MESSAGE_ZERO;
            cells[i] = cell;
            cell_case(cells, count + (i == count), true);
            /* The one comes first, but all fill cells are read before it is judged. */
            cells[end] = MESSAGE_ONE;
            cell_case(cells, count + (i == count), true);
            cell_case(cells, i, true);
        }
}

/* A spoiled track, and a bad cell before, in or after its last part; little follows. */
static void spoiled_and_bad(unsigned mode, enum message_refusal refusal)
{
    static const int from_part[] = {-1, 0, 8, 10, 11, 13, 14};
    uint8_t cells[CELL_ROOM];
    struct message_frame frame = random_frame(mode);
    if (!spoil_track(&frame, refusal))
        return;
    size_t count = cells_of(written(&frame, 1), cells);
    size_t part = (size_t)message_read_cells(cells, count, true, read_frames).spot.cell;
    for (unsigned i = 0; i < COUNT(from_part); i++) {
        size_t at = part + (size_t)from_part[i];
        uint8_t was = cells[at];
        cells[at] = MESSAGE_BAD;
        cell_case(cells, at + 1, true);
        cells[at] = was;
    }
}

static void make_cells(void)
{
    cell_case(NULL, 0, true);
    struct message m = *random_message(0);
    bad_or_cut(&m, 1);
    ends_in_cells(&m, 4);
    m.count = message_write(NULL, 0, m.octets);
    bad_or_cut(&m, 1);
    ends_in_cells(&m, 4);
    static const unsigned some_modes[] = {3, 6, 8};
    for (unsigned i = 0; i < COUNT(some_modes); i++) {
        m = *random_message(some_modes[i]);
        bad_or_cut(&m, 60);
    }
    for (unsigned mode = 3; mode < MESSAGE_MODES; mode++) {
        spoiled_and_bad(mode, MESSAGE_BOTH_SIGNS);
        spoiled_and_bad(mode, MESSAGE_NOT_HOUSE_INDEX);
    }
}

static void make_reading(void)
{
    make_octets();
    make_returning();
    make_cells();
}

/* ---- the sheet ---- */

static void make_sheet(void)
{
    static struct message_frame frames[SAMPLE_FRAMES];
    static char lines[MESSAGE_SHEET_ROOM];
    struct message *m = mixed_message(frames, SAMPLE_FRAMES);
    fwrite(m->octets, 1, m->count, cases);
    struct message_answer answer = message_read_octets(m->octets, m->count, true, read_frames);
    fwrite(lines, 1, message_sheet(answer, read_frames, lines), answers);
}

/* ---- files ---- */

static FILE *open_in(const char *folder, const char *name)
{
    char path[4096];
    snprintf(path, sizeof path, "%s/%s", folder, name);
    FILE *file = fopen(path, "wb");
    if (file == NULL) {
        perror(path);
        exit(EXIT_FAILURE);
    }
    return file;
}

int main(int argc, char **argv)
{
    static const struct {
        const char *name;
        void (*make)(void);
    } kinds[] = {{"reading", make_reading}, {"sheet", make_sheet}};

    for (unsigned i = 0; argc == 3 && i < COUNT(kinds); i++) {
        if (strcmp(argv[1], kinds[i].name) != 0)
            continue;
        cases = open_in(argv[2], "stdin");
        answers = open_in(argv[2], "stdout");
        kinds[i].make();
        bool failed = ferror(cases) || ferror(answers);
        failed |= fclose(cases) != 0;
        failed |= fclose(answers) != 0;
        return failed ? EXIT_FAILURE : EXIT_SUCCESS;
    }
    fprintf(stderr, "usage: cases reading|sheet FOLDER\n");
    return EXIT_FAILURE;
}
