/* Messages in plain C, written from docs/RULES.md alone: the second opinion that the
 * library is compared with, and the yardstick of its speed.
 *
 * A pulse is one octet, as in include/vilchuqa.h: its place + 32 x its sign bit. */
#ifndef MESSAGE_H
#define MESSAGE_H

#include <stdbool.h>
#include <stddef.h>
#include <stdint.h>

#include "rules.h"

#define MESSAGE_MODES 9
#define MESSAGE_END_MARK 15
#define MESSAGE_MAX_FRAMES 512
#define MESSAGE_MAX_CELLS 300000
#define MESSAGE_MAX_OCTETS (MESSAGE_MAX_CELLS / 8)

#define MESSAGE_SUBFRAMES 4
#define MESSAGE_MAX_TRACKS 4
#define MESSAGE_MAX_SPECTRUM 7

/* Octets of the longest message that is accepted, and of the longest sheet. */
#define MESSAGE_LONGEST ((MESSAGE_MAX_FRAMES * (4 + 477) + 4 + 7) / 8)
#define MESSAGE_SHEET_ROOM (MESSAGE_MAX_FRAMES * MESSAGE_SUBFRAMES * 24 + 64)

enum message_cell { MESSAGE_ZERO, MESSAGE_ONE, MESSAGE_BAD };

enum message_refusal {
    MESSAGE_ACCEPTED = 0,
    MESSAGE_NO_SUCH_MODE = 1,
    MESSAGE_BOTH_SIGNS = 6,
    MESSAGE_NOT_HOUSE_INDEX = 8,
    MESSAGE_TOO_MANY_FRAMES = 10,
    MESSAGE_NO_SUCH_FRAME = 12,
    MESSAGE_CELL_MISSING = 14,
    MESSAGE_BAD_CELL = 15,
    MESSAGE_BAD_FILL = 16
};

/* A part of a spot that is absent. */
#define MESSAGE_ABSENT (-1)

struct message_spot {
    int32_t frame, subframe, track, cell;
};

struct message_answer {
    enum message_refusal refusal;
    struct message_spot spot; /* of a refusal */
    uint32_t frames;          /* of an accepted message */
};

/* What a mode lacks is 0. The pulses of a track go from the lowest place up. */
struct message_subframe {
    uint16_t delay, quarters;
    uint32_t microseconds;
    uint8_t filter, gain, high_band;
    uint8_t pulses[MESSAGE_MAX_TRACKS][RULES_MAX_PULSES];
    uint32_t index[MESSAGE_MAX_TRACKS];
};

struct message_frame {
    uint8_t mode, voice;
    uint8_t spectrum[MESSAGE_MAX_SPECTRUM];
    struct message_subframe subframe[MESSAGE_SUBFRAMES];
};

/* A row of the table of modes. */
struct message_mode {
    uint16_t bits;
    uint8_t spectrum_fields, spectrum[MESSAGE_MAX_SPECTRUM];
    uint8_t delay[MESSAGE_SUBFRAMES];
    uint8_t filter, gain, high_band;
    uint8_t tracks, width, pulses[MESSAGE_MAX_TRACKS];
};

extern const struct message_mode message_modes[MESSAGE_MODES];

/* The bits of the high part of an index; 0 if it is not cut. */
unsigned message_high_bits(unsigned index_bits);

/* Reads a message. `frames` has room for MESSAGE_MAX_FRAMES; after a refusal nothing
 * is said of what it holds. Each cell is one of enum message_cell. */
struct message_answer message_read_octets(const uint8_t *octets, size_t count, bool strict,
                                          struct message_frame *frames);
struct message_answer message_read_cells(const uint8_t *cells, size_t count, bool strict,
                                         struct message_frame *frames);

/* The answer to returning frame n of a message that was read with this answer. */
struct message_answer message_return(struct message_answer read, uint32_t n);

/* Sets quarters and microseconds by the delay fields. */
void message_set_delays(struct message_frame *frame);

/* Sets the indices to the house's; false if a set is not lawful. */
bool message_set_indices(struct message_frame *frame);

/* Writes a message with the indices as they are, and answers its octets. `octets` has
 * room for 1, and 61 for each frame. Frames are not counted here, so that a message of
 * too many can be written. */
size_t message_write(const struct message_frame *frames, size_t count, uint8_t *octets);

/* The lines of the delay sheet; `out` has MESSAGE_SHEET_ROOM. Answers their octets. */
size_t message_sheet(struct message_answer answer, const struct message_frame *frames, char *out);

#endif
