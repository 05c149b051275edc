/* Vilchuqa: indices of signed pulses on a track.
 *
 * A track of width M has the places 0 to 2^M - 1. One pulse is used at width 5,
 * one to six pulses at width 4, and no other number and width.
 *
 * A pulse is one octet: place + 32 x sign bit (0 plus, 1 minus). On place 3, plus
 * is 3 and minus is 35. An octet of 64 or more has a place on no track.
 *
 * Both calls answer a number of 0 or more, or minus the number of a refusal. They
 * hold no state, allocate nothing, and touch no memory but what they are handed.
 *
 * The rules stand in docs/RULES.md, the refusals in docs/REFUSALS.md.
 */
#ifndef VILCHUQA_H
#define VILCHUQA_H

#include <stdbool.h>
#include <stddef.h>
#include <stdint.h>

#ifdef __cplusplus
extern "C" {
#endif

/* A buffer of this length takes every set of pulses. */
#define VILCHUQA_MAX_PULSES 6

/* The refusals of these calls. */
enum vilchuqa_refusal {
    VILCHUQA_WRONG_NUMBER = 4,      /* no mode uses this number of pulses at this width */
    VILCHUQA_OFF_TRACK = 5,         /* a place off the track */
    VILCHUQA_BOTH_SIGNS = 6,        /* a place with both signs */
    VILCHUQA_NO_SUCH_INDEX = 7,     /* no such number and width, or the index is too large */
    VILCHUQA_NOT_HOUSE_INDEX = 8,   /* not the index that vilchuqa_write_index answers */
    VILCHUQA_BUFFER_TOO_SHORT = 17  /* no room for the pulses */
};

/* Reads an index: puts its pulses at the start of `out`, from the lowest place up.
 *
 * Open reading (`strict` false) takes every index of a lawful set; strict reading
 * takes the house index only, the one that vilchuqa_write_index answers.
 *
 * Answers the number of pulses, which is `pulses`; or, asked in this sequence:
 *    -7   no mode uses this number and width, or the index is not below 2^bits
 *    -6   a place has both signs
 *    -8   strict only: this is not the house index
 *   -17   `out_len` is less than `pulses`
 *
 * `out` points to `out_len` octets; it may be NULL if `out_len` is 0. What stands
 * there beyond the pulses stays. After a refusal all of it is as it was.
 *
 *   uint8_t out[VILCHUQA_MAX_PULSES];
 *   vilchuqa_read_index(2, 4, 371, true, out, sizeof out)   is 2: 3, 39 (3+ 7-)
 */
int32_t vilchuqa_read_index(uint32_t pulses, uint32_t width, uint32_t index, bool strict,
                            uint8_t *out, size_t out_len);

/* Writes an index: answers the house index of the pulses, in whatever sequence
 * they stand; or, asked in this sequence:
 *    -4   no mode uses this number and width
 *    -5   a pulse has its place off the track
 *    -6   a place has both signs
 *
 * `pulses` points to `count` octets, which stay as they are; it may be NULL if
 * `count` is 0 (the answer is then -4).
 *
 *   const uint8_t set[] = {39, 3};
 *   vilchuqa_write_index(4, set, 2)   is 371
 */
int32_t vilchuqa_write_index(uint32_t width, const uint8_t *pulses, size_t count);

#ifdef __cplusplus
}
#endif

#endif
