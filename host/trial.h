/* Frames to try messages with, drawn from a fixed seed: each run draws the same. */
#ifndef TRIAL_H
#define TRIAL_H

#include "message.h"

uint32_t random_number(void);
uint32_t below(uint32_t limit);
uint32_t random_bits(unsigned width);

/* All fields 0 and all pulses plus on place 0. */
struct message_frame blank_frame(unsigned mode);

/* Fields and lawful sets at random, with house indices. */
struct message_frame random_frame(unsigned mode);

/* Gives a track of the frame, drawn at random, an index that strict reading refuses so:
 * with both signs, or not the house's. False if that track has no such index; it then
 * has some other one. */
bool spoil_track(struct message_frame *frame, enum message_refusal refusal);

#endif
