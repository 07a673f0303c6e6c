/* `spoil ..`: the state changed behind the calls' back, as bytes of its
 * record. */
#ifndef PLAY_SPOIL_H
#define PLAY_SPOIL_H

#include "line.h"

/* The record as a line that begins with `spoil` leaves it. */
void spoil(const struct line *line, uint8_t *record);

#endif
