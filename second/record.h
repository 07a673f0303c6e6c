/* The second program's state as docs/RECORD.md's record of 259 bytes, and
 * back. Written from that page. */
#ifndef SECOND_RECORD_H
#define SECOND_RECORD_H

#include "../play/places.h"
#include "panel.h"

/* The record of a state. Members of the state that mean nothing
 * (second/NOTES.md, choice 40) are not looked at. */
void record_of(const second_state *state, uint8_t record[RECORD_BYTES]);

/* The state that a record stands for. Bytes that no state is encoded by stand
 * for one that number 8 refuses. */
void state_of(const uint8_t record[RECORD_BYTES], second_state *state);

#endif
