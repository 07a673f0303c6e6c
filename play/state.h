/* The state in words, from docs/RECORD.md's record. */
#ifndef PLAY_STATE_H
#define PLAY_STATE_H

#include "places.h"
#include "text.h"

#include <stdbool.h>
#include <stdint.h>

/* A setting: the key that scripts have for it, and its place from AT_SETTINGS
 * or AT_SAVED on. */
struct setting {
    const char *key;
    unsigned at;
};

/* In the order of words. */
extern const struct setting settings[SETTINGS_BYTES];

/* "A 16-bit number is two bytes, low byte first." */
unsigned get16(const uint8_t *from);
void put16(uint8_t *to, unsigned n);

/* Where a record has user window k, 1 to 4. */
unsigned window_place(unsigned k);

/* Where it has place p, 0 to 15, of the downloads. */
unsigned download_place(unsigned p);

bool is_held(const uint8_t *record);

/* The cursor and mode of window k, 0 to 4. */
void describe_cursor(struct text *text, const uint8_t *record, unsigned k);

/* The state in words. */
void describe(struct text *text, const uint8_t *record);

#endif
