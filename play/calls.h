/* A script's calls as bytes, with what each answered: docs/SCRIPTS.md, "Calls
 * as bytes". */
#ifndef PLAY_CALLS_H
#define PLAY_CALLS_H

#include "text.h"

#include <stdbool.h>
#include <stdint.h>

/* The kinds of an entry. */
enum {
    ENTRY_DATA,
    ENTRY_FONT,
    ENTRY_MEMORY_LENGTH,
    ENTRY_FONT_LENGTH,
    ENTRY_GLASS_LENGTH,
    ENTRY_NEW,
    ENTRY_RECORD,
    ENTRY_START,
    ENTRY_FEED,
    ENTRY_HOLD,
    ENTRY_RELEASE,
    ENTRY_REFRESH,
    ENTRY_RECEIVE
};

enum { FONTS_MAX = 64 };

struct calls {
    bool wanted; /* otherwise nothing is noted */
    unsigned long count;
    struct text bytes;
    size_t told[ENTRY_GLASS_LENGTH + 1]; /* the font's place, the lengths */
    size_t fonts[FONTS_MAX];             /* the places that have a font */
    unsigned font_count;
};

/* FNV-1a, 32 bits. */
uint32_t sum_of(const void *bytes, size_t length);

/* Begins an entry. */
void note(struct calls *calls, unsigned kind, size_t number);

/* A number in an entry. */
void note_number(struct calls *calls, size_t number);

void note_bytes(struct calls *calls, const void *bytes, size_t length);

/* A length that is lent, if it is another than was told last. */
void note_length(struct calls *calls, unsigned kind, size_t length);

/* The font that is lent, if it is another than was told last. */
void note_font(struct calls *calls, const uint8_t *font);

/* What a call answers: its answer, and three numbers that its kind says. */
void note_answers(struct calls *calls, uint32_t answer, size_t second,
                  size_t third, size_t fourth);

/* The sum of bytes that a call left. */
void note_sum(struct calls *calls, const void *bytes, size_t length);

#endif
