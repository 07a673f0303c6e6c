/* A script's line: its words, and the numbers, bytes and items that they
 * spell. A line that can't be read ends the run. */
#ifndef PLAY_LINE_H
#define PLAY_LINE_H

#include "text.h"

#include <stdbool.h>
#include <stdint.h>

struct word {
    const char *at;
    size_t length;
    bool quoted;
};

struct line {
    unsigned long number; /* of the line in the script, from 1 */
    struct word *words;
    size_t count, room;
};

/* "A line that can't be read ends the run" */
_Noreturn void fail(const struct line *line, const char *what);

bool is_blank(char c);

/* Parts a text into the line's words. */
void split(struct line *line, const char *text, size_t length);

bool is_word(const struct line *line, size_t i, const char *text);

void want_words(const struct line *line, size_t least, size_t most);

/* Word i as a decimal number from `least` to `most`. */
uint64_t number_at(const struct line *line, size_t i, uint64_t least,
                   uint64_t most);

/* Word i as a byte of two hexadecimal digits. */
uint8_t byte_at(const struct line *line, size_t i);

/* The items from word i on, joined into one piece. */
void read_items(const struct line *line, size_t i, struct text *piece);

#endif
