/* The words of a script's line. What is in quotes is docs/SCRIPTS.md's. */
#include "line.h"

#include <stdio.h>
#include <stdlib.h>
#include <string.h>

enum { PIECE_MAX = 65536, TIMES_MAX = 65535 };

void fail(const struct line *line, const char *what)
{
    fflush(stdout);
    fprintf(stderr, "line %lu: %s\n", line->number, what);
    exit(2);
}

/* ------------------------------------------------------------------------
 * Words
 * --------------------------------------------------------------------- */

bool is_blank(char c)
{
    return c == ' ' || c == '\t';
}

static void add_word(struct line *line, struct word word)
{
    if (line->count == line->room) {
        line->room = 2 * line->room + 64;
        line->words = realloc(line->words, line->room * sizeof word);
        if (line->words == NULL)
            out_of_store();
    }
    line->words[line->count] = word;
    line->count++;
}

/* The text in quotes that begins at text[i]; where it ends. */
static size_t quoted_word(struct line *line, const char *text, size_t length,
                          size_t i)
{
    size_t end = i + 1;
    while (end < length && text[end] != '"') {
        if (text[end] < 0x20 || text[end] > 0x7E)
            fail(line, "a byte in quotes that is not 20h to 7Eh");
        end++;
    }
    if (end == length)
        fail(line, "a quote that is not closed");
    add_word(line, (struct word){text + i + 1, end - i - 1, true});
    return end + 1;
}

static size_t plain_word(struct line *line, const char *text, size_t length,
                         size_t i)
{
    size_t end = i;
    while (end < length && !is_blank(text[end]) && text[end] != '#' &&
           text[end] != '"')
        end++;
    add_word(line, (struct word){text + i, end - i, false});
    return end;
}

/* "words parted by blanks. `#` outside quotes starts a comment" */
void split(struct line *line, const char *text, size_t length)
{
    size_t i = 0;
    line->count = 0;
    for (;;) {
        while (i < length && is_blank(text[i]))
            i++;
        if (i == length || text[i] == '#')
            return;
        i = text[i] == '"' ? quoted_word(line, text, length, i)
                           : plain_word(line, text, length, i);
        if (i < length && !is_blank(text[i]) && text[i] != '#')
            fail(line, "words that are not parted by a blank");
    }
}

bool is_word(const struct line *line, size_t i, const char *text)
{
    return i < line->count && !line->words[i].quoted &&
           line->words[i].length == strlen(text) &&
           memcmp(line->words[i].at, text, line->words[i].length) == 0;
}

void want_words(const struct line *line, size_t least, size_t most)
{
    if (line->count < least)
        fail(line, "something is missing");
    if (line->count > most)
        fail(line, "too much on the line");
}

/* ------------------------------------------------------------------------
 * Numbers and bytes
 * --------------------------------------------------------------------- */

/* A decimal number of `length` digits, at most `most`. */
static bool is_number(const char *at, size_t length, uint64_t most,
                      uint64_t *number)
{
    *number = 0;
    for (size_t i = 0; i < length; i++) {
        if (at[i] < '0' || at[i] > '9')
            return false;
        *number = 10 * *number + (uint64_t)(at[i] - '0');
        if (*number > most)
            return false;
    }
    return length > 0;
}

uint64_t number_at(const struct line *line, size_t i, uint64_t least,
                   uint64_t most)
{
    uint64_t number;
    if (i >= line->count)
        fail(line, "a number is missing");
    const struct word *word = &line->words[i];
    if (word->quoted || !is_number(word->at, word->length, most, &number) ||
        number < least)
        fail(line, "not a number, or one out of range");
    return number;
}

static int hex_digit(char c)
{
    if (c >= '0' && c <= '9')
        return c - '0';
    if (c >= 'A' && c <= 'F')
        return c - 'A' + 10;
    if (c >= 'a' && c <= 'f')
        return c - 'a' + 10;
    return -1;
}

/* "bytes are two hexadecimal digits" */
static uint8_t byte_of(const struct line *line, const char *at, size_t length)
{
    if (length != 2 || hex_digit(at[0]) < 0 || hex_digit(at[1]) < 0)
        fail(line, "not a byte of two hexadecimal digits");
    return (uint8_t)(16 * hex_digit(at[0]) + hex_digit(at[1]));
}

uint8_t byte_at(const struct line *line, size_t i)
{
    const struct word *word = &line->words[i];
    return byte_of(line, word->at, word->quoted ? 0 : word->length);
}

/* ------------------------------------------------------------------------
 * Items
 * --------------------------------------------------------------------- */

static void add_to_piece(const struct line *line, struct text *piece,
                         uint8_t byte, size_t times)
{
    if (times > PIECE_MAX - piece->length)
        fail(line, "more than 65536 bytes");
    append_times(piece, (char)byte, times);
}

/* "An ITEM is a byte, `41`; a byte many times, `300*41` ..; or text in
 * quotes" */
static void add_item(const struct line *line, const struct word *word,
                     struct text *piece)
{
    const char *star = memchr(word->at, '*', word->length);
    if (word->quoted) {
        for (size_t i = 0; i < word->length; i++)
            add_to_piece(line, piece, (uint8_t)word->at[i], 1);
    } else if (star != NULL) {
        size_t digits = (size_t)(star - word->at);
        uint64_t times;
        if (!is_number(word->at, digits, TIMES_MAX, &times))
            fail(line, "not a number of times, or one out of range");
        add_to_piece(line, piece,
                     byte_of(line, star + 1, word->length - digits - 1),
                     (size_t)times);
    } else {
        add_to_piece(line, piece, byte_of(line, word->at, word->length), 1);
    }
}

void read_items(const struct line *line, size_t i, struct text *piece)
{
    piece->length = 0;
    for (; i < line->count; i++)
        add_item(line, &line->words[i], piece);
}
