/* A script's calls as bytes. What is in quotes is docs/SCRIPTS.md's. */
#include "calls.h"

#include "../include/panel.h"

#include <stdio.h>
#include <stdlib.h>
#include <string.h>

uint32_t sum_of(const void *bytes, size_t length)
{
    const uint8_t *at = bytes;
    uint32_t sum = UINT32_C(2166136261);
    for (size_t i = 0; i < length; i++)
        sum = (sum ^ at[i]) * UINT32_C(16777619);
    return sum;
}

static void note_byte(struct calls *calls, unsigned byte)
{
    if (calls->wanted)
        append_byte(&calls->bytes, (char)byte);
}

/* "four bytes, low byte first" */
static void note_four(struct calls *calls, uint32_t n)
{
    for (unsigned shift = 0; shift < 32; shift += 8)
        note_byte(calls, n >> shift & 0xFF);
}

/* "one byte below 255, or 255 and four bytes" */
void note_number(struct calls *calls, size_t number)
{
    if (number < 255) {
        note_byte(calls, (unsigned)number);
    } else {
        note_byte(calls, 255);
        note_four(calls, (uint32_t)number);
    }
}

void note_bytes(struct calls *calls, const void *bytes, size_t length)
{
    const uint8_t *at = bytes;
    for (size_t i = 0; i < length; i++)
        note_byte(calls, at[i]);
}

void note(struct calls *calls, unsigned kind, size_t number)
{
    note_byte(calls, kind);
    note_number(calls, number);
    if (kind >= ENTRY_START)
        calls->count++;
}

void note_length(struct calls *calls, unsigned kind, size_t length)
{
    if (calls->told[kind] == length)
        return;
    calls->told[kind] = length;
    note(calls, kind, length);
}

/* Where the stored bytes have a font: where they had it first, or here. */
static size_t place_of_font(struct calls *calls, const uint8_t *font)
{
    for (unsigned i = 0; i < calls->font_count; i++)
        if (memcmp(calls->bytes.bytes + calls->fonts[i], font, PANEL_FONT) ==
            0)
            return calls->fonts[i];
    if (calls->font_count == FONTS_MAX) {
        fputs("more fonts than calls are stored with\n", stderr);
        exit(3);
    }
    note(calls, ENTRY_DATA, PANEL_FONT);
    size_t place = calls->bytes.length;
    note_bytes(calls, font, PANEL_FONT);
    calls->fonts[calls->font_count] = place;
    calls->font_count++;
    return place;
}

void note_font(struct calls *calls, const uint8_t *font)
{
    if (calls->wanted)
        note_length(calls, ENTRY_FONT, place_of_font(calls, font));
}

void note_answers(struct calls *calls, uint32_t answer, size_t second,
                  size_t third, size_t fourth)
{
    note_number(calls, answer);
    note_number(calls, second);
    note_number(calls, third);
    note_number(calls, fourth);
}

void note_sum(struct calls *calls, const void *bytes, size_t length)
{
    if (calls->wanted)
        note_four(calls, sum_of(bytes, length));
}
