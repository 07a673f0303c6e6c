/* The world of a script. What is in quotes is docs/SCRIPTS.md's. */
#include "world.h"

#include <string.h>

/* ------------------------------------------------------------------------
 * What is lent
 * --------------------------------------------------------------------- */

/* "byte i of the font is (37·i + 101·(i / 5) + 19) mod 256" */
void fixed_font(struct world *w)
{
    for (unsigned i = 0; i < PANEL_FONT; i++)
        w->font[i] = (uint8_t)(37 * i + 101 * (i / 5) + 19);
}

/* "N becomes (1664525·N + 1013904223) mod 2³² and the byte is N / 2²⁴" */
void seed_font(struct world *w, uint32_t n)
{
    for (unsigned i = 0; i < PANEL_FONT; i++) {
        n = (uint32_t)(UINT64_C(1664525) * n + UINT64_C(1013904223));
        w->font[i] = (uint8_t)(n >> 24);
    }
}

void set_lengths(struct world *w, size_t memory, size_t font, size_t glass)
{
    w->memory_length = memory;
    w->font_length = font;
    w->glass_length = glass;
}

void right_lengths(struct world *w)
{
    set_lengths(w, PANEL_MEMORY, PANEL_FONT, PANEL_GLASS);
}

/* "every memory byte 3Ch, every glass byte C3h, the initial state with both
 * spans empty, the fixed font, the right lengths": a start answered 1 leaves
 * that state. */
void new_world(struct world *w)
{
    memset(w->memory, 0x3C, sizeof w->memory);
    memset(w->glass, 0xC3, sizeof w->glass);
    panel_start(w->record, PANEL_STATE, w->memory, 0);
    fixed_font(w);
    right_lengths(w);
    note(&w->calls, ENTRY_NEW, 0);
}

void set_record(struct world *w, const uint8_t record[PANEL_STATE])
{
    for (size_t i = 0; i < PANEL_STATE; i++)
        if (record[i] != w->record[i]) {
            w->record[i] = record[i];
            note(&w->calls, ENTRY_RECORD, i);
            note_bytes(&w->calls, &record[i], 1);
        }
}

/* ------------------------------------------------------------------------
 * The calls
 * --------------------------------------------------------------------- */

/* What is lent to the call that comes. */
static void note_lent(struct world *w)
{
    note_font(&w->calls, w->font);
    note_length(&w->calls, ENTRY_MEMORY_LENGTH, w->memory_length);
    note_length(&w->calls, ENTRY_FONT_LENGTH, w->font_length);
    note_length(&w->calls, ENTRY_GLASS_LENGTH, w->glass_length);
}

/* What a call left. */
static void note_left(struct world *w)
{
    note_sum(&w->calls, w->memory, PANEL_MEMORY);
    note_sum(&w->calls, w->glass, PANEL_GLASS);
    note_sum(&w->calls, w->record, PANEL_STATE);
}

/* A call with an answer alone. */
static void note_call(struct world *w, unsigned kind, size_t number,
                      uint32_t answer)
{
    note(&w->calls, kind, number);
    note_answers(&w->calls, answer, PANEL_UNFINISHED, 0, 0);
    note_left(w);
}

uint32_t start(struct world *w)
{
    note_lent(w);
    uint32_t answer =
        panel_start(w->record, PANEL_STATE, w->memory, w->memory_length);
    note_call(w, ENTRY_START, 0, answer);
    return answer;
}

PanelFed feed(struct world *w, const void *piece, size_t length)
{
    note_lent(w);
    PanelFed fed =
        panel_feed(w->record, PANEL_STATE, w->memory, w->memory_length,
                   w->font, w->font_length, piece, length);
    note(&w->calls, ENTRY_FEED, length);
    note_bytes(&w->calls, piece, length);
    note_answers(&w->calls, fed.answer, fed.outcome, fed.carried,
                 fed.answered);
    note_left(w);
    return fed;
}

uint32_t hold(struct world *w, uint32_t window)
{
    uint32_t answer = panel_hold(w->record, PANEL_STATE, window);
    note_call(w, ENTRY_HOLD, window, answer);
    return answer;
}

uint32_t release(struct world *w)
{
    uint32_t answer = panel_release(w->record, PANEL_STATE);
    note_call(w, ENTRY_RELEASE, 0, answer);
    return answer;
}

PanelRefreshed refresh(struct world *w)
{
    note_lent(w);
    PanelRefreshed refreshed =
        panel_refresh(w->record, PANEL_STATE, w->memory, w->memory_length,
                      w->glass, w->glass_length);
    note(&w->calls, ENTRY_REFRESH, 0);
    note_answers(&w->calls, refreshed.answer, PANEL_UNFINISHED,
                 refreshed.moved, 0);
    note_left(w);
    return refreshed;
}

PanelReceived receive(struct world *w, uint32_t address, const void *piece,
                      size_t length)
{
    PanelReceived received = panel_receive(piece, length, address);
    note(&w->calls, ENTRY_RECEIVE, address);
    note_number(&w->calls, length);
    note_bytes(&w->calls, piece, length);
    note_answers(&w->calls, received.answer, received.first, received.count,
                 received.after);
    note_left(w);
    return received;
}
