/* `spoil ..`. "Numbers are 0 to 65534 for columns, rows and sizes, 0 to 255
 * otherwise" (docs/SCRIPTS.md). */
#include "spoil.h"

#include "../include/panel.h"
#include "state.h"

#include <string.h>

static unsigned wide_at(const struct line *line, size_t i)
{
    return (unsigned)number_at(line, i, 0, 65534);
}

static uint8_t narrow_at(const struct line *line, size_t i)
{
    return (uint8_t)number_at(line, i, 0, 255);
}

/* Puts X Y MODE from word i on. */
static void put_place(const struct line *line, size_t i, uint8_t *place)
{
    put16(place + PLACE_X, wide_at(line, i));
    put16(place + PLACE_Y, wide_at(line, i + 1));
    place[PLACE_MODE] = narrow_at(line, i + 2);
}

static void spoil_window(const struct line *line, uint8_t *record)
{
    static const uint8_t none[WINDOW_BYTES];
    want_words(line, 4, 10);
    uint8_t *window =
        record + window_place((unsigned)number_at(line, 2, 1, RECORD_WINDOWS));
    if (is_word(line, 3, "none")) {
        want_words(line, 4, 4);
        memcpy(window, none, WINDOW_BYTES);
        return;
    }
    want_words(line, 10, 10);
    for (unsigned i = 0; i < 4; i++)
        put16(window + 2 * i, wide_at(line, 3 + i));
    put_place(line, 7, window + WINDOW_PLACE);
    if (memcmp(window, none, WINDOW_BYTES) == 0)
        fail(line, "a window of nothing but 0; write none");
}

static void spoil_base(const struct line *line, uint8_t *record)
{
    want_words(line, 5, 5);
    put_place(line, 2, record + AT_BASE);
}

static void spoil_selected(const struct line *line, uint8_t *record)
{
    want_words(line, 3, 3);
    record[AT_SELECTED] = narrow_at(line, 2);
}

/* The settings that begin at `from`. */
static void spoil_setting(const struct line *line, uint8_t *from)
{
    want_words(line, 4, 4);
    for (unsigned i = 0; i < SETTINGS_BYTES; i++)
        if (is_word(line, 2, settings[i].key)) {
            from[settings[i].at] = narrow_at(line, 3);
            return;
        }
    fail(line, "a setting that is not known");
}

static void spoil_set(const struct line *line, uint8_t *record)
{
    spoil_setting(line, record + AT_SETTINGS);
}

static void spoil_saved(const struct line *line, uint8_t *record)
{
    if (!is_held(record))
        fail(line, "no window is held, nothing is saved");
    spoil_setting(line, record + AT_SAVED);
}

static void spoil_held(const struct line *line, uint8_t *record)
{
    want_words(line, 3, 4);
    if (is_word(line, 2, "none")) {
        want_words(line, 3, 3);
        memset(record + AT_HELD, 0, AT_SAVED + SETTINGS_BYTES - AT_HELD);
        return;
    }
    want_words(line, 4, 4);
    record[AT_HELD] = 1;
    record[AT_HELD_WINDOW] = narrow_at(line, 2);
    record[AT_SAVED_SELECTED] = narrow_at(line, 3);
    memcpy(record + AT_SAVED, record + AT_SETTINGS, SETTINGS_BYTES);
}

static void spoil_span(const struct line *line, uint8_t *record)
{
    want_words(line, 4, 5);
    unsigned row = (unsigned)number_at(line, 2, 0, RECORD_ROWS - 1);
    uint8_t *span = record + AT_SPANS + SPAN_BYTES * row;
    if (is_word(line, 3, "none")) {
        want_words(line, 4, 4);
        memset(span, 0, SPAN_BYTES);
        return;
    }
    want_words(line, 5, 5);
    put16(span + SPAN_FIRST, wide_at(line, 3));
    put16(span + SPAN_END, wide_at(line, 4) + 1);
}

/* Feeds the bytes from word 2 on to a panel of its own, from its start: they
 * are the beginning of a command if none of them finishes anything. Leaves the
 * record that it has then. */
static void begin_command(const struct line *line,
                          uint8_t record[PANEL_STATE])
{
    static uint8_t memory[PANEL_MEMORY], font[PANEL_FONT];
    panel_start(record, PANEL_STATE, memory, sizeof memory);
    for (size_t i = 2; i < line->count; i++) {
        uint8_t byte = byte_at(line, i);
        PanelFed fed = panel_feed(record, PANEL_STATE, memory, sizeof memory,
                                  font, sizeof font, &byte, 1);
        if (fed.outcome != PANEL_UNFINISHED)
            fail(line, "not the beginning of a command; write spoil record");
    }
}

static void spoil_half(const struct line *line, uint8_t *record)
{
    uint8_t begun[PANEL_STATE];
    want_words(line, 3, SIZE_MAX);
    if (is_word(line, 2, "none")) {
        want_words(line, 3, 3);
        memset(record + AT_HALF, 0, HALF_BYTES);
        return;
    }
    begin_command(line, begun);
    memcpy(record + AT_HALF, begun + AT_HALF, HALF_BYTES);
}

/* "a code, a width and the columns; up to 9 of them, the rest are 0" */
static void spoil_download(const struct line *line, uint8_t *record)
{
    want_words(line, 4, 3 + DOWNLOAD_BYTES);
    uint8_t *place =
        record +
        download_place((unsigned)number_at(line, 2, 0, RECORD_DOWNLOADS - 1));
    memset(place, 0, DOWNLOAD_BYTES);
    if (is_word(line, 3, "none")) {
        want_words(line, 4, 4);
        return;
    }
    for (size_t i = 3; i < line->count; i++)
        place[i - 3] = byte_at(line, i);
}

/* Any bytes of the record. */
static void spoil_record(const struct line *line, uint8_t *record)
{
    want_words(line, 4, SIZE_MAX);
    size_t at = (size_t)number_at(line, 2, 0, PANEL_STATE - 1);
    if (line->count - 3 > PANEL_STATE - at)
        fail(line, "more bytes than the record has from there");
    for (size_t i = 3; i < line->count; i++)
        record[at + i - 3] = byte_at(line, i);
}

static const struct {
    const char *name;
    void (*spoil)(const struct line *line, uint8_t *record);
} parts[] = {
    {"window", spoil_window}, {"base", spoil_base},
    {"selected", spoil_selected}, {"set", spoil_set},
    {"held", spoil_held},     {"saved", spoil_saved},
    {"span", spoil_span},     {"half", spoil_half},
    {"download", spoil_download}, {"record", spoil_record},
};

void spoil(const struct line *line, uint8_t *record)
{
    want_words(line, 2, SIZE_MAX);
    for (size_t i = 0; i < sizeof parts / sizeof parts[0]; i++)
        if (is_word(line, 1, parts[i].name)) {
            parts[i].spoil(line, record);
            return;
        }
    fail(line, "nothing of the state that is known");
}
