/* The commands of a script. What is in quotes is docs/SCRIPTS.md's. */
#include "run.h"
#include "spoil.h"
#include "state.h"

#include <stdio.h>
#include <stdlib.h>
#include <string.h>

/* ------------------------------------------------------------------------
 * The world
 * --------------------------------------------------------------------- */

static void play_new(struct run *run)
{
    want_words(&run->line, 1, 1);
    new_world(&run->world);
}

static void play_font(struct run *run)
{
    want_words(&run->line, 2, 3);
    if (is_word(&run->line, 1, "fixed")) {
        want_words(&run->line, 2, 2);
        fixed_font(&run->world);
    } else if (is_word(&run->line, 1, "seed")) {
        want_words(&run->line, 3, 3);
        seed_font(&run->world,
                  (uint32_t)number_at(&run->line, 2, 0, UINT32_MAX));
    } else {
        fail(&run->line, "a font that is not known");
    }
}

static void play_lengths(struct run *run)
{
    size_t lengths[3];
    if (run->line.count == 1) {
        right_lengths(&run->world);
        return;
    }
    want_words(&run->line, 4, 4);
    for (unsigned i = 0; i < 3; i++)
        lengths[i] = (size_t)number_at(&run->line, i + 1, 0, LENGTH_MAX);
    set_lengths(&run->world, lengths[0], lengths[1], lengths[2]);
}

static void play_spoil(struct run *run)
{
    uint8_t record[PANEL_STATE];
    memcpy(record, run->world.record, PANEL_STATE);
    spoil(&run->line, record);
    set_record(&run->world, record);
}

/* ------------------------------------------------------------------------
 * The calls
 * --------------------------------------------------------------------- */

static void play_start(struct run *run)
{
    want_words(&run->line, 1, 1);
    append(&run->written, "start %u\n", (unsigned)start(&run->world));
}

static void play_feed(struct run *run)
{
    read_items(&run->line, 1, &run->piece);
    PanelFed fed = feed(&run->world, run->piece.bytes, run->piece.length);
    append(&run->written, "feed %u %zu %zu %u\n", (unsigned)fed.answer,
           fed.carried, fed.answered, (unsigned)fed.outcome);
}

static void play_each(struct run *run)
{
    read_items(&run->line, 1, &run->piece);
    append(&run->written, "each");
    for (size_t i = 0; i < run->piece.length; i++) {
        PanelFed fed = feed(&run->world, run->piece.bytes + i, 1);
        if (fed.answer != PANEL_OK)
            append(&run->written, " !%u", (unsigned)fed.answer);
        else
            append(&run->written, " %u", (unsigned)fed.outcome);
    }
    append_byte(&run->written, '\n');
}

static void play_hold(struct run *run)
{
    want_words(&run->line, 2, 2);
    uint32_t window = (uint32_t)number_at(&run->line, 1, 0, UINT32_MAX);
    append(&run->written, "hold %u\n", (unsigned)hold(&run->world, window));
}

static void play_release(struct run *run)
{
    want_words(&run->line, 1, 1);
    append(&run->written, "release %u\n", (unsigned)release(&run->world));
}

static void play_refresh(struct run *run)
{
    want_words(&run->line, 1, 1);
    PanelRefreshed refreshed = refresh(&run->world);
    append(&run->written, "refresh %u %zu\n", (unsigned)refreshed.answer,
           refreshed.moved);
}

/* "`receive NUMBER FIRST AFTER`, then the data bytes, each ` HH`" */
static void play_receive(struct run *run)
{
    uint32_t address = (uint32_t)number_at(&run->line, 1, 0, UINT32_MAX);
    read_items(&run->line, 2, &run->piece);
    PanelReceived received =
        receive(&run->world, address, run->piece.bytes, run->piece.length);
    append(&run->written, "receive %u %zu %zu", (unsigned)received.answer,
           received.first, received.after);
    for (size_t i = 0; i < received.count; i++)
        append(&run->written, " %02X",
               (unsigned)(uint8_t)run->piece.bytes[received.first + i]);
    append_byte(&run->written, '\n');
}

/* ------------------------------------------------------------------------
 * What is looked at
 * --------------------------------------------------------------------- */

static void play_cursor(struct run *run)
{
    const uint8_t *record = run->world.record;
    want_words(&run->line, 1, 1);
    unsigned selected = record[AT_SELECTED];
    if (selected > RECORD_WINDOWS)
        fail(&run->line, "the selected window is none of the panel's");
    append(&run->written, "cursor %u", selected);
    describe_cursor(&run->written, record, selected);
    append_byte(&run->written, '\n');
}

/* The bytes that word 1 names, and how many there are. */
static const uint8_t *bytes_named(const struct run *run, size_t *length)
{
    if (is_word(&run->line, 1, "memory")) {
        *length = PANEL_MEMORY;
        return run->world.memory;
    }
    if (is_word(&run->line, 1, "glass")) {
        *length = PANEL_GLASS;
        return run->world.glass;
    }
    fail(&run->line, "neither memory nor glass");
}

static void play_peek(struct run *run)
{
    size_t length;
    want_words(&run->line, 4, 4);
    const uint8_t *bytes = bytes_named(run, &length);
    size_t last = (size_t)number_at(&run->line, 3, 0, length - 1);
    size_t first = (size_t)number_at(&run->line, 2, 0, last);
    append(&run->written, "%s",
           is_word(&run->line, 1, "memory") ? "memory" : "glass");
    for (size_t i = first; i <= last; i++)
        append(&run->written, " %02X", (unsigned)bytes[i]);
    append_byte(&run->written, '\n');
}

/* "sixteen lines of dots, `#` lit and `.` dark, one character a column" */
static void dump_dots(struct text *text, const uint8_t *bytes, size_t first,
                      size_t last)
{
    for (unsigned dot = 0; dot < 8 * RECORD_ROWS; dot++) {
        for (size_t x = first; x <= last; x++) {
            uint8_t byte = bytes[RECORD_ROWS * x + dot / 8];
            append_byte(text, byte >> (7 - dot % 8) & 1 ? '#' : '.');
        }
        append_byte(text, '\n');
    }
}

static void play_dump(struct run *run)
{
    size_t length;
    want_words(&run->line, 2, 4);
    if (is_word(&run->line, 1, "state")) {
        want_words(&run->line, 2, 2);
        describe(&run->written, run->world.record);
        return;
    }
    const uint8_t *bytes = bytes_named(run, &length);
    size_t first = 0, last = length / RECORD_ROWS - 1;
    if (run->line.count > 2) {
        want_words(&run->line, 4, 4);
        last = (size_t)number_at(&run->line, 3, 0, last);
        first = (size_t)number_at(&run->line, 2, 0, last);
    }
    dump_dots(&run->written, bytes, first, last);
}

static void play_sum(struct run *run)
{
    struct text text = {NULL, 0, 0};
    want_words(&run->line, 1, 1);
    describe(&text, run->world.record);
    append(&run->written, "sum %08X %08X %08X\n",
           (unsigned)sum_of(run->world.memory, PANEL_MEMORY),
           (unsigned)sum_of(run->world.glass, PANEL_GLASS),
           (unsigned)sum_of(text.bytes, text.length));
    free(text.bytes);
}

/* ------------------------------------------------------------------------
 * A line
 * --------------------------------------------------------------------- */

static const struct {
    const char *name;
    void (*play)(struct run *run);
} commands[] = {
    {"new", play_new},         {"font", play_font},
    {"start", play_start},     {"feed", play_feed},
    {"each", play_each},       {"hold", play_hold},
    {"release", play_release}, {"refresh", play_refresh},
    {"receive", play_receive}, {"lengths", play_lengths},
    {"spoil", play_spoil},     {"cursor", play_cursor},
    {"peek", play_peek},       {"dump", play_dump},
    {"sum", play_sum},
};

void play_words(struct run *run)
{
    if (run->line.count == 0)
        return;
    for (size_t i = 0; i < sizeof commands / sizeof commands[0]; i++)
        if (is_word(&run->line, 0, commands[i].name)) {
            run->written.length = 0;
            run->held_to = 0;
            commands[i].play(run);
            if (!run->silent && run->written.length > 0)
                fwrite(run->written.bytes, 1, run->written.length, stdout);
            return;
        }
    fail(&run->line, "a word that is not known");
}
