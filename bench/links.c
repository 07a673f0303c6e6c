/* Telegrams looked for in received pieces of 64 KB (include/panel.h), measured against the second program's reader. What the two find is
 * compared before the timing.
 *   links                      the table
 *   links count ROW SIDE TIMES as bench/calls.c has it */
#include "measure.h"
#include "../include/panel.h"
#include "../second/telegram.h"
#include <stdlib.h>
#include <string.h>

enum { PIECE = 1 << 16, ADDRESS = 3, ANOTHER = 5, DATA = 128 };

static uint8_t piece[PIECE];

/* What a side found: telegrams, and the sums of where their data begin and end. */
struct heard {
    size_t telegrams, first, after;
};

static struct heard ours, theirs;

/* As bench/calls.c declares a feed: the answer is written through a first argument. */
PanelReceived *receive_into(PanelReceived *received, const uint8_t *piece, size_t length, size_t address) __asm__("panel_receive");

static void hear(struct heard *heard, size_t first, size_t after)
{
    heard->telegrams++;
    heard->first += first;
    heard->after += after;
}

/* Reads the piece to its end, a call after another. */
static void read_ours(void)
{
    PanelReceived r = {.after = 0};
    for (size_t at = 0; receive_into(&r, piece + at, PIECE - at, ADDRESS)->answer == PANEL_OK; at += r.after)
        hear(&ours, at + r.first, at + r.after);
}

static void read_theirs(void)
{
    second_part p;
    for (size_t at = 0; second_receive(piece + at, PIECE - at, ADDRESS, &p) == SECOND_RECEIVED; at += p.after)
        hear(&theirs, at + p.first, at + p.after);
}

static void fill(void)
{
    memset(&ours, 0, sizeof ours);
    theirs = ours;
}

static void same(const char *name)
{
    if (memcmp(&ours, &theirs, sizeof ours)) {
        fprintf(stderr, "%s: the two differ\n", name);
        exit(1);
    }
}

/* ---- the rows */
static void put_over_and_over(const void *bytes, size_t n)
{
    for (size_t at = 0; at < PIECE; at++)
        piece[at] = ((const uint8_t *)bytes)[at % n];
}

static void put_noise(void)
{
    uint32_t x = 2026;
    for (size_t at = 0; at < PIECE; at++)
        piece[at] = (uint8_t)((x = x * 1664525u + 1013904223u) >> 24);
}

static void put_02h(void)
{
    put_over_and_over("\x02", 1);
}

/* From two of five places a whole telegram but for its check byte. */
static void put_broken(void)
{
    put_over_and_over("\x02\x02\x7E\x78\x03", 5);
}

/* One telegram of 128 data bytes after another. */
static void put_telegrams(uint8_t address)
{
    uint8_t telegram[DATA + 5] = {0x02, address, DATA};
    memset(telegram + 3, 'A', DATA);
    telegram[DATA + 3] = 0x03;
    for (size_t i = 0; i < DATA + 4; i++)
        telegram[DATA + 4] ^= telegram[i];
    put_over_and_over(telegram, sizeof telegram);
}

static void put_passed(void)
{
    put_telegrams(ANOTHER);
}

static void put_read(void)
{
    put_telegrams(ADDRESS);
}

static const struct row {
    const char *name;
    void (*put)(void);
} rows[] = {
    {"noise", put_noise},
    {"02h only", put_02h},
    {"02h 02h 7Eh 78h 03h, repeated", put_broken},
    {"telegrams for another address", put_passed},
    {"telegrams for ours", put_read},
};

enum { ROWS = sizeof rows / sizeof rows[0] };

static int count(const char *row, const char *side, const char *times)
{
    const size_t n = strtoul(row, NULL, 10);
    if (n >= ROWS)
        return 1;
    rows[n].put();
    for (unsigned long left = strtoul(times, NULL, 10); left; left--)
        *side == '0' ? read_ours() : read_theirs();
    printf("%-34s %d\n", rows[n].name, PIECE);
    return 0;
}

int main(int words, char **word)
{
    if (words == 5 && !strcmp(word[1], "count"))
        return count(word[2], word[3], word[4]);
    HEADING("a byte of a link", "second");
    for (const struct row *row = rows; row < rows + ROWS; row++) {
        row->put();
        MEASURE(row->name, 2, PIECE, read_ours(), read_theirs());
    }
    return 0;
}
