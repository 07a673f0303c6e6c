/* The leaves that write memory and glass, measured against plain C that does
 * the same: both in one program, on the same bytes, as ratios. Every result is
 * compared before it is timed. */
#include "measure.h"
#include <stdint.h>
#include <stdlib.h>
#include <string.h>

/* ---- the proved leaves (crates/bench_leaves): a slice is a pointer and a length */
void leaf_clear(uint8_t *mem, size_t n, uint16_t left, uint16_t top, uint16_t width, uint16_t height);
void leaf_scroll_up(uint8_t *mem, size_t n, uint16_t left, uint16_t top, uint16_t width, uint16_t height, uint16_t lines);
void leaf_move_left(uint8_t *mem, size_t n, uint16_t left, uint16_t top, uint16_t width, uint16_t height, uint16_t by);
void leaf_draw(uint8_t *mem, size_t n, const uint8_t *font, size_t fonts, uint8_t code, uint16_t left, uint16_t top,
               uint16_t width, uint16_t height, uint8_t reverse, uint8_t mixing, uint8_t across, uint8_t down);
size_t leaf_refresh(const uint8_t *mem, size_t n, uint8_t *glass, size_t shown, uint16_t first, uint16_t end);

/* ---- the same in plain C */
#define AT(x, y) (2 * (size_t)(x) + (size_t)(y))
/* called as the archive is: not inlined, not cloned for constant arguments */
#define PLAIN __attribute__((noipa)) static

PLAIN void plain_clear(uint8_t *mem, unsigned left, unsigned top, unsigned width, unsigned height)
{
    for (unsigned r = 0; r < height; r++)
        for (unsigned j = 0; j < width; j++)
            mem[AT(left + j, top + r)] = 0;
}

PLAIN void plain_scroll_up(uint8_t *mem, unsigned left, unsigned top, unsigned width, unsigned height, unsigned lines)
{
    for (unsigned r = 0; r < height; r++)
        for (unsigned j = 0; j < width; j++)
            mem[AT(left + j, top + r)] = r + lines < height ? mem[AT(left + j, top + r + lines)] : 0;
}

PLAIN void plain_move_left(uint8_t *mem, unsigned left, unsigned top, unsigned width, unsigned height, unsigned by)
{
    for (unsigned r = 0; r < height; r++)
        for (unsigned j = 0; j < width; j++)
            mem[AT(left + j, top + r)] = j + by < width ? mem[AT(left + j + by, top + r)] : 0;
}

static uint8_t doubled(unsigned n)
{
    return (uint8_t)(((n & 1) | (n & 2) << 1 | (n & 4) << 2 | (n & 8) << 3) * 3);
}

static uint8_t mixed(unsigned mixing, uint8_t old, uint8_t v)
{
    return mixing == 0 ? v : mixing == 1 ? (uint8_t)(old | v) : mixing == 2 ? (uint8_t)(old & v) : (uint8_t)(old ^ v);
}

PLAIN void plain_draw(uint8_t *mem, const uint8_t *font, unsigned code, unsigned left, unsigned top, unsigned width,
                      unsigned height, unsigned reverse, unsigned mixing, unsigned across, unsigned down)
{
    unsigned j = 0;
    for (unsigned k = 0; k < 7 && j < width; k++) {
        uint8_t v = k >= 1 && k < 6 ? font[5 * (code - 0x20) + k - 1] : 0;
        v = top == 0 ? v & 0xFE : v >> 1;
        uint8_t upper = down == 1 ? v : doubled(v >> 4), lower = doubled(v & 15);
        if (reverse) {
            upper = (uint8_t)~upper;
            lower = (uint8_t)~lower;
        }
        for (unsigned i = 0; i < across && j < width; i++, j++) {
            uint8_t *at = mem + AT(left + j, top);
            at[0] = mixed(mixing, at[0], upper);
            if (height > 1)
                at[1] = mixed(mixing, at[1], lower);
        }
    }
}

PLAIN size_t plain_refresh(const uint8_t *mem, uint8_t *glass, unsigned first, unsigned end)
{
    size_t moved = 0;
    if (end > 112)
        end = 112;
    for (unsigned y = 0; y < 2; y++)
        for (unsigned x = first; x < end; x++, moved++)
            glass[AT(x, y)] = mem[AT(x, y)];
    return moved;
}

/* ---- the runs */
static uint8_t ours[1024], theirs[1024], our_glass[224], their_glass[224], font[1120];
static size_t sink;

static void fill(void)
{
    uint32_t x = 2026;
    for (size_t i = 0; i < sizeof ours; i++)
        ours[i] = theirs[i] = (uint8_t)((x = x * 1664525u + 1013904223u) >> 24);
    for (size_t i = 0; i < sizeof font; i++)
        font[i] = (uint8_t)((x = x * 1664525u + 1013904223u) >> 24);
    memset(our_glass, 0xC3, sizeof our_glass);
    memset(their_glass, 0xC3, sizeof their_glass);
}

static void same(const char *name)
{
    if (memcmp(ours, theirs, sizeof ours) || memcmp(our_glass, their_glass, sizeof our_glass)) {
        fprintf(stderr, "%s: the two differ\n", name);
        exit(1);
    }
}

int main(void)
{
    HEADING("leaf", "plain C");
    MEASURE("clear, 112 by 2", 5000, 1, leaf_clear(ours, 1024, 0, 0, 112, 2), plain_clear(theirs, 0, 0, 112, 2));
    MEASURE("clear, 14 by 1", 50000, 1, leaf_clear(ours, 1024, 10, 0, 14, 1), plain_clear(theirs, 10, 0, 14, 1));
    MEASURE("scroll up 1, 112 by 2", 5000, 1, leaf_scroll_up(ours, 1024, 0, 0, 112, 2, 1), plain_scroll_up(theirs, 0, 0, 112, 2, 1));
    MEASURE("move left 7, 112 by 1", 5000, 1, leaf_move_left(ours, 1024, 0, 0, 112, 1, 7), plain_move_left(theirs, 0, 0, 112, 1, 7));
    MEASURE("move left 14, 512 by 2", 1000, 1, leaf_move_left(ours, 1024, 0, 0, 512, 2, 14), plain_move_left(theirs, 0, 0, 512, 2, 14));
    MEASURE("draw, 1 by 1", 50000, 1,
            leaf_draw(ours, 1024, font, 1120, (uint8_t)(0x20 + i % 224), 7, 0, 7, 1, 0, 0, 1, 1),
            plain_draw(theirs, font, 0x20 + i % 224, 7, 0, 7, 1, 0, 0, 1, 1));
    MEASURE("draw, reversed, exclusive or", 50000, 1,
            leaf_draw(ours, 1024, font, 1120, (uint8_t)(0x20 + i % 224), 7, 1, 7, 1, 1, 3, 1, 1),
            plain_draw(theirs, font, 0x20 + i % 224, 7, 1, 7, 1, 1, 3, 1, 1));
    MEASURE("draw, enlarged 4 by 2", 15000, 1,
            leaf_draw(ours, 1024, font, 1120, (uint8_t)(0x20 + i % 224), 28, 0, 28, 2, 0, 0, 4, 2),
            plain_draw(theirs, font, 0x20 + i % 224, 28, 0, 28, 2, 0, 0, 4, 2));
    MEASURE("refresh, all", 5000, 1, sink += leaf_refresh(ours, 1024, our_glass, 224, 0, 512), sink += plain_refresh(theirs, their_glass, 0, 512));
    MEASURE("refresh, 7 columns", 50000, 1, sink += leaf_refresh(ours, 1024, our_glass, 224, 7, 14), sink += plain_refresh(theirs, their_glass, 7, 14));
    return sink == 1;
}
