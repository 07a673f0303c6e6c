/* The calls from C (include/panel.h), measured against the second program's: streams fed and refreshed, a call by itself, the
 * state's size, the deepest stack. Memories, glasses and counts are compared before the timing. Built with -DEARLIER=SIZE the other
 * side is not the second program but an archive of an earlier commit, its calls named earlier_panel_start and so on.
 *   calls                      the tables
 *   calls count ROW SIDE TIMES does a row's work so often on one side (0: proved, 1: the other) and times nothing, so that an
 *                              emulator can count its instructions; it prints the row's name and the bytes of one time */
#include "measure.h"
#include "../include/panel.h"
#include "../second/panel.h"
#include <stdlib.h>
#include <string.h>
#include <ucontext.h>

/* ---- the two sides, each with its memory, glass and state */
struct lent {
    uint8_t memory[PANEL_MEMORY], glass[PANEL_GLASS];
    size_t counted; /* commands and bytes moved, so that they are compared too */
};

static struct lent ours, theirs;
static uint8_t record[PANEL_STATE], font[PANEL_FONT];

/* A feed's answer is written through a first argument: that is x86-64's rule for a large result, and the archive's module keeps to it
 * where it is compiled for another machine. So the call is declared as what it is on both. */
PanelFed *feed_into(PanelFed *fed, uint8_t *state, size_t n, uint8_t *memory, size_t memory_n, const uint8_t *font, size_t font_n,
                    const uint8_t *piece, size_t piece_n) __asm__("panel_feed");

enum call { START, FEED, HOLD, RELEASE, REFRESH, CALLS };

static const char *const names[CALLS] = {"start", "feed", "hold", "release", "refresh"};

/* The frame of the function below that makes a call: where the call's stack begins. */
static const uint8_t *frame;
#define CALL __attribute__((noinline)) static void
#define HERE frame = __builtin_frame_address(0)

CALL our_start(void)
{
    HERE;
    ours.counted += panel_start(record, sizeof record, ours.memory, sizeof ours.memory);
}

CALL our_feed(const uint8_t *piece, size_t length)
{
    HERE;
    PanelFed f;
    feed_into(&f, record, sizeof record, ours.memory, sizeof ours.memory, font, sizeof font, piece, length);
    ours.counted += f.carried + f.answered;
}

CALL our_hold(void)
{
    HERE;
    ours.counted += panel_hold(record, sizeof record, 1);
}

CALL our_release(void)
{
    HERE;
    ours.counted += panel_release(record, sizeof record);
}

CALL our_refresh(void)
{
    HERE;
    ours.counted += panel_refresh(record, sizeof record, ours.memory, sizeof ours.memory, ours.glass, sizeof ours.glass).moved;
}

#ifdef EARLIER
#define OTHER "earlier"
#define OTHER_STATE EARLIER
static uint8_t earlier[EARLIER];

uint32_t earlier_panel_start(uint8_t *state, size_t n, uint8_t *memory, size_t memory_n);
PanelFed *earlier_feed_into(PanelFed *fed, uint8_t *state, size_t n, uint8_t *memory, size_t memory_n, const uint8_t *font, size_t font_n,
                            const uint8_t *piece, size_t piece_n) __asm__("earlier_panel_feed");
uint32_t earlier_panel_hold(uint8_t *state, size_t n, size_t window);
uint32_t earlier_panel_release(uint8_t *state, size_t n);
PanelRefreshed earlier_panel_refresh(uint8_t *state, size_t n, const uint8_t *memory, size_t memory_n, uint8_t *glass, size_t glass_n);

CALL their_start(void)
{
    HERE;
    theirs.counted += earlier_panel_start(earlier, sizeof earlier, theirs.memory, sizeof theirs.memory);
}

CALL their_feed(const uint8_t *piece, size_t length)
{
    HERE;
    PanelFed f;
    earlier_feed_into(&f, earlier, sizeof earlier, theirs.memory, sizeof theirs.memory, font, sizeof font, piece, length);
    theirs.counted += f.carried + f.answered;
}

CALL their_hold(void)
{
    HERE;
    theirs.counted += earlier_panel_hold(earlier, sizeof earlier, 1);
}

CALL their_release(void)
{
    HERE;
    theirs.counted += earlier_panel_release(earlier, sizeof earlier);
}

CALL their_refresh(void)
{
    HERE;
    theirs.counted += earlier_panel_refresh(earlier, sizeof earlier, theirs.memory, sizeof theirs.memory, theirs.glass, sizeof theirs.glass).moved;
}
#else
#define OTHER "second"
#define OTHER_STATE sizeof state
static second_state state;

CALL their_start(void)
{
    HERE;
    theirs.counted += second_start(&state, theirs.memory, sizeof theirs.memory);
}

CALL their_feed(const uint8_t *piece, size_t length)
{
    HERE;
    second_counts counts;
    second_feed(&state, theirs.memory, sizeof theirs.memory, font, sizeof font, piece, length, &counts);
    theirs.counted += counts.carried + counts.answered;
}

CALL their_hold(void)
{
    HERE;
    theirs.counted += second_hold(&state, 1);
}

CALL their_release(void)
{
    HERE;
    theirs.counted += second_release(&state);
}

CALL their_refresh(void)
{
    HERE;
    size_t moved;
    second_refresh(&state, theirs.memory, sizeof theirs.memory, theirs.glass, sizeof theirs.glass, &moved);
    theirs.counted += moved;
}
#endif

static struct side {
    void (*start)(void), (*feed)(const uint8_t *, size_t), (*hold)(void), (*release)(void), (*refresh)(void);
    size_t deepest[CALLS];
} panel = {our_start, our_feed, our_hold, our_release, our_refresh, {0}},
  other = {their_start, their_feed, their_hold, their_release, their_refresh, {0}};

/* ---- the stream that is fed now */
static uint8_t piece[4096];
static size_t length;

static void put(const void *bytes, size_t n)
{
    memcpy(piece + length, bytes, n);
    length += n;
}

#define PUT(text) put(text, sizeof text - 1)

static void feed_whole(const struct side *side)
{
    side->feed(piece, length);
}

static void feed_and_refresh(const struct side *side)
{
    for (size_t at = 0; at < length; at += 64) {
        side->feed(piece + at, length - at < 64 ? length - at : 64);
        side->refresh();
    }
}

static void fill(void)
{
    uint32_t x = 2026;
    for (size_t i = 0; i < sizeof font; i++)
        font[i] = (uint8_t)((x = x * 1664525u + 1013904223u) >> 24);
    memset(&ours, 0, sizeof ours);
    theirs = ours;
    panel.start();
    other.start();
}

static void same(const char *name)
{
    if (memcmp(&ours, &theirs, sizeof ours)) {
        fprintf(stderr, "%s: the two differ\n", name);
        exit(1);
    }
}

/* ---- the stack: a call runs on a painted one, which shows how deep it wrote */
enum { STACK = 1 << 16 };

static uint8_t stack[STACK];
static ucontext_t here, there;
static struct side *asked;
static enum call kind;

static void ask(void)
{
    switch (kind) {
    case START: asked->start(); break;
    case FEED: asked->feed(piece, length); break;
    case HOLD: asked->hold(); break;
    case RELEASE: asked->release(); break;
    default: asked->refresh(); break;
    }
}

static void look(struct side *side, enum call call)
{
    asked = side;
    kind = call;
    memset(stack, 0xA5, STACK);
    getcontext(&there);
    there.uc_stack.ss_sp = stack;
    there.uc_stack.ss_size = STACK;
    there.uc_link = &here;
    makecontext(&there, ask, 0);
    swapcontext(&here, &there);
    const uint8_t *lowest = stack;
    while (*lowest == 0xA5)
        lowest++;
    size_t depth = (size_t)(frame - lowest);
    if (depth > side->deepest[call])
        side->deepest[call] = depth;
}

/* Every call in a row on a fresh panel, twice: what is linked when it is first called is linked then. */
static void look_at_all(struct side *side)
{
    length = 0;
    PUT("\x1F(w\x02\x01\x01\x0A\0\0\0\x0E\0\x01\0");
    for (int i = 0; i < 2; i++) {
        memset(side->deepest, 0, sizeof side->deepest);
        for (enum call call = START; call < CALLS; call++)
            look(side, call);
    }
}

/* ---- the rows: what is fed, and how */
static void feed_nothing(const struct side *side)
{
    side->feed(piece, 0);
}

static void refresh(const struct side *side)
{
    side->refresh();
}

static void put_text(void)
{
    for (length = 0; length < 1024; length++)
        piece[length] = (uint8_t)(0x20 + length * 7 % 200);
}

static void put_lines(void)
{
    length = 0;
    PUT("\x1F\x02");
    while (length < 1000)
        PUT("LANE 4  00:58.31");
}

static void put_mixed(void)
{
    length = 0;
    while (length < 1000)
        PUT("\x1F$\x05\0\x01\0" "A\x0A\x1Fr\x01" "12\x1Fr\0\x1Fw\x01 x\x1Fw\0\x1F(w\x02\x01\x01\x0A\0\0\0\x0E\0\x01\0\x11 3\x0D\x08\x10\x0C");
}

/* Digits enlarged across and down, replaced or mixed by exclusive or. */
static void put_digits(char across, char down, char mixing)
{
    const char settings[] = {0x1F, '(', 'g', '@', across, down, 0x1F, 'w', mixing};
    length = 0;
    put(settings, sizeof settings);
    while (length < 600)
        PUT("\x0B" "1234");
}

static void put_digits_2_1(void) { put_digits(2, 1, 0); }
static void put_digits_2_2(void) { put_digits(2, 2, 0); }
static void put_digits_4_1(void) { put_digits(4, 1, 0); }
static void put_digits_4_2(void) { put_digits(4, 2, 0); }
static void put_xored_2_1(void) { put_digits(2, 1, 3); }
static void put_xored_2_2(void) { put_digits(2, 2, 3); }
static void put_xored_4_1(void) { put_digits(4, 1, 3); }
static void put_xored_4_2(void) { put_digits(4, 2, 3); }

static void put_images(void)
{
    length = 0;
    for (int i = 0; i < 6; i++) {
        PUT("\x1F(f\x11\x40\0\x02\0\x01");
        for (int j = 0; j < 128; j++)
            put(&j, 1);
    }
}

static void put_line_feeds(void)
{
    length = 0;
    PUT("\x1F\x02");
    while (length < 200)
        PUT("\x0A");
}

static void put_pushed(void)
{
    length = 0;
    PUT("\x1F\x03");
    while (length < 400)
        PUT("LANE 4  00:58.31");
}

/* Two downloads, one of five columns and one of seven, and lines in which they stand; an earlier archive knows them if its
 * record is as long as today's. */
#if !defined EARLIER || EARLIER == PANEL_STATE
#define DOWNLOADS
static void put_lanes(void)
{
    length = 0;
    PUT("\x1B&\x01\x23\x24\x05\x81\x43\x25\x19\xFF\x07\x81\x43\x25\x19\xFF\x18\x3D\x1B%\x01");
    while (length < 1000)
        PUT("#4 MARA  $ 58.31");
}

static void put_defines(void)
{
    length = 0;
    while (length < 1000)
        PUT("\x1B&\x01\x23\x24\x05\x81\x43\x25\x19\xFF\x07\x81\x43\x25\x19\xFF\x18\x3D\x1B?\x01\x23");
}
#endif

static void put_home(void)
{
    length = 0;
    PUT("\x0B");
}

static const struct row {
    const char *name;
    void (*put)(void);
    void (*way)(const struct side *);
} rows[] = {
    {"text, MD1", put_text, feed_whole},
    {"text, MD2", put_lines, feed_whole},
    {"mixed commands", put_mixed, feed_whole},
    {"digits 2 by 1", put_digits_2_1, feed_whole},
    {"digits 2 by 2", put_digits_2_2, feed_whole},
    {"digits 4 by 1", put_digits_4_1, feed_whole},
    {"digits 4 by 2", put_digits_4_2, feed_whole},
    {"digits 2 by 1, exclusive or", put_xored_2_1, feed_whole},
    {"digits 2 by 2, exclusive or", put_xored_2_2, feed_whole},
    {"digits 4 by 1, exclusive or", put_xored_4_1, feed_whole},
    {"digits 4 by 2, exclusive or", put_xored_4_2, feed_whole},
    {"images", put_images, feed_whole},
    {"scrolling, MD2 line feeds", put_line_feeds, feed_whole},
    {"scrolling, MD3", put_pushed, feed_whole},
    {"text, refresh each 64 bytes", put_text, feed_and_refresh},
    {"mixed, refresh each 64 bytes", put_mixed, feed_and_refresh},
#ifdef DOWNLOADS
    {"text with downloads drawn", put_lanes, feed_whole},
    {"defines and erases", put_defines, feed_whole},
#endif
    /* a call by itself: one byte, or none */
    {"an empty feed", put_home, feed_nothing},
    {"a feed of one byte", put_home, feed_whole},
    {"an empty refresh", put_home, refresh},
};

enum { ROWS = sizeof rows / sizeof rows[0], STREAMS = ROWS - 3 };

static void measure(const struct row *row)
{
    row->put();
    const unsigned times = length < 64 ? 2500 : 50; /* a round is long enough to be timed */
    MEASURE(row->name, times, length, row->way(&panel), row->way(&other));
    look(&panel, FEED);
    look(&other, FEED);
}

/* Nothing is timed: the work of one row, for whoever counts instructions. */
static int count(const char *row, const char *side, const char *times)
{
    const size_t n = strtoul(row, NULL, 10);
    if (n >= ROWS)
        return 1;
    rows[n].put();
    fill();
    for (unsigned long left = strtoul(times, NULL, 10); left; left--)
        rows[n].way(*side == '0' ? &panel : &other);
    printf("%-34s %zu\n", rows[n].name, length);
    return 0;
}

int main(int words, char **word)
{
    if (words == 5 && !strcmp(word[1], "count"))
        return count(word[2], word[3], word[4]);
    look_at_all(&panel);
    look_at_all(&other);
    HEADING("a byte of a stream", OTHER);
    for (size_t i = 0; i < STREAMS; i++)
        measure(&rows[i]);
    printf("\n");
    HEADING("a call by itself", OTHER);
    for (size_t i = STREAMS; i < ROWS; i++)
        measure(&rows[i]);
    printf("\n%-34s %11s %11s\n", "bytes", "proved", OTHER);
    printf("%-34s %11d %11zu\n", "state", PANEL_STATE, (size_t)OTHER_STATE);
    for (enum call call = START; call < CALLS; call++)
        printf("deepest stack, %-19s %11zu %11zu\n", names[call], panel.deepest[call], other.deepest[call]);
    return 0;
}
