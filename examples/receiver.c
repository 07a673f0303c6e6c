/* A receiver's loop: the owner writes the clock, a guest writes its lane in a window, the glass follows.
 * Build and run: examples/run. Status 1 if an answer is not the expected one. */
#include "../include/panel.h"
#include <stdio.h>
#include <string.h>

static uint8_t state[PANEL_STATE], memory[PANEL_MEMORY], glass[PANEL_GLASS], font[PANEL_FONT];
static int wrong;

/* A font of one's own goes here; this one draws each code as its bits. */
static void draw_font(void)
{
    for (size_t code = 0x20; code <= 0xFF; code++)
        for (size_t column = 0; column < 5; column++)
            font[5 * (code - 0x20) + column] = (uint8_t)(code >> column << 1);
}

static void expect(const char *call, uint32_t answer, uint32_t expected)
{
    if (answer != expected) {
        printf("%s: answered %u, not %u\n", call, (unsigned)answer, (unsigned)expected);
        wrong = 1;
    }
}

static PanelFed feed(const char *who, const void *bytes, size_t length)
{
    PanelFed f = panel_feed(state, sizeof state, memory, sizeof memory, font, sizeof font, bytes, length);
    expect("feed", f.answer, PANEL_OK);
    printf("%-5s %2zu bytes: %2zu carried out, %zu answered otherwise, the last byte %u\n", who, length, f.carried, f.answered,
           (unsigned)f.outcome);
    return f;
}

static size_t refresh(void)
{
    PanelRefreshed r = panel_refresh(state, sizeof state, memory, sizeof memory, glass, sizeof glass);
    expect("refresh", r.answer, PANEL_OK);
    printf("refresh: %zu bytes moved\n", r.moved);
    return r.moved;
}

int main(void)
{
    /* window 1 is defined at column 84: 28 columns of the lower row */
    static const uint8_t define[] = {0x1F, 0x28, 0x77, 0x02, 1, 1, 84, 0, 1, 0, 28, 0, 1, 0};
    static const char clock[] = "LANE 4  00:58.31";
    static const uint8_t guest[] = {0x0C, 'O', 'K', 0x1B, 0x40, '!'}; /* clear, OK, initialise (refused), ! */
    uint8_t before[PANEL_MEMORY];

    draw_font();
    expect("start", panel_start(state, sizeof state, memory, sizeof memory), PANEL_OK);
    expect("moved", (uint32_t)refresh(), PANEL_GLASS);
    feed("owner", define, sizeof define);
    expect("carried", (uint32_t)feed("owner", clock, strlen(clock)).carried, 16);
    memcpy(before, memory, sizeof memory);

    expect("hold", panel_hold(state, sizeof state, 1), PANEL_OK);
    PanelFed f = feed("guest", guest, 5);
    expect("outcome", f.outcome, PANEL_WINDOW_HELD);
    feed("guest", guest + 5, 1);
    expect("release", panel_release(state, sizeof state), PANEL_OK);
    expect("release", panel_release(state, sizeof state), PANEL_NOT_HELD);

    for (size_t a = 0; a < sizeof memory; a++) /* the guest stayed in its window */
        if (memory[a] != before[a] && (a % 2 != 1 || a / 2 < 84 || a / 2 >= 112))
            expect("outside", memory[a], before[a]);
    refresh();
    expect("glass", (uint32_t)memcmp(glass, memory, sizeof glass), 0);
    expect("moved", (uint32_t)refresh(), 0);
    puts(wrong ? "WRONG" : "all as expected");
    return wrong;
}
