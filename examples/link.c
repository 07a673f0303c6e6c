/* A radio link with two panels: one receiver feeds each panel the telegrams for its address, from where they lie in what was received.
 * Build and run: examples/run. Status 1 if an answer is not the expected one. */
#include "../include/panel.h"
#include <stdio.h>
#include <string.h>

enum { TELEGRAM = 133 }; /* the longest: 128 data bytes, and five around them */

struct panel {
    size_t address, telegrams;
    uint8_t state[PANEL_STATE], memory[PANEL_MEMORY], glass[PANEL_GLASS];
    uint8_t received[2 * TELEGRAM]; /* what may still become a telegram, and what comes */
    size_t length;
};

static struct panel clock = {.address = 3}, lanes = {.address = 7};
static uint8_t font[PANEL_FONT];
static int wrong;

static void expect(const char *what, size_t is, size_t expected)
{
    if (is != expected) {
        printf("%s: %zu, not %zu\n", what, is, expected);
        wrong = 1;
    }
}

/* Every telegram for the panel that has come; behind the last one so many bytes are kept as the next may begin with. What is dropped may
 * begin a telegram to another address, whose inside is then searched (docs/MANUAL.md says more). */
static void read_telegrams(struct panel *p)
{
    size_t at = 0;
    PanelReceived r;
    while ((r = panel_receive(p->received + at, p->length - at, p->address)).answer == PANEL_OK) {
        PanelFed f = panel_feed(p->state, sizeof p->state, p->memory, sizeof p->memory, font, sizeof font,
                                p->received + at + r.first, r.count);
        printf("panel %zu: a telegram of %3zu bytes, %zu commands carried out\n", p->address, r.count, f.carried);
        expect("feed", f.answer, PANEL_OK);
        p->telegrams++;
        at += r.after;
    }
    expect("receive", r.answer, PANEL_NO_TELEGRAM);
    if (p->length - at >= TELEGRAM)
        at = p->length - (TELEGRAM - 1);
    p->length -= at;
    memmove(p->received, p->received + at, p->length);
}

/* What the radio gives, at most TELEGRAM bytes at a time, however it is cut. */
static void receive(struct panel *p, const uint8_t *bytes, size_t n)
{
    memcpy(p->received + p->length, bytes, n);
    p->length += n;
    read_telegrams(p);
}

static void start(struct panel *p)
{
    expect("start", panel_start(p->state, sizeof p->state, p->memory, sizeof p->memory), PANEL_OK);
}

int main(void)
{
    static const uint8_t link[] = {
        0x02, 0xFF, 0x02, 0x1B, 0x40, 0x03, 0xA7,                         /* to all: initialise */
        0x55, 0x02, 0x13,                                                 /* noise */
        0x02, 0x03, 0x05, '0', '1', ':', '0', '5', 0x03, 0x39,            /* to 3 */
        0x02, 0x07, 0x06, 'L', 'A', 'N', 'E', ' ', '4', 0x03, 0x12,       /* to 7 */
        0x02, 0x03, 0x04, '9', '9', '9', '9', 0x03, 0x00,                 /* to 3, and broken: its check byte is 06h */
        0x02, 0x03, 0x02, '.', '7', 0x03, 0x19,                           /* to 3 */
    };
    memset(font, 0x7E, sizeof font);
    start(&clock);
    start(&lanes);
    for (size_t i = 0; i < sizeof link; i++) { /* byte by byte: a telegram is cut anywhere */
        receive(&clock, link + i, 1);
        receive(&lanes, link + i, 1);
    }
    expect("telegrams for 3", clock.telegrams, 3);
    expect("telegrams for 7", lanes.telegrams, 2);
    expect("address 16", panel_receive(link, sizeof link, 16).answer, PANEL_NO_SUCH_ADDRESS);
    puts(wrong ? "WRONG" : "all as expected");
    return wrong;
}
