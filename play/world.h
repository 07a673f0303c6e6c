/* The world of a script: what is lent to the panel's calls, and the calls. */
#ifndef PLAY_WORLD_H
#define PLAY_WORLD_H

#include "../include/panel.h"
#include "calls.h"

enum { LENGTH_MAX = 4096 };

struct world {
    uint8_t memory[LENGTH_MAX], font[LENGTH_MAX], glass[LENGTH_MAX];
    size_t memory_length, font_length, glass_length;
    uint8_t record[PANEL_STATE];
    struct calls calls;
};

void new_world(struct world *w);

void fixed_font(struct world *w);

void seed_font(struct world *w, uint32_t n);

void set_lengths(struct world *w, size_t memory, size_t font, size_t glass);

void right_lengths(struct world *w);

/* The record is another one from here on. */
void set_record(struct world *w, const uint8_t record[PANEL_STATE]);

/* The calls, with what the world lends. */
uint32_t start(struct world *w);

PanelFed feed(struct world *w, const void *piece, size_t length);

uint32_t hold(struct world *w, uint32_t window);

uint32_t release(struct world *w);

PanelRefreshed refresh(struct world *w);

/* It is lent nothing but the piece. */
PanelReceived receive(struct world *w, uint32_t address, const void *piece,
                      size_t length);

#endif
