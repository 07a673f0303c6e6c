/* The calls of include/panel.h by the second program: the state crosses as
 * docs/RECORD.md's record, and a receive needs none. Linked with play/, it plays
 * scripts. */
#include "../include/panel.h"
#include "record.h"
#include "telegram.h"

_Static_assert(RECORD_BYTES == PANEL_STATE, "one record for both");

/* "A refused call leaves the record's bytes alone" */
static void keep(unsigned number, const second_state *state, uint8_t *record)
{
    if (number == SECOND_NOT_REFUSED)
        record_of(state, record);
}

/* "The one exception ..: a start answered 1 gives the initial state .., and
 * writes it into the record." */
uint32_t panel_start(uint8_t *record, size_t record_length, uint8_t *memory,
                     size_t memory_length)
{
    second_state state;
    if (record_length != PANEL_STATE)
        return PANEL_RECORD_LENGTH;
    unsigned number = second_start(&state, memory, memory_length);
    record_of(&state, record);
    return number;
}

PanelFed panel_feed(uint8_t *record, size_t record_length, uint8_t *memory,
                    size_t memory_length, const uint8_t *font,
                    size_t font_length, const uint8_t *piece,
                    size_t piece_length)
{
    second_state state;
    second_counts counts;
    if (record_length != PANEL_STATE)
        return (PanelFed){.answer = PANEL_RECORD_LENGTH,
                          .outcome = PANEL_UNFINISHED};
    state_of(record, &state);
    unsigned number = second_feed(&state, memory, memory_length, font,
                                  font_length, piece, piece_length, &counts);
    keep(number, &state, record);
    return (PanelFed){.answer = number,
                      .outcome = counts.outcome,
                      .carried = counts.carried,
                      .answered = counts.answered};
}

/* The second program takes 32 bits; a number above is none of 1 to 4. */
uint32_t panel_hold(uint8_t *record, size_t record_length, size_t window)
{
    second_state state;
    if (record_length != PANEL_STATE)
        return PANEL_RECORD_LENGTH;
    state_of(record, &state);
    unsigned number = second_hold(
        &state, window > UINT32_MAX ? UINT32_MAX : (uint32_t)window);
    keep(number, &state, record);
    return number;
}

uint32_t panel_release(uint8_t *record, size_t record_length)
{
    second_state state;
    if (record_length != PANEL_STATE)
        return PANEL_RECORD_LENGTH;
    state_of(record, &state);
    unsigned number = second_release(&state);
    keep(number, &state, record);
    return number;
}

PanelRefreshed panel_refresh(uint8_t *record, size_t record_length,
                             const uint8_t *memory, size_t memory_length,
                             uint8_t *glass, size_t glass_length)
{
    second_state state;
    size_t moved;
    if (record_length != PANEL_STATE)
        return (PanelRefreshed){.answer = PANEL_RECORD_LENGTH};
    state_of(record, &state);
    unsigned number = second_refresh(&state, memory, memory_length, glass,
                                     glass_length, &moved);
    keep(number, &state, record);
    return (PanelRefreshed){.answer = number, .moved = moved};
}

PanelReceived panel_receive(const uint8_t *piece, size_t piece_length,
                            size_t address)
{
    second_part part;
    unsigned number = second_receive(piece, piece_length, address, &part);
    return (PanelReceived){.answer = number,
                           .first = part.first,
                           .count = part.count,
                           .after = part.after};
}
