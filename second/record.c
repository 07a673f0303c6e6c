/* The second program's state as docs/RECORD.md's record of 259 bytes, and
 * back. What is in quotes is that page's. The page's cases of a half-read
 * command meet panel.c's own phases and commands here, so that file is part of
 * this one. */
#include "record.h"

#include "panel.c"

/* ------------------------------------------------------------------------
 * Numbers
 * --------------------------------------------------------------------- */

/* "A 16-bit number is two bytes, low byte first." */
static void put16(uint8_t *to, unsigned n)
{
    to[0] = (uint8_t)n;
    to[1] = (uint8_t)(n >> 8);
}

static uint16_t get16(const uint8_t *from)
{
    return (uint16_t)sixteen(from);
}

static bool is_zero(const uint8_t *from, unsigned length)
{
    unsigned i = 0;
    while (i < length && from[i] == 0)
        i++;
    return i == length;
}

/* ------------------------------------------------------------------------
 * Settings, windows, spans, downloads
 * --------------------------------------------------------------------- */

static void put_settings(uint8_t *to, const second_settings *s)
{
    to[SET_CHARSET] = s->charset;
    to[SET_CODEPAGE] = s->codepage;
    to[SET_CURSOR_SHOWN] = s->cursor_shown;
    to[SET_BRIGHTNESS] = s->brightness;
    to[SET_SPEED] = s->speed;
    to[SET_W] = s->w;
    to[SET_WRITE_MODE] = s->write_mode;
    to[SET_OWN] = s->own;
    to[SET_REVERSE] = s->reverse;
    to[SET_MIXING] = s->mixing;
    to[SET_X_ENLARGED] = s->x_enlarged;
    to[SET_Y_ENLARGED] = s->y_enlarged;
}

static second_settings get_settings(const uint8_t *from)
{
    return (second_settings){.charset = from[SET_CHARSET],
                             .codepage = from[SET_CODEPAGE],
                             .cursor_shown = from[SET_CURSOR_SHOWN],
                             .brightness = from[SET_BRIGHTNESS],
                             .speed = from[SET_SPEED],
                             .w = from[SET_W],
                             .write_mode = from[SET_WRITE_MODE],
                             .own = from[SET_OWN],
                             .reverse = from[SET_REVERSE],
                             .mixing = from[SET_MIXING],
                             .x_enlarged = from[SET_X_ENLARGED],
                             .y_enlarged = from[SET_Y_ENLARGED]};
}

static void put_place(uint8_t *to, const second_place *p)
{
    put16(to + PLACE_X, p->x);
    put16(to + PLACE_Y, p->y);
    to[PLACE_MODE] = p->mode;
}

static second_place get_place(const uint8_t *from)
{
    return (second_place){.x = get16(from + PLACE_X),
                          .y = get16(from + PLACE_Y),
                          .mode = from[PLACE_MODE]};
}

/* "A user window that is not defined is 13 zeros" */
static void put_window(uint8_t *to, const second_window *w)
{
    if (!w->defined)
        return;
    put16(to + WINDOW_LEFT, w->left);
    put16(to + WINDOW_TOP, w->top);
    put16(to + WINDOW_WIDTH, w->width);
    put16(to + WINDOW_HEIGHT, w->height);
    put_place(to + WINDOW_PLACE, &w->place);
}

static second_window get_window(const uint8_t *from)
{
    return (second_window){.defined = !is_zero(from, WINDOW_BYTES),
                           .left = get16(from + WINDOW_LEFT),
                           .top = get16(from + WINDOW_TOP),
                           .width = get16(from + WINDOW_WIDTH),
                           .height = get16(from + WINDOW_HEIGHT),
                           .place = get_place(from + WINDOW_PLACE)};
}

/* "first column written since the last refresh", "the column after the last
 * one"; "0 if none" */
static void put_span(uint8_t *to, const second_span *s)
{
    if (!s->any)
        return;
    put16(to + SPAN_FIRST, s->first);
    put16(to + SPAN_END, s->last + 1u);
}

static second_span get_span(const uint8_t *from)
{
    unsigned first = get16(from + SPAN_FIRST), end = get16(from + SPAN_END);
    return (second_span){.any = first != 0 || end != 0,
                         .first = (uint16_t)first,
                         .last = (uint16_t)(end - 1)};
}

/* "A place of the downloads is free, 9 zeros, or has a download."; "of five
 * columns the last two bytes are 0" */
static void put_download(uint8_t *to, const second_download *d)
{
    if (!d->stored)
        return;
    to[DOWNLOAD_CODE] = d->code;
    to[DOWNLOAD_WIDTH] = d->width;
    memcpy(to + DOWNLOAD_COLUMNS, d->columns,
           d->width == 5 ? 5 : RECORD_COLUMNS);
}

static second_download get_download(const uint8_t *from)
{
    second_download d = {.stored = !is_zero(from, DOWNLOAD_BYTES),
                         .code = from[DOWNLOAD_CODE],
                         .width = from[DOWNLOAD_WIDTH]};
    memcpy(d.columns, from + DOWNLOAD_COLUMNS, RECORD_COLUMNS);
    return d;
}

/* ------------------------------------------------------------------------
 * "What is half read"
 * --------------------------------------------------------------------- */

/* "the case .., four bytes a, b, c, d .., four 16-bit numbers p, q, r, s ..,
 * and .. how many [columns a download] has in all, how many have come, and
 * [they]" */
struct slots {
    unsigned number, a, b, c, d, p, q, r, s, in_all, come;
    uint8_t columns[RECORD_COLUMNS];
};

/* The cases of phases that carry nothing; of no phase, none of the page's. */
static const uint8_t bare_cases[PHASES + 1] = {
    [PHASE_NONE] = 0,         [PHASE_ESC] = 1,
    [PHASE_US] = 2,           [PHASE_GROUP] = 3,
    [PHASE_GROUP_A] = 4,      [PHASE_GROUP_F] = 5,
    [PHASE_GROUP_G] = 6,      [PHASE_GROUP_W] = 7,
    [PHASE_DOWNLOAD_A] = 10,  [PHASE_DOWNLOAD_C1] = 11,
    [PHASE_WINDOW_A] = 22,    [PHASES] = 255,
};

/* "Which value (case 8)" */
static const uint8_t values[] = {
    COMMAND_CHARSET, COMMAND_CODEPAGE, COMMAND_CURSOR_SHOWN,
    COMMAND_BRIGHTNESS, COMMAND_REVERSE, COMMAND_SPEED,
    COMMAND_MIXING, COMMAND_W, COMMAND_WRITE_MODE,
    COMMAND_OWN,
};

enum { VALUES = sizeof values };

/* "Which 16-bit parameter (cases 15 and 16)": the number of the command's
 * first one. */
enum { WHICH_CURSOR = 0, WHICH_WINDOW = 2, WHICH_IMAGE_X = 6, WHICH_IMAGE_Y };

/* One of the 16-bit parameters that PHASE_PARAMETERS gathers. */
static struct slots word_slots(const second_half *h, unsigned first)
{
    const unsigned whole = h->got / 2u;
    return (struct slots){
        .number = h->got % 2 == 0 ? 15 : 16,
        .a = first + whole,
        .b = h->command == COMMAND_DEFINE ? h->window : 0,
        .c = h->got % 2 == 0 ? 0 : h->bytes[h->got - 1],
        .p = whole > 0 ? sixteen(h->bytes) : 0,
        .q = whole > 1 ? sixteen(h->bytes + 2) : 0,
        .r = whole > 2 ? sixteen(h->bytes + 4) : 0};
}

/* PHASE_PARAMETERS */
static struct slots parameter_slots(const second_half *h)
{
    switch (h->command) {
    case COMMAND_CURSOR_SET:
        return word_slots(h, WHICH_CURSOR);
    case COMMAND_DEFINE:
        return word_slots(h, WHICH_WINDOW);
    case COMMAND_ENLARGE:
        if (h->got == 0)
            return (struct slots){.number = 19};
        return (struct slots){.number = 20, .a = h->bytes[0]};
    case COMMAND_SELECT:
        return (struct slots){.number = 21};
    case COMMAND_ERASE:
        if (h->got == 0)
            return (struct slots){.number = 24};
        return (struct slots){.number = 25, .a = h->bytes[0]};
    default:
        for (unsigned i = 0; i < VALUES; i++)
            if (h->command == values[i])
                return (struct slots){.number = 8, .a = i};
        /* "a command answered 14 unchecked" */
        return (struct slots){
            .number = 9, .a = parameter_bytes[h->command] - h->got};
    }
}

/* PHASE_DOWNLOAD_X and PHASE_DOWNLOAD_DATA; "those that have not come are 0" */
static struct slots download_slots(const second_half *h)
{
    struct slots t = {.number = 13,
                      .a = h->first,
                      .b = h->coming.code,
                      .c = h->last,
                      .d = h->dropped};
    if (h->phase == PHASE_DOWNLOAD_DATA) {
        t.number = 14;
        t.in_all = h->coming.width;
        t.come = h->got;
        memcpy(t.columns, h->coming.columns,
               h->got < RECORD_COLUMNS ? h->got : RECORD_COLUMNS);
    }
    return t;
}

static struct slots slots_of(const second_half *h)
{
    switch (h->phase) {
    case PHASE_PARAMETERS:
        return parameter_slots(h);
    case PHASE_DOWNLOAD_C2:
        return (struct slots){.number = 12, .a = h->first};
    case PHASE_DOWNLOAD_X:
    case PHASE_DOWNLOAD_DATA:
        return download_slots(h);
    case PHASE_IMAGE_XL:
        return (struct slots){.number = 15, .a = WHICH_IMAGE_X};
    case PHASE_IMAGE_XH:
        return (struct slots){
            .number = 16, .a = WHICH_IMAGE_X, .c = h->width};
    case PHASE_IMAGE_YL:
        return (struct slots){
            .number = 15, .a = WHICH_IMAGE_Y, .p = h->width};
    case PHASE_IMAGE_YH:
        return (struct slots){.number = 16,
                              .a = WHICH_IMAGE_Y,
                              .c = h->height,
                              .p = h->width};
    case PHASE_IMAGE_G:
        return (struct slots){.number = 17, .p = h->width, .q = h->height};
    case PHASE_IMAGE_DATA:
        return (struct slots){.number = 18,
                              .p = h->width,
                              .q = h->height,
                              .r = h->column,
                              .s = h->row};
    case PHASE_WINDOW_B:
        return (struct slots){.number = 23, .a = h->window};
    default:
        return (struct slots){.number = bare_cases[h->phase]};
    }
}

static second_half parameters(unsigned command, unsigned got)
{
    return (second_half){.phase = PHASE_PARAMETERS,
                         .command = (uint8_t)command,
                         .got = (uint8_t)got};
}

/* No half-read command at all: number 8. */
static second_half impossible(void)
{
    return (second_half){.phase = PHASES};
}

/* Cases 15 and 16, of a cursor or a window. */
static second_half half_of_word(const struct slots *t)
{
    second_half h =
        t->a < WHICH_WINDOW
            ? parameters(COMMAND_CURSOR_SET, 2 * (t->a - WHICH_CURSOR))
            : parameters(COMMAND_DEFINE, 2 * (t->a - WHICH_WINDOW));
    h.window = (uint8_t)t->b;
    put16(h.bytes, t->p);
    put16(h.bytes + 2, t->q);
    put16(h.bytes + 4, t->r);
    if (t->number == 16) {
        h.bytes[h.got] = (uint8_t)t->c;
        h.got++;
    }
    return h;
}

/* Cases 15 and 16, of an image. */
static second_half half_of_size(const struct slots *t)
{
    const bool low = t->number == 15;
    if (t->a == WHICH_IMAGE_X)
        return (second_half){.phase = low ? PHASE_IMAGE_XL : PHASE_IMAGE_XH,
                             .width = (uint16_t)t->c};
    return (second_half){.phase = low ? PHASE_IMAGE_YL : PHASE_IMAGE_YH,
                         .width = (uint16_t)t->p,
                         .height = (uint16_t)t->c};
}

/* Cases 13 and 14. */
static second_half half_of_download(const struct slots *t)
{
    second_half h = {.phase = t->number == 13 ? PHASE_DOWNLOAD_X
                                              : PHASE_DOWNLOAD_DATA,
                     .first = (uint8_t)t->a,
                     .last = (uint8_t)t->c,
                     .dropped = t->d != 0,
                     .got = (uint8_t)t->come,
                     .coming = {.code = (uint8_t)t->b,
                                .width = (uint8_t)t->in_all}};
    memcpy(h.coming.columns, t->columns, RECORD_COLUMNS);
    return h;
}

static second_half half_of_bare(unsigned number)
{
    for (unsigned phase = 0; phase < PHASES; phase++)
        if (bare_cases[phase] == number)
            return (second_half){.phase = (uint8_t)phase};
    return impossible();
}

/* A command of two parameters of which the first has come. */
static second_half half_of_pair(unsigned command, unsigned first)
{
    second_half h = parameters(command, 1);
    h.bytes[0] = (uint8_t)first;
    return h;
}

static second_half half_of(const struct slots *t)
{
    switch (t->number) {
    case 8:
        return t->a < VALUES ? parameters(values[t->a], 0) : impossible();
    case 9: /* of these commands, the one with most bytes */
        return t->a >= 1 && t->a <= 5 ? parameters(COMMAND_ACTION_10, 5 - t->a)
                                      : impossible();
    case 12:
        return (second_half){.phase = PHASE_DOWNLOAD_C2,
                             .first = (uint8_t)t->a};
    case 13:
    case 14:
        return half_of_download(t);
    case 15:
    case 16:
        if (t->a > WHICH_IMAGE_Y)
            return impossible();
        return t->a < WHICH_IMAGE_X ? half_of_word(t) : half_of_size(t);
    case 17:
        return (second_half){.phase = PHASE_IMAGE_G,
                             .width = (uint16_t)t->p,
                             .height = (uint16_t)t->q};
    case 18:
        return (second_half){.phase = PHASE_IMAGE_DATA,
                             .width = (uint16_t)t->p,
                             .height = (uint16_t)t->q,
                             .column = (uint16_t)t->r,
                             .row = (uint16_t)t->s};
    case 19:
        return parameters(COMMAND_ENLARGE, 0);
    case 20:
        return half_of_pair(COMMAND_ENLARGE, t->a);
    case 21:
        return parameters(COMMAND_SELECT, 0);
    case 23:
        return (second_half){.phase = PHASE_WINDOW_B,
                             .window = (uint8_t)t->a};
    case 24:
        return parameters(COMMAND_ERASE, 0);
    case 25:
        return half_of_pair(COMMAND_ERASE, t->a);
    default:
        return half_of_bare(t->number);
    }
}

static void put_half(uint8_t *to, const second_half *h)
{
    const struct slots t = slots_of(h);
    to[HALF_CASE] = (uint8_t)t.number;
    to[HALF_A] = (uint8_t)t.a;
    to[HALF_B] = (uint8_t)t.b;
    to[HALF_C] = (uint8_t)t.c;
    to[HALF_D] = (uint8_t)t.d;
    put16(to + HALF_P, t.p);
    put16(to + HALF_Q, t.q);
    put16(to + HALF_R, t.r);
    put16(to + HALF_S, t.s);
    to[HALF_IN_ALL] = (uint8_t)t.in_all;
    to[HALF_COME] = (uint8_t)t.come;
    memcpy(to + HALF_COLUMNS, t.columns, RECORD_COLUMNS);
}

static second_half get_half(const uint8_t *from)
{
    struct slots t = {.number = from[HALF_CASE],
                      .a = from[HALF_A],
                      .b = from[HALF_B],
                      .c = from[HALF_C],
                      .d = from[HALF_D],
                      .p = get16(from + HALF_P),
                      .q = get16(from + HALF_Q),
                      .r = get16(from + HALF_R),
                      .s = get16(from + HALF_S),
                      .in_all = from[HALF_IN_ALL],
                      .come = from[HALF_COME]};
    memcpy(t.columns, from + HALF_COLUMNS, RECORD_COLUMNS);
    return half_of(&t);
}

/* ------------------------------------------------------------------------
 * The record
 * --------------------------------------------------------------------- */

void record_of(const second_state *state, uint8_t record[RECORD_BYTES])
{
    memset(record, 0, RECORD_BYTES);
    put_settings(record + AT_SETTINGS, &state->settings);
    for (unsigned k = 0; k < SECOND_WINDOWS; k++)
        put_window(record + AT_WINDOWS + WINDOW_BYTES * k,
                   &state->windows[k]);
    put_place(record + AT_BASE, &state->base);
    record[AT_SELECTED] = state->selected;
    if (state->held) {
        record[AT_HELD] = 1;
        record[AT_HELD_WINDOW] = state->held_window;
        record[AT_SAVED_SELECTED] = state->saved_selected;
        put_settings(record + AT_SAVED, &state->saved);
    }
    put_half(record + AT_HALF, &state->half);
    for (unsigned row = 0; row < SECOND_ROWS; row++)
        put_span(record + AT_SPANS + SPAN_BYTES * row, &state->spans[row]);
    for (unsigned place = 0; place < SECOND_DOWNLOADS; place++)
        put_download(record + AT_DOWNLOADS + DOWNLOAD_BYTES * place,
                     &state->downloads[place]);
}

/* "the bytes are read by their places, the state is encoded again, and where
 * that gives other bytes .. the record stands for a state that no call
 * accepts" */
void state_of(const uint8_t record[RECORD_BYTES], second_state *state)
{
    uint8_t again[RECORD_BYTES];
    memset(state, 0, sizeof *state);
    state->settings = get_settings(record + AT_SETTINGS);
    for (unsigned k = 0; k < SECOND_WINDOWS; k++)
        state->windows[k] = get_window(record + AT_WINDOWS + WINDOW_BYTES * k);
    state->base = get_place(record + AT_BASE);
    state->selected = record[AT_SELECTED];
    state->held = record[AT_HELD] == 1;
    state->held_window = record[AT_HELD_WINDOW];
    state->saved_selected = record[AT_SAVED_SELECTED];
    state->saved = get_settings(record + AT_SAVED);
    state->half = get_half(record + AT_HALF);
    for (unsigned row = 0; row < SECOND_ROWS; row++)
        state->spans[row] = get_span(record + AT_SPANS + SPAN_BYTES * row);
    for (unsigned place = 0; place < SECOND_DOWNLOADS; place++)
        state->downloads[place] =
            get_download(record + AT_DOWNLOADS + DOWNLOAD_BYTES * place);
    record_of(state, again);
    if (memcmp(again, record, RECORD_BYTES) != 0)
        state->half = impossible();
}
