/* The dot panel's command interpreter, the second program.
 *
 * The words in quotes above the functions are document 01's, or those of the
 * order of document 02 named beside them. In order: the state and its bounds
 * (number 8), the reader, the range, the downloads, the drawing, the moves, the
 * commands with their answers, the five calls. */
#include "panel.h"

#include <string.h>

/* ------------------------------------------------------------------------
 * What is read
 * --------------------------------------------------------------------- */

/* What the reader awaits next. */
enum {
    PHASE_NONE = 0,     /* the first byte of a command */
    PHASE_ESC,          /* 1Bh .. */
    PHASE_US,           /* 1Fh .. */
    PHASE_GROUP,        /* 1Fh 28h .. */
    PHASE_GROUP_A,      /* 1Fh 28h 61h .. */
    PHASE_GROUP_F,      /* 1Fh 28h 66h .. */
    PHASE_GROUP_G,      /* 1Fh 28h 67h .. */
    PHASE_GROUP_W,      /* 1Fh 28h 77h .. */
    PHASE_PARAMETERS,   /* the next of a fixed number of bytes */
    PHASE_DOWNLOAD_A,   /* 1Bh 26h: a */
    PHASE_DOWNLOAD_C1,
    PHASE_DOWNLOAD_C2,
    PHASE_DOWNLOAD_X,   /* the width of the next code */
    PHASE_WINDOW_A,     /* 1Fh 28h 77h 02h: a */
    PHASE_WINDOW_B,
    PHASE_IMAGE_XL,     /* 1Fh 28h 66h 11h: x size, low byte */
    PHASE_IMAGE_XH,
    PHASE_IMAGE_YL,
    PHASE_IMAGE_YH,
    PHASE_IMAGE_G,
    PHASE_DOWNLOAD_DATA, /* from here on a byte is kept when it arrives */
    PHASE_IMAGE_DATA,
    PHASES
};

/* The commands, each with one way to carry it out. */
enum {
    COMMAND_CHARACTER = 0,
    COMMAND_BS,
    COMMAND_HT,
    COMMAND_LF,
    COMMAND_HOM,
    COMMAND_CLR,
    COMMAND_CR,
    COMMAND_SELECT,
    COMMAND_INITIALISE,
    COMMAND_CHARSET,
    COMMAND_CODEPAGE,
    COMMAND_OWN,
    COMMAND_ERASE,
    COMMAND_DOWNLOAD,
    COMMAND_MODE,
    COMMAND_CURSOR_SET,
    COMMAND_CURSOR_SHOWN,
    COMMAND_BRIGHTNESS,
    COMMAND_REVERSE,
    COMMAND_SPEED,
    COMMAND_MIXING,
    COMMAND_ACTION_01,
    COMMAND_ACTION_10,
    COMMAND_ACTION_11,
    COMMAND_ACTION_40,
    COMMAND_IMAGE,
    COMMAND_W,
    COMMAND_ENLARGE,
    COMMAND_DEFINE,
    COMMAND_CANCEL,
    COMMAND_WRITE_MODE,
    COMMANDS
};

/* How many parameter bytes PHASE_PARAMETERS gathers for a command; 0 where
 * it gathers none. Those of define are the ones that follow a and b. */
static const uint8_t parameter_bytes[COMMANDS] = {
    [COMMAND_CHARSET] = 1,       /* 1Bh 52h n */
    [COMMAND_CODEPAGE] = 1,      /* 1Bh 74h n */
    [COMMAND_OWN] = 1,           /* 1Bh 25h n */
    [COMMAND_ERASE] = 2,         /* 1Bh 3Fh a c */
    [COMMAND_CURSOR_SET] = 4,    /* 1Fh 24h x16 y16 */
    [COMMAND_CURSOR_SHOWN] = 1,  /* 1Fh 43h n */
    [COMMAND_BRIGHTNESS] = 1,    /* 1Fh 58h n */
    [COMMAND_REVERSE] = 1,       /* 1Fh 72h n */
    [COMMAND_SPEED] = 1,         /* 1Fh 73h n */
    [COMMAND_MIXING] = 1,        /* 1Fh 77h n */
    [COMMAND_ACTION_01] = 1,     /* 1Fh 28h 61h 01h "with 1 parameter byte" */
    [COMMAND_ACTION_10] = 5,     /* "10h with 5" */
    [COMMAND_ACTION_11] = 4,     /* "11h with 4" */
    [COMMAND_ACTION_40] = 1,     /* "40h with 1" */
    [COMMAND_W] = 1,             /* 1Fh 28h 67h 03h w */
    [COMMAND_ENLARGE] = 2,       /* 1Fh 28h 67h 40h x y */
    [COMMAND_SELECT] = 1,        /* 1Fh 28h 77h 01h a */
    [COMMAND_DEFINE] = 8,        /* 1Fh 28h 77h 02h a 1 xP yP xS yS */
    [COMMAND_WRITE_MODE] = 1,    /* 1Fh 28h 77h 10h a */
};

/* "A 16-bit parameter is low byte first." */
static unsigned sixteen(const uint8_t *bytes)
{
    return bytes[0] + 256u * bytes[1];
}

/* ------------------------------------------------------------------------
 * Domains
 * --------------------------------------------------------------------- */

/* "52h n (0 to 13)" */
static bool is_charset(unsigned n)
{
    return n <= 13;
}

/* "74h n (0 to 5, 16 to 19)" */
static bool is_codepage(unsigned n)
{
    return n <= 5 || (n >= 16 && n <= 19);
}

/* "43h n (0, 1)", "72h n (0, 1) reverse", "10h a (0, 1) write mode"; "The
 * switch takes 0 or 1" (order 2) */
static bool is_switch(unsigned n)
{
    return n <= 1;
}

/* "58h n (1 to 8)" */
static bool is_brightness(unsigned n)
{
    return n >= 1 && n <= 8;
}

/* "73h n (0 to 31, kept only)" */
static bool is_speed(unsigned n)
{
    return n <= 31;
}

/* "77h n (0 to 3) mixing" */
static bool is_mixing(unsigned n)
{
    return n <= 3;
}

/* "03h w (0 or 1; 2 and 3 answered 14; else 11)" */
static bool is_w(unsigned n)
{
    return n <= 1;
}

/* "40h x y (x 1 to 4, ..)" */
static bool is_x_enlarged(unsigned n)
{
    return n >= 1 && n <= 4;
}

/* "40h x y (.., y 1 to 2)" */
static bool is_y_enlarged(unsigned n)
{
    return n >= 1 && n <= 2;
}

/* "c1 below 20h" cancels; "a code of 20h or more" (order 2) */
static bool is_code(unsigned n)
{
    return n >= 0x20;
}

/* "x other than 5 or 7" cancels; "a width not 5 or 7" (order 2) */
static bool is_download_width(unsigned n)
{
    return n == 5 || n == 7;
}

/* "01h, 02h, 03h set MD1, MD2, MD3 of the current window" */
static bool is_mode(unsigned n)
{
    return n >= 1 && n <= 3;
}

/* "xS and yS are at least 1, xP + xS at most 512 and yP + yS at most 2" */
static bool is_rectangle(unsigned left, unsigned top, unsigned width,
                         unsigned height)
{
    return width >= 1 && height >= 1 && left + width <= SECOND_COLUMNS &&
           top + height <= SECOND_ROWS;
}

/* "1Fh 28h 66h 11h, x size 1 to 512, .." */
static bool is_image_width(unsigned n)
{
    return n >= 1 && n <= SECOND_COLUMNS;
}

/* ".. y size 1 to 2, .." */
static bool is_image_height(unsigned n)
{
    return n >= 1 && n <= SECOND_ROWS;
}

/* ------------------------------------------------------------------------
 * Number 8: "state record breaks a bound of this paper"
 * --------------------------------------------------------------------- */

/* "a setting .. outside its domain" */
static bool settings_sound(const second_settings *s)
{
    return is_charset(s->charset) && is_codepage(s->codepage) &&
           is_switch(s->cursor_shown) && is_brightness(s->brightness) &&
           is_switch(s->reverse) && is_speed(s->speed) &&
           is_mixing(s->mixing) && is_w(s->w) &&
           is_x_enlarged(s->x_enlarged) && is_y_enlarged(s->y_enlarged) &&
           is_switch(s->write_mode) && is_switch(s->own);
}

/* "a cursor outside its window"; and the window's mode */
static bool place_sound(const second_place *p, unsigned width,
                        unsigned height)
{
    return p->x < width && p->y < height && is_mode(p->mode);
}

/* "a user window leaving the memory, a cursor outside its window": an
 * undefined window has neither. */
static bool window_sound(const second_window *w)
{
    return !w->defined ||
           (is_rectangle(w->left, w->top, w->width, w->height) &&
            place_sound(&w->place, w->width, w->height));
}

static bool is_defined(const second_state *state, unsigned window)
{
    return window >= 1 && window <= SECOND_WINDOWS &&
           state->windows[window - 1].defined;
}

/* "an undefined window selected": the base is always there */
static bool can_be_selected(const second_state *state, unsigned window)
{
    return window == 0 || is_defined(state, window);
}

/* "a span whose first exceeds its last or whose last exceeds 511" */
static bool span_sound(const second_span *span)
{
    return !span->any ||
           (span->first <= span->last && span->last < SECOND_COLUMNS);
}

/* "an undefined window .. held or, while held, saved as selected, a held
 * window that is not the selected one"; ".. or, while held, a saved one
 * outside its domain" */
static bool holding_sound(const second_state *state)
{
    return !state->held || (is_defined(state, state->held_window) &&
                            state->held_window == state->selected &&
                            can_be_selected(state, state->saved_selected) &&
                            settings_sound(&state->saved));
}

/* The place that has a code; SECOND_DOWNLOADS if none has. */
static unsigned place_of(const second_state *state, uint8_t code)
{
    unsigned place = 0;
    while (place < SECOND_DOWNLOADS && !(state->downloads[place].stored &&
                                         state->downloads[place].code == code))
        place++;
    return place;
}

/* The first place that is free; SECOND_DOWNLOADS with "16 stored". */
static unsigned free_place(const second_state *state)
{
    unsigned place = 0;
    while (place < SECOND_DOWNLOADS && state->downloads[place].stored)
        place++;
    return place;
}

/* "a code twice or below 20h, a width not 5 or 7" (order 2) */
static bool download_sound(const second_state *state, unsigned place)
{
    const second_download *d = &state->downloads[place];
    return !d->stored || (is_code(d->code) && is_download_width(d->width) &&
                          place_of(state, d->code) == place);
}

/* Is a code of the half-read define, "read to its last byte", not stored? */
static bool lacks_a_code(const second_state *state)
{
    for (unsigned code = state->half.first; code < state->half.coming.code;
         code++)
        if (place_of(state, (uint8_t)code) == SECOND_DOWNLOADS)
            return true;
    return false;
}

/* The codes of a half-read define; and "outside a hold, a half-read define of
 * which a code read to its last byte is not stored while fewer than 16 are, or
 * whose note of a drop says other than that such a code is not stored"
 * (order 2) */
static bool codes_sound(const second_state *state)
{
    const second_half *h = &state->half;
    if (!is_code(h->first) || h->coming.code < h->first ||
        h->last < h->coming.code)
        return false;
    if (state->held)
        return true;
    if (!lacks_a_code(state))
        return !h->dropped;
    return h->dropped && free_place(state) == SECOND_DOWNLOADS;
}

/* "an impossible half-read command: one that is not a proper beginning of a
 * command by the reading rules" */
static bool half_sound(const second_state *state)
{
    const second_half *h = &state->half;
    switch (h->phase) {
    case PHASE_NONE:
    case PHASE_ESC:
    case PHASE_US:
    case PHASE_GROUP:
    case PHASE_GROUP_A:
    case PHASE_GROUP_F:
    case PHASE_GROUP_G:
    case PHASE_GROUP_W:
    case PHASE_DOWNLOAD_A:
    case PHASE_DOWNLOAD_C1:
    case PHASE_WINDOW_A:
    case PHASE_IMAGE_XL:
        return true;
    case PHASE_IMAGE_XH: /* only the low byte has arrived */
        return h->width <= 0xFF;
    case PHASE_PARAMETERS:
        if (h->command >= COMMANDS || h->got >= parameter_bytes[h->command])
            return false;
        return h->command != COMMAND_DEFINE ||
               (h->window >= 1 && h->window <= SECOND_WINDOWS);
    case PHASE_WINDOW_B:
        return h->window >= 1 && h->window <= SECOND_WINDOWS;
    case PHASE_DOWNLOAD_C2:
        return is_code(h->first);
    case PHASE_DOWNLOAD_X:
        return codes_sound(state);
    case PHASE_DOWNLOAD_DATA:
        return codes_sound(state) && is_download_width(h->coming.width) &&
               h->got < h->coming.width;
    case PHASE_IMAGE_YL:
        return is_image_width(h->width);
    case PHASE_IMAGE_YH:
        return is_image_width(h->width) && h->height <= 0xFF;
    case PHASE_IMAGE_G:
        return is_image_width(h->width) && is_image_height(h->height);
    case PHASE_IMAGE_DATA:
        return is_image_width(h->width) && is_image_height(h->height) &&
               h->column < h->width && h->row < h->height;
    default:
        return false;
    }
}

static bool state_sound(const second_state *state)
{
    for (unsigned k = 0; k < SECOND_WINDOWS; k++)
        if (!window_sound(&state->windows[k]))
            return false;
    for (unsigned row = 0; row < SECOND_ROWS; row++)
        if (!span_sound(&state->spans[row]))
            return false;
    for (unsigned place = 0; place < SECOND_DOWNLOADS; place++)
        if (!download_sound(state, place))
            return false;
    return place_sound(&state->base, SECOND_COLUMNS, SECOND_ROWS) &&
           settings_sound(&state->settings) &&
           can_be_selected(state, state->selected) && holding_sound(state) &&
           half_sound(state);
}

/* ------------------------------------------------------------------------
 * The reader: one byte, the same work for each, no dot and no setting
 * --------------------------------------------------------------------- */

/* What a byte does to the command that is being read. */
enum reading {
    READ_ON,        /* the command goes on */
    READ_WHOLE,     /* this byte is its last; h->command says which it is */
    READ_CANCELLED, /* 12 */
    READ_UNKNOWN    /* 13 */
};

static enum reading read_on(second_half *h, unsigned phase)
{
    h->phase = (uint8_t)phase;
    return READ_ON;
}

static enum reading read_whole(second_half *h, unsigned command)
{
    h->phase = PHASE_NONE;
    h->command = (uint8_t)command;
    return READ_WHOLE;
}

/* "12: cancelled at a byte; that byte is consumed, the next is ordinary
 * data" */
static enum reading read_cancelled(second_half *h)
{
    h->phase = PHASE_NONE;
    return READ_CANCELLED;
}

/* "13: unknown code, given at the byte that makes it unknown" */
static enum reading read_unknown(second_half *h)
{
    h->phase = PHASE_NONE;
    return READ_UNKNOWN;
}

/* The command is known and has parameter_bytes[command] bytes to come. */
static enum reading read_parameters(second_half *h, unsigned command)
{
    h->phase = PHASE_PARAMETERS;
    h->command = (uint8_t)command;
    h->got = 0;
    return READ_ON;
}

/* A whole command whose single parameter is known already. */
static enum reading read_with(second_half *h, unsigned command,
                              unsigned parameter)
{
    h->bytes[0] = (uint8_t)parameter;
    return read_whole(h, command);
}

/* "Bytes 20h to FFh are characters; 08h to 0Dh are BS, HT, LF, HOM, CLR, CR;
 * 10h to 14h select window 0 to 4; 1Bh and 1Fh open commands; every other
 * byte below 20h is answered 13." */
static enum reading read_first(second_half *h, uint8_t byte)
{
    if (byte >= 0x20)
        return read_with(h, COMMAND_CHARACTER, byte);
    switch (byte) {
    case 0x08:
        return read_whole(h, COMMAND_BS);
    case 0x09:
        return read_whole(h, COMMAND_HT);
    case 0x0A:
        return read_whole(h, COMMAND_LF);
    case 0x0B:
        return read_whole(h, COMMAND_HOM);
    case 0x0C:
        return read_whole(h, COMMAND_CLR);
    case 0x0D:
        return read_whole(h, COMMAND_CR);
    case 0x10:
    case 0x11:
    case 0x12:
    case 0x13:
    case 0x14:
        return read_with(h, COMMAND_SELECT, byte - 0x10u);
    case 0x1B:
        return read_on(h, PHASE_ESC);
    case 0x1F:
        return read_on(h, PHASE_US);
    default:
        return read_unknown(h);
    }
}

/* "1Bh: 40h initialise; 52h n .. and 74h n ..; 25h n, 3Fh a c ..; 26h .." */
static enum reading read_esc(second_half *h, uint8_t byte)
{
    switch (byte) {
    case 0x40:
        return read_whole(h, COMMAND_INITIALISE);
    case 0x52:
        return read_parameters(h, COMMAND_CHARSET);
    case 0x74:
        return read_parameters(h, COMMAND_CODEPAGE);
    case 0x25:
        return read_parameters(h, COMMAND_OWN);
    case 0x3F:
        return read_parameters(h, COMMAND_ERASE);
    case 0x26:
        return read_on(h, PHASE_DOWNLOAD_A);
    default:
        return read_unknown(h);
    }
}

/* "1Fh: 01h, 02h, 03h set MD1, MD2, MD3 of the current window; 24h x16 y16
 * cursor set; 43h n; 58h n; 72h n reverse; 73h n; 77h n mixing", and 28h */
static enum reading read_us(second_half *h, uint8_t byte)
{
    switch (byte) {
    case 0x01:
    case 0x02:
    case 0x03:
        return read_with(h, COMMAND_MODE, byte);
    case 0x24:
        return read_parameters(h, COMMAND_CURSOR_SET);
    case 0x28:
        return read_on(h, PHASE_GROUP);
    case 0x43:
        return read_parameters(h, COMMAND_CURSOR_SHOWN);
    case 0x58:
        return read_parameters(h, COMMAND_BRIGHTNESS);
    case 0x72:
        return read_parameters(h, COMMAND_REVERSE);
    case 0x73:
        return read_parameters(h, COMMAND_SPEED);
    case 0x77:
        return read_parameters(h, COMMAND_MIXING);
    default:
        return read_unknown(h);
    }
}

/* "1Fh 28h 61h", "1Fh 28h 66h", "1Fh 28h 67h", "1Fh 28h 77h" */
static enum reading read_group(second_half *h, uint8_t byte)
{
    switch (byte) {
    case 0x61:
        return read_on(h, PHASE_GROUP_A);
    case 0x66:
        return read_on(h, PHASE_GROUP_F);
    case 0x67:
        return read_on(h, PHASE_GROUP_G);
    case 0x77:
        return read_on(h, PHASE_GROUP_W);
    default:
        return read_unknown(h);
    }
}

/* "1Fh 28h 61h: 01h with 1 parameter byte, 10h with 5, 11h with 4, 40h with
 * 1: all answered 14 unchecked." */
static enum reading read_group_a(second_half *h, uint8_t byte)
{
    switch (byte) {
    case 0x01:
        return read_parameters(h, COMMAND_ACTION_01);
    case 0x10:
        return read_parameters(h, COMMAND_ACTION_10);
    case 0x11:
        return read_parameters(h, COMMAND_ACTION_11);
    case 0x40:
        return read_parameters(h, COMMAND_ACTION_40);
    default:
        return read_unknown(h);
    }
}

/* "1Fh 28h 66h 11h: image" */
static enum reading read_group_f(second_half *h, uint8_t byte)
{
    if (byte == 0x11)
        return read_on(h, PHASE_IMAGE_XL);
    return read_unknown(h);
}

/* "1Fh 28h 67h: 03h w ..; 40h x y .." */
static enum reading read_group_g(second_half *h, uint8_t byte)
{
    switch (byte) {
    case 0x03:
        return read_parameters(h, COMMAND_W);
    case 0x40:
        return read_parameters(h, COMMAND_ENLARGE);
    default:
        return read_unknown(h);
    }
}

/* "1Fh 28h 77h: 01h a select (0 to 4); 02h a b, ..; 10h a (0, 1) write
 * mode." */
static enum reading read_group_w(second_half *h, uint8_t byte)
{
    switch (byte) {
    case 0x01:
        return read_parameters(h, COMMAND_SELECT);
    case 0x02:
        return read_on(h, PHASE_WINDOW_A);
    case 0x10:
        return read_parameters(h, COMMAND_WRITE_MODE);
    default:
        return read_unknown(h);
    }
}

/* One of a fixed number of parameter bytes. */
static enum reading read_parameter(second_half *h, uint8_t byte)
{
    h->bytes[h->got] = byte;
    h->got++;
    if (h->got < parameter_bytes[h->command])
        return READ_ON;
    return read_whole(h, h->command);
}

/* "In 02h, a outside 1 to 4 or b outside 0 to 1 cancels at that byte." */
static enum reading read_window_a(second_half *h, uint8_t byte)
{
    if (byte < 1 || byte > SECOND_WINDOWS)
        return read_cancelled(h);
    h->window = byte;
    return read_on(h, PHASE_WINDOW_B);
}

/* "02h a b, then when b is 1 xP yP xS yS, 16 bits each" */
static enum reading read_window_b(second_half *h, uint8_t byte)
{
    if (byte == 0)
        return read_whole(h, COMMAND_CANCEL);
    if (byte == 1)
        return read_parameters(h, COMMAND_DEFINE);
    return read_cancelled(h);
}

/* "26h a c1 c2 ..: cancelled at a other than 1, .." */
static enum reading read_download_a(second_half *h, uint8_t byte)
{
    if (byte != 1)
        return read_cancelled(h);
    return read_on(h, PHASE_DOWNLOAD_C1);
}

/* ".. c1 below 20h, .." */
static enum reading read_download_c1(second_half *h, uint8_t byte)
{
    if (!is_code(byte))
        return read_cancelled(h);
    h->first = byte;
    return read_on(h, PHASE_DOWNLOAD_C2);
}

/* ".. c2 below c1, .." */
static enum reading read_download_c2(second_half *h, uint8_t byte)
{
    if (byte < h->first)
        return read_cancelled(h);
    h->last = byte;
    h->coming.code = h->first;
    h->dropped = false;
    return read_on(h, PHASE_DOWNLOAD_X);
}

/* ".. x other than 5 or 7" */
static enum reading read_download_x(second_half *h, uint8_t byte)
{
    if (!is_download_width(byte))
        return read_cancelled(h);
    h->coming.width = byte;
    h->got = 0;
    return read_on(h, PHASE_DOWNLOAD_DATA);
}

/* ".. then, for each code c1 to c2, a width x and x bytes" */
static enum reading read_download_data(second_half *h)
{
    h->got++;
    if (h->got < h->coming.width)
        return READ_ON;
    if (h->coming.code == h->last)
        return read_whole(h, COMMAND_DOWNLOAD);
    h->coming.code++;
    return read_on(h, PHASE_DOWNLOAD_X);
}

/* Image sizes are 16 bits, low byte first. */
static enum reading read_image_xl(second_half *h, uint8_t byte)
{
    h->width = byte;
    return read_on(h, PHASE_IMAGE_XH);
}

/* "x size 1 to 512 .. A bad size cancels when its high byte arrives" */
static enum reading read_image_xh(second_half *h, uint8_t byte)
{
    unsigned width = h->width + 256u * byte;
    if (!is_image_width(width))
        return read_cancelled(h);
    h->width = (uint16_t)width;
    return read_on(h, PHASE_IMAGE_YL);
}

static enum reading read_image_yl(second_half *h, uint8_t byte)
{
    h->height = byte;
    return read_on(h, PHASE_IMAGE_YH);
}

/* "y size 1 to 2 .. A bad size cancels when its high byte arrives" */
static enum reading read_image_yh(second_half *h, uint8_t byte)
{
    unsigned height = h->height + 256u * byte;
    if (!is_image_height(height))
        return read_cancelled(h);
    h->height = (uint16_t)height;
    return read_on(h, PHASE_IMAGE_G);
}

/* "g = 1 .. a bad g [cancels] at g" */
static enum reading read_image_g(second_half *h, uint8_t byte)
{
    if (byte != 1)
        return read_cancelled(h);
    h->column = 0;
    h->row = 0;
    return read_on(h, PHASE_IMAGE_DATA);
}

/* "then x·y bytes, column by column, top first" */
static enum reading read_image_data(second_half *h)
{
    h->row++;
    if (h->row < h->height)
        return READ_ON;
    h->row = 0;
    h->column++;
    if (h->column < h->width)
        return READ_ON;
    return read_whole(h, COMMAND_IMAGE);
}

static enum reading read_byte(second_half *h, uint8_t byte)
{
    switch (h->phase) {
    case PHASE_NONE:
        return read_first(h, byte);
    case PHASE_ESC:
        return read_esc(h, byte);
    case PHASE_US:
        return read_us(h, byte);
    case PHASE_GROUP:
        return read_group(h, byte);
    case PHASE_GROUP_A:
        return read_group_a(h, byte);
    case PHASE_GROUP_F:
        return read_group_f(h, byte);
    case PHASE_GROUP_G:
        return read_group_g(h, byte);
    case PHASE_GROUP_W:
        return read_group_w(h, byte);
    case PHASE_PARAMETERS:
        return read_parameter(h, byte);
    case PHASE_DOWNLOAD_A:
        return read_download_a(h, byte);
    case PHASE_DOWNLOAD_C1:
        return read_download_c1(h, byte);
    case PHASE_DOWNLOAD_C2:
        return read_download_c2(h, byte);
    case PHASE_DOWNLOAD_X:
        return read_download_x(h, byte);
    case PHASE_DOWNLOAD_DATA:
        return read_download_data(h);
    case PHASE_WINDOW_A:
        return read_window_a(h, byte);
    case PHASE_WINDOW_B:
        return read_window_b(h, byte);
    case PHASE_IMAGE_XL:
        return read_image_xl(h, byte);
    case PHASE_IMAGE_XH:
        return read_image_xh(h, byte);
    case PHASE_IMAGE_YL:
        return read_image_yl(h, byte);
    case PHASE_IMAGE_YH:
        return read_image_yh(h, byte);
    case PHASE_IMAGE_G:
        return read_image_g(h, byte);
    default: /* PHASE_IMAGE_DATA, number 8 lets no other through */
        return read_image_data(h);
    }
}

/* ------------------------------------------------------------------------
 * Settings, windows and the range
 * --------------------------------------------------------------------- */

/* "Initial: w = 1, enlargement 1 by 1, brightness 8, all other settings 0,
 * MD1, base window, cursor (0,0), no user window."; no download: "Initialise
 * erases all." (order 2) */
static void second_initial(second_state *state)
{
    memset(state, 0, sizeof *state);
    state->settings.w = 1;
    state->settings.x_enlarged = 1;
    state->settings.y_enlarged = 1;
    state->settings.brightness = 8;
    state->base.mode = 1;
}

/* "a span holds the first and last column written since the last refresh" */
static void mark(second_state *state, unsigned row, unsigned first,
                 unsigned last)
{
    second_span *span = &state->spans[row];
    if (!span->any) {
        span->any = true;
        span->first = (uint16_t)first;
        span->last = (uint16_t)last;
        return;
    }
    if (first < span->first)
        span->first = (uint16_t)first;
    if (last > span->last)
        span->last = (uint16_t)last;
}

/* "Initialise gives this and zeroes the memory .. Start does the same and
 * marks all as written."; written is "all memory on initialise" */
static void initialise(second_state *state, uint8_t *memory)
{
    second_initial(state);
    memset(memory, 0, SECOND_MEMORY_BYTES);
    for (unsigned row = 0; row < SECOND_ROWS; row++)
        mark(state, row, 0, SECOND_COLUMNS - 1);
}

/* "Each window has its own cursor and mode." */
static second_place *current_place(second_state *state)
{
    if (state->selected == 0)
        return &state->base;
    return &state->windows[state->selected - 1].place;
}

/* What a command works with: "The range is the rectangle in which a command
 * works", "x and y are counted from the range's top left, W and H are its
 * size." */
struct work {
    second_state *state;
    uint8_t *memory;
    const uint8_t *font;
    second_place *place;  /* the current window's */
    unsigned offset;      /* columns from the window's left to the range's */
    unsigned left, top;   /* the range's top left in the memory */
    unsigned W, H;
    unsigned x, y;        /* the cursor */
    unsigned c, L;        /* the cell's width in columns, height in rows */
};

/* "User window: its rectangle." */
static void range_of_window(struct work *k, const second_window *window)
{
    k->offset = 0;
    k->left = window->left;
    k->top = window->top;
    k->W = window->width;
    k->H = window->height;
}

/* "Base in write mode 1: all. Base in write mode 0: columns 0 to 111 if the
 * cursor is there, else 112 to 511." */
static void range_of_base(struct work *k)
{
    k->left = 0;
    k->top = 0;
    k->W = SECOND_COLUMNS;
    k->H = SECOND_ROWS;
    if (k->state->settings.write_mode == 0) {
        if (k->state->base.x < SECOND_VISIBLE) {
            k->W = SECOND_VISIBLE;
        } else {
            k->left = SECOND_VISIBLE;
            k->W = SECOND_COLUMNS - SECOND_VISIBLE;
        }
    }
    k->offset = k->left;
}

static struct work work_of(second_state *state, uint8_t *memory,
                           const uint8_t *font)
{
    struct work k = {.state = state, .memory = memory, .font = font};
    const second_settings *settings = &state->settings;
    if (state->selected == 0)
        range_of_base(&k);
    else
        range_of_window(&k, &state->windows[state->selected - 1]);
    k.place = current_place(state);
    k.x = k.place->x - k.offset;
    k.y = k.place->y;
    /* "Cell width c is 6 (w = 0) or 7 (w = 1) times x enlargement; cell
     * height is L rows, L the y enlargement." */
    k.c = (6u + settings->w) * settings->x_enlarged;
    k.L = settings->y_enlarged;
    return k;
}

static void put_cursor_back(const struct work *k)
{
    k->place->x = (uint16_t)(k->x + k->offset);
    k->place->y = (uint16_t)k->y;
}

/* "the byte at address 2x + y": x and y counted from the range */
static uint8_t *byte_at(const struct work *k, unsigned x, unsigned y)
{
    return &k->memory[2 * (k->left + x) + k->top + y];
}

/* Columns x to x + width - 1 of `rows` rows from y on were written, as far
 * as they are inside the range. */
static void mark_inside(struct work *k, unsigned x, unsigned y,
                        unsigned width, unsigned rows)
{
    unsigned end = x + width < k->W ? x + width : k->W;
    for (unsigned row = y; row < y + rows && row < k->H; row++)
        mark(k->state, k->top + row, k->left + x, k->left + end - 1);
}

/* ------------------------------------------------------------------------
 * Downloads (order 2)
 * --------------------------------------------------------------------- */

/* "A code already stored is replaced. A new code with 16 stored is read and
 * dropped"; "erased room is used again" */
static void store_download(second_state *state)
{
    second_half *h = &state->half;
    unsigned place = place_of(state, h->coming.code);
    if (place == SECOND_DOWNLOADS)
        place = free_place(state);
    if (place == SECOND_DOWNLOADS) {
        h->dropped = true;
        return;
    }
    state->downloads[place] = h->coming;
    state->downloads[place].stored = true;
}

/* "Each is stored when its last byte arrives." "While held, define and erase
 * .. store or erase nothing" */
static void take_download_byte(second_state *state, uint8_t byte)
{
    second_half *h = &state->half;
    h->coming.columns[h->got] = byte;
    if (h->got + 1 == h->coming.width && !state->held)
        store_download(state);
}

/* Erase, its code stored. */
static void erase_download(second_state *state)
{
    state->downloads[place_of(state, state->half.bytes[1])].stored = false;
}

/* ------------------------------------------------------------------------
 * Cells
 * --------------------------------------------------------------------- */

/* "Reverse inverts the whole cell. Mixing then joins with memory: replace,
 * or, and, exclusive or." */
static uint8_t joined(const second_settings *settings, uint8_t old,
                      uint8_t dots)
{
    if (settings->reverse)
        dots = (uint8_t)~dots;
    switch (settings->mixing) {
    case 1:
        return old | dots;
    case 2:
        return old & dots;
    case 3:
        return old ^ dots;
    default:
        return dots;
    }
}

/* "If the cursor's row in memory is 0, the glyph has its 7 dots on top and a
 * blank dot below; on row 1 the blank is above"; "upper 7 bits used" */
static uint8_t placed(uint8_t glyph_column, unsigned memory_row)
{
    uint8_t dots = glyph_column & 0xFE;
    return memory_row == 0 ? dots : dots >> 1;
}

/* A cell's columns before enlargement; with w = 0 the last is not drawn. */
enum { CELL_COLUMNS = 7 };

static const uint8_t all_off[CELL_COLUMNS];

/* "w = 0 puts one blank column right; w = 1 one on each side." */
static void glyph_cell(const struct work *k, const uint8_t *glyph,
                       uint8_t cell[CELL_COLUMNS])
{
    memset(cell, 0, CELL_COLUMNS);
    for (unsigned i = 0; i < 5; i++)
        cell[k->state->settings.w + i] = placed(glyph[i], k->top + k->y);
}

/* "5 columns draw like a font glyph; 7 columns fill the cell without blanks,
 * all 8 dots tall, the left 6 only when w = 0" (order 2) */
static void download_cell(const struct work *k, const second_download *d,
                          uint8_t cell[CELL_COLUMNS])
{
    if (d->width == 5)
        glyph_cell(k, d->columns, cell);
    else
        memcpy(cell, d->columns, CELL_COLUMNS);
}

/* "5 columns for each code 20h to FFh, leftmost first"; with the switch on, a
 * code's download if it is stored */
static void character_cell(const struct work *k, uint8_t code,
                           uint8_t cell[CELL_COLUMNS])
{
    if (k->state->settings.own) {
        unsigned place = place_of(k->state, code);
        if (place < SECOND_DOWNLOADS) {
            download_cell(k, &k->state->downloads[place], cell);
            return;
        }
    }
    glyph_cell(k, k->font + 5 * (code - 0x20), cell);
}

/* The 8 dots of one row of a column enlarged twice: four dots, each twice. */
static uint8_t doubled(uint8_t dots, unsigned row)
{
    static const uint8_t twice[16] = {0x00, 0x03, 0x0C, 0x0F, 0x30, 0x33,
                                      0x3C, 0x3F, 0xC0, 0xC3, 0xCC, 0xCF,
                                      0xF0, 0xF3, 0xFC, 0xFF};
    return twice[row == 0 ? dots >> 4 : dots & 15];
}

/* "Enlargement repeats dots of the whole cell. .. Dots outside the range are
 * dropped." Written is "the cell inside the range". */
static void draw(struct work *k, const uint8_t cell[CELL_COLUMNS])
{
    const second_settings settings = k->state->settings;
    const unsigned L = k->L;
    const unsigned rows = k->y + L < k->H ? L : k->H - k->y;
    const unsigned end = k->x + k->c < k->W ? k->x + k->c : k->W;
    for (unsigned r = 0; r < rows; r++) {
        uint8_t *row = byte_at(k, 0, k->y + r);
        unsigned x = k->x;
        for (unsigned i = 0; x < end; i++) {
            uint8_t dots = L == 1 ? cell[i] : doubled(cell[i], r);
            for (unsigned e = 0; e < settings.x_enlarged && x < end; e++) {
                row[2 * x] = joined(&settings, row[2 * x], dots);
                x++;
            }
        }
    }
    mark_inside(k, k->x, k->y, k->c, L);
}

/* ------------------------------------------------------------------------
 * Moves
 * --------------------------------------------------------------------- */

/* "scroll the range up L rows, zero the lowest L"; written are "all rows of
 * the range for a scroll up" */
static void scroll_up(struct work *k)
{
    const unsigned W = k->W, H = k->H, L = k->L;
    for (unsigned y = 0; y < H; y++) {
        uint8_t *to = byte_at(k, 0, y);
        if (y + L < H)
            for (unsigned x = 0; x < W; x++)
                to[2 * x] = to[2 * x + L];
        else
            for (unsigned x = 0; x < W; x++)
                to[2 * x] = 0;
    }
    mark_inside(k, 0, 0, W, H);
}

/* "rows y to y + L − 1 inside the range move left by x + 2c − W columns,
 * zeros enter (all zeros if that is W or more)"; written is "the range's
 * full width on each row moved left" */
static void move_left(struct work *k, unsigned by)
{
    const unsigned W = k->W;
    const unsigned kept = by < W ? W - by : 0;
    for (unsigned y = k->y; y < k->y + k->L && y < k->H; y++) {
        uint8_t *row = byte_at(k, 0, y);
        for (unsigned x = 0; x < kept; x++)
            row[2 * x] = row[2 * (x + by)];
        for (unsigned x = kept; x < W; x++)
            row[2 * x] = 0;
    }
    mark_inside(k, 0, k->y, W, k->L);
}

/* "if y + 2L ≤ H" */
static bool has_room_below(const struct work *k)
{
    return k->y + 2 * k->L <= k->H;
}

/* "HT: if x + 2c ≤ W, x grows by c. Else MD1: if y + 2L ≤ H go to x 0, L rows
 * down; else to (0,0). MD2: same with room; else scroll the range up L rows,
 * zero the lowest L, cursor (0, H − L). MD3: rows .. move left by x + 2c − W
 * columns, .., x becomes W − c." */
static void move_ht(struct work *k)
{
    if (k->x + 2 * k->c <= k->W) {
        k->x += k->c;
    } else if (k->place->mode == 3) {
        move_left(k, k->x + 2 * k->c - k->W);
        k->x = k->W - k->c;
    } else if (has_room_below(k)) {
        k->x = 0;
        k->y += k->L;
    } else if (k->place->mode == 1) {
        k->x = 0;
        k->y = 0;
    } else {
        scroll_up(k);
        k->x = 0;
        k->y = k->H - k->L;
    }
}

/* "Character: if x + c ≤ W draw, HT. Else MD1 and MD2: draw an all-off cell
 * (reversed and mixed as any), HT, draw, HT. MD3: HT, draw, HT." */
static void move_character(struct work *k, uint8_t code)
{
    uint8_t cell[CELL_COLUMNS];
    if (k->x + k->c > k->W) {
        if (k->place->mode != 3)
            draw(k, all_off);
        move_ht(k);
    }
    character_cell(k, code, cell);
    draw(k, cell);
    move_ht(k);
}

/* "BS: if x ≥ c, x falls by c. Else in MD1 and MD2, if y ≥ L, L rows up and
 * x = W − c. Else no move." */
static void move_bs(struct work *k)
{
    if (k->x >= k->c) {
        k->x -= k->c;
    } else if (k->place->mode != 3 && k->y >= k->L) {
        k->y -= k->L;
        k->x = k->W - k->c;
    }
}

/* "LF: MD1: if y + 2L ≤ H, L rows down; else" "top row, left end" (order 1).
 * "MD2: with room the same; else scroll up L rows, zero the lowest L, no move.
 * MD3: nothing." */
static void move_lf(struct work *k)
{
    if (k->place->mode == 3)
        return;
    if (has_room_below(k)) {
        k->y += k->L;
    } else if (k->place->mode == 1) {
        k->x = 0;
        k->y = 0;
    } else {
        scroll_up(k);
    }
}

/* "HOM (0,0)." */
static void move_hom(struct work *k)
{
    k->x = 0;
    k->y = 0;
}

/* "CR x = 0." */
static void move_cr(struct work *k)
{
    k->x = 0;
}

/* "CLR zeroes the range, then HOM."; written is "the cleared range" */
static void move_clr(struct work *k)
{
    const unsigned W = k->W, H = k->H;
    for (unsigned y = 0; y < H; y++) {
        uint8_t *row = byte_at(k, 0, y);
        for (unsigned x = 0; x < W; x++)
            row[2 * x] = 0;
    }
    mark_inside(k, 0, 0, W, H);
    move_hom(k);
}

/* ------------------------------------------------------------------------
 * Image
 * --------------------------------------------------------------------- */

/* "Each byte passes reverse and mixing and is stored when it arrives; those
 * outside the range are consumed. The cursor stays."; written is "each stored
 * image byte" */
static void store_image_byte(second_state *state, uint8_t *memory,
                             uint8_t dots)
{
    struct work k = work_of(state, memory, NULL);
    unsigned x = k.x + state->half.column;
    unsigned y = k.y + state->half.row;
    if (x >= k.W || y >= k.H)
        return;
    uint8_t *byte = byte_at(&k, x, y);
    *byte = joined(&state->settings, *byte, dots);
    mark_inside(&k, x, y, 1, 1);
}

/* ------------------------------------------------------------------------
 * Commands read whole: their answers
 * --------------------------------------------------------------------- */

/* "14: not carried, read whole": "display actions, proportional widths"; "Rows
 * 14 of document 01 for [the downloads'] codes fall away" (order 2) */
static bool is_not_carried(const second_half *h)
{
    switch (h->command) {
    case COMMAND_ACTION_01:
    case COMMAND_ACTION_10:
    case COMMAND_ACTION_11:
    case COMMAND_ACTION_40:
        return true;
    case COMMAND_W: /* "2 and 3 answered 14" */
        return h->bytes[0] == 2 || h->bytes[0] == 3;
    default:
        return false;
    }
}

/* "While held, initialise, select, WINx, define or cancel, and write mode
 * are answered 15."; of the downloads "define and erase" too (order 2) */
static bool is_barred_while_held(const second_half *h)
{
    switch (h->command) {
    case COMMAND_INITIALISE:
    case COMMAND_SELECT: /* "WINx and 01h act alike." */
    case COMMAND_DEFINE:
    case COMMAND_CANCEL:
    case COMMAND_WRITE_MODE:
    case COMMAND_DOWNLOAD:
    case COMMAND_ERASE:
        return true;
    default:
        return false;
    }
}

/* "Cursor set counts from the window's top left, the base's being (0,0) of
 * memory in either mode; outside the window it is answered 11." */
static bool is_inside_window(const second_state *state, unsigned x,
                             unsigned y)
{
    if (state->selected == 0)
        return x < SECOND_COLUMNS && y < SECOND_ROWS;
    const second_window *window = &state->windows[state->selected - 1];
    return x < window->width && y < window->height;
}

/* "11: command read whole, a parameter out of its domain" */
static bool is_in_domain(const second_state *state)
{
    const second_half *h = &state->half;
    const uint8_t *p = h->bytes;
    switch (h->command) {
    case COMMAND_CHARSET:
        return is_charset(p[0]);
    case COMMAND_CODEPAGE:
        return is_codepage(p[0]);
    case COMMAND_CURSOR_SET:
        return is_inside_window(state, sixteen(p), sixteen(p + 2));
    case COMMAND_CURSOR_SHOWN:
    case COMMAND_REVERSE:
    case COMMAND_WRITE_MODE:
    case COMMAND_OWN:
        return is_switch(p[0]);
    case COMMAND_ERASE: /* "a of 1 and a code of 20h or more" (order 2) */
        return p[0] == 1 && is_code(p[1]);
    case COMMAND_BRIGHTNESS:
        return is_brightness(p[0]);
    case COMMAND_SPEED:
        return is_speed(p[0]);
    case COMMAND_MIXING:
        return is_mixing(p[0]);
    case COMMAND_W:
        return is_w(p[0]);
    case COMMAND_ENLARGE:
        return is_x_enlarged(p[0]) && is_y_enlarged(p[1]);
    case COMMAND_SELECT: /* "01h a select (0 to 4)" */
        return p[0] <= SECOND_WINDOWS;
    case COMMAND_DEFINE:
        return is_rectangle(sixteen(p), sixteen(p + 2), sixteen(p + 4),
                            sixteen(p + 6));
    default:
        return true;
    }
}

/* "16: a character, BS, HT or LF while the character cell exceeds the
 * range" */
static bool needs_the_cell(const second_half *h)
{
    return h->command == COMMAND_CHARACTER || h->command == COMMAND_BS ||
           h->command == COMMAND_HT || h->command == COMMAND_LF;
}

/* "'Too large' (16) is c > W or L > H." */
static bool is_too_large(const struct work *k)
{
    return k->c > k->W || k->L > k->H;
}

/* "Defining puts its cursor at its top left and its mode at MD1, and replaces
 * an older definition." */
static void define(second_state *state)
{
    const uint8_t *p = state->half.bytes;
    second_window *window = &state->windows[state->half.window - 1];
    window->defined = true;
    window->left = (uint16_t)sixteen(p);
    window->top = (uint16_t)sixteen(p + 2);
    window->width = (uint16_t)sixteen(p + 4);
    window->height = (uint16_t)sixteen(p + 6);
    window->place = (second_place){.x = 0, .y = 0, .mode = 1};
}

/* "Cancelling the current one selects the base; cancelling an undefined one
 * does nothing and counts as carried out." */
static void cancel(second_state *state)
{
    state->windows[state->half.window - 1] =
        (second_window){.defined = false};
    if (state->selected == state->half.window)
        state->selected = 0;
}

/* Cursor set, its parameters in their domain. */
static void set_cursor(second_state *state)
{
    second_place *place = current_place(state);
    place->x = (uint16_t)sixteen(state->half.bytes);
    place->y = (uint16_t)sixteen(state->half.bytes + 2);
}

/* The commands that only change a setting, the selection, a window or the
 * downloads. */
static void carry_out_setting(second_state *state)
{
    const uint8_t *p = state->half.bytes;
    second_settings *settings = &state->settings;
    switch (state->half.command) {
    case COMMAND_CHARSET:
        settings->charset = p[0];
        break;
    case COMMAND_CODEPAGE:
        settings->codepage = p[0];
        break;
    case COMMAND_MODE:
        current_place(state)->mode = p[0];
        break;
    case COMMAND_CURSOR_SET:
        set_cursor(state);
        break;
    case COMMAND_CURSOR_SHOWN:
        settings->cursor_shown = p[0];
        break;
    case COMMAND_BRIGHTNESS:
        settings->brightness = p[0];
        break;
    case COMMAND_REVERSE:
        settings->reverse = p[0];
        break;
    case COMMAND_SPEED:
        settings->speed = p[0];
        break;
    case COMMAND_MIXING:
        settings->mixing = p[0];
        break;
    case COMMAND_W:
        settings->w = p[0];
        break;
    case COMMAND_ENLARGE:
        settings->x_enlarged = p[0];
        settings->y_enlarged = p[1];
        break;
    case COMMAND_SELECT:
        state->selected = p[0];
        break;
    case COMMAND_DEFINE:
        define(state);
        break;
    case COMMAND_CANCEL:
        cancel(state);
        break;
    case COMMAND_WRITE_MODE:
        settings->write_mode = p[0];
        break;
    case COMMAND_OWN:
        settings->own = p[0];
        break;
    case COMMAND_ERASE:
        erase_download(state);
        break;
    default: /* COMMAND_IMAGE, COMMAND_DOWNLOAD: stored as their bytes came */
        break;
    }
}

/* The commands that work in the range: "16" or carried out. */
static unsigned answer_in_range(second_state *state, uint8_t *memory,
                                const uint8_t *font)
{
    struct work k = work_of(state, memory, font);
    if (needs_the_cell(&state->half) && is_too_large(&k))
        return SECOND_TOO_LARGE;
    switch (state->half.command) {
    case COMMAND_CHARACTER:
        move_character(&k, state->half.bytes[0]);
        break;
    case COMMAND_BS:
        move_bs(&k);
        break;
    case COMMAND_HT:
        move_ht(&k);
        break;
    case COMMAND_LF:
        move_lf(&k);
        break;
    case COMMAND_HOM:
        move_hom(&k);
        break;
    case COMMAND_CLR:
        move_clr(&k);
        break;
    default: /* COMMAND_CR */
        move_cr(&k);
        break;
    }
    put_cursor_back(&k);
    return SECOND_CARRIED_OUT;
}

/* "a define read to its end answers 18 exactly if one of its codes was
 * dropped" (order 2) */
static bool has_dropped(const second_half *h)
{
    return h->command == COMMAND_DOWNLOAD && h->dropped;
}

/* "Erasing an absent code: 19, tested after 15 and 11." (order 2) */
static bool erases_nothing(const second_state *state)
{
    return state->half.command == COMMAND_ERASE &&
           place_of(state, state->half.bytes[1]) == SECOND_DOWNLOADS;
}

/* "Order for one command: 12 and 13 while reading, then 14, 15, 11, 17,
 * 16."; 18 and 19 after 15 and 11 */
static unsigned answer_whole(second_state *state, uint8_t *memory,
                             const uint8_t *font)
{
    const second_half *h = &state->half;
    if (h->command <= COMMAND_CR) /* a character, BS, HT, LF, HOM, CLR, CR */
        return answer_in_range(state, memory, font);
    if (is_not_carried(h))
        return SECOND_NOT_CARRIED;
    if (state->held && is_barred_while_held(h))
        return SECOND_BARRED;
    if (!is_in_domain(state))
        return SECOND_OUT_OF_DOMAIN;
    if (h->command == COMMAND_SELECT && !can_be_selected(state, h->bytes[0]))
        return SECOND_SELECT_UNDEFINED;
    if (has_dropped(h))
        return SECOND_DROPPED;
    if (erases_nothing(state))
        return SECOND_NOT_STORED;
    if (h->command == COMMAND_INITIALISE)
        initialise(state, memory);
    else
        carry_out_setting(state);
    return SECOND_CARRIED_OUT;
}

/* A byte that is kept when it arrives. */
static void keep_byte(second_state *state, uint8_t *memory, uint8_t byte)
{
    if (state->half.phase == PHASE_DOWNLOAD_DATA)
        take_download_byte(state, byte);
    else
        store_image_byte(state, memory, byte);
}

/* The outcome of one byte, 9 to 19. */
static unsigned take_byte(second_state *state, uint8_t *memory,
                          const uint8_t *font, uint8_t byte)
{
    if (state->half.phase >= PHASE_DOWNLOAD_DATA)
        keep_byte(state, memory, byte);
    switch (read_byte(&state->half, byte)) {
    case READ_ON:
        return SECOND_UNFINISHED;
    case READ_CANCELLED:
        return SECOND_CANCELLED;
    case READ_UNKNOWN:
        return SECOND_UNKNOWN;
    default:
        return answer_whole(state, memory, font);
    }
}

/* ------------------------------------------------------------------------
 * The calls
 * --------------------------------------------------------------------- */

/* "Start: 1." "Start takes no state; refused, it gives the initial state with
 * both spans empty." */
unsigned second_start(second_state *state, uint8_t *memory,
                      size_t memory_length)
{
    if (memory_length != SECOND_MEMORY_BYTES) {
        second_initial(state);
        return SECOND_MEMORY_LENGTH;
    }
    initialise(state, memory);
    return SECOND_NOT_REFUSED;
}

/* "Feed: 1, 2, 8." "A feed takes the whole piece and gives two counts:
 * commands carried out, and commands answered 11 to 17. It also gives the
 * outcome of the piece's last byte: 9 when that byte finished nothing, when
 * the piece is empty or when the call is refused; 10 when it finished a
 * command that was carried out; else 11 to 17." "18 and 19 belong to the second
 * count." (order 2) */
unsigned second_feed(second_state *state, uint8_t *memory,
                     size_t memory_length, const uint8_t *font,
                     size_t font_length, const uint8_t *piece,
                     size_t piece_length, second_counts *counts)
{
    *counts = (second_counts){.outcome = SECOND_UNFINISHED};
    if (memory_length != SECOND_MEMORY_BYTES)
        return SECOND_MEMORY_LENGTH;
    if (font_length != SECOND_FONT_BYTES)
        return SECOND_FONT_LENGTH;
    if (!state_sound(state))
        return SECOND_BAD_STATE;
    for (size_t i = 0; i < piece_length; i++) {
        counts->outcome = take_byte(state, memory, font, piece[i]);
        if (counts->outcome == SECOND_CARRIED_OUT)
            counts->carried++;
        else if (counts->outcome != SECOND_UNFINISHED)
            counts->answered++;
    }
    return SECOND_NOT_REFUSED;
}

/* "Hold: 8, 6, 4, 5." "Hold k drops a half-read command (bytes already stored
 * stay; it is not counted), saves all settings and the selected window, and
 * selects k." */
unsigned second_hold(second_state *state, uint32_t window)
{
    if (!state_sound(state))
        return SECOND_BAD_STATE;
    if (state->held)
        return SECOND_ALREADY_HELD;
    if (window < 1 || window > SECOND_WINDOWS)
        return SECOND_NO_SUCH_WINDOW;
    if (!is_defined(state, window))
        return SECOND_WINDOW_UNDEFINED;
    state->half.phase = PHASE_NONE;
    state->held = true;
    state->held_window = (uint8_t)window;
    state->saved = state->settings;
    state->saved_selected = state->selected;
    state->selected = (uint8_t)window;
    return SECOND_NOT_REFUSED;
}

/* "Release: 8, 7." "Release drops a half-read command and puts the saved
 * settings and selection back; window k keeps its cursor and mode." */
unsigned second_release(second_state *state)
{
    if (!state_sound(state))
        return SECOND_BAD_STATE;
    if (!state->held)
        return SECOND_NOT_HELD;
    state->half.phase = PHASE_NONE;
    state->held = false;
    state->settings = state->saved;
    state->selected = state->saved_selected;
    return SECOND_NOT_REFUSED;
}

/* "Refresh copies each span's visible columns, changes no other glass byte,
 * empties [the span]": how many bytes it moved. */
static size_t refresh_row(second_span *span, unsigned row,
                          const uint8_t *memory, uint8_t *glass)
{
    size_t moved = 0;
    if (span->any)
        for (unsigned x = span->first;
             x <= span->last && x < SECOND_VISIBLE; x++) {
            glass[2 * x + row] = memory[2 * x + row];
            moved++;
        }
    span->any = false;
    return moved;
}

/* "Refresh: 1, 3, 8." It "reports the number of bytes moved, which is the sum
 * of the visible span lengths, 224 at most." */
unsigned second_refresh(second_state *state, const uint8_t *memory,
                        size_t memory_length, uint8_t *glass,
                        size_t glass_length, size_t *moved)
{
    *moved = 0;
    if (memory_length != SECOND_MEMORY_BYTES)
        return SECOND_MEMORY_LENGTH;
    if (glass_length != SECOND_GLASS_BYTES)
        return SECOND_GLASS_LENGTH;
    if (!state_sound(state))
        return SECOND_BAD_STATE;
    for (unsigned row = 0; row < SECOND_ROWS; row++)
        *moved += refresh_row(&state->spans[row], row, memory, glass);
    return SECOND_NOT_REFUSED;
}
