/* The dot panel's command interpreter, the second program.
 *
 * Written from document 01 ("this paper" below) and orders 1 and 2 of document
 * 02 alone. Every call answers the number of its refusal, 0 if it is not refused.
 * A refused call changes nothing lent and nothing in the state, and every count
 * it gives back is 0.
 */
#ifndef SECOND_PANEL_H
#define SECOND_PANEL_H

#include <stdbool.h>
#include <stddef.h>
#include <stdint.h>

enum {
    SECOND_MEMORY_BYTES = 1024,
    SECOND_FONT_BYTES = 1120,
    SECOND_GLASS_BYTES = 224,
    SECOND_COLUMNS = 512,
    SECOND_ROWS = 2,
    SECOND_VISIBLE = 112,
    SECOND_WINDOWS = 4,
    SECOND_DOWNLOADS = 16,
    SECOND_DOWNLOAD_COLUMNS = 7 /* at most */
};

/* "Refused calls" */
enum {
    SECOND_NOT_REFUSED = 0,
    SECOND_MEMORY_LENGTH = 1,
    SECOND_FONT_LENGTH = 2,
    SECOND_GLASS_LENGTH = 3,
    SECOND_NO_SUCH_WINDOW = 4,
    SECOND_WINDOW_UNDEFINED = 5,
    SECOND_ALREADY_HELD = 6,
    SECOND_NOT_HELD = 7,
    SECOND_BAD_STATE = 8
};

/* "Outcomes in the stream" */
enum {
    SECOND_UNFINISHED = 9,
    SECOND_CARRIED_OUT = 10,
    SECOND_OUT_OF_DOMAIN = 11,
    SECOND_CANCELLED = 12,
    SECOND_UNKNOWN = 13,
    SECOND_NOT_CARRIED = 14,
    SECOND_BARRED = 15,
    SECOND_TOO_LARGE = 16,
    SECOND_SELECT_UNDEFINED = 17,
    SECOND_DROPPED = 18,
    SECOND_NOT_STORED = 19
};

/* "Each window has its own cursor and mode": counted from the window's top
 * left; the mode is 1, 2 or 3. */
typedef struct {
    uint16_t x, y;
    uint8_t mode;
} second_place;

/* A user window; the other members mean nothing unless it is defined. */
typedef struct {
    bool defined;
    uint16_t left, top, width, height;
    second_place place;
} second_window;

/* The settings, each named here with the command that sets it. */
typedef struct {
    uint8_t charset;      /* 1Bh 52h */
    uint8_t codepage;     /* 1Bh 74h */
    uint8_t cursor_shown; /* 1Fh 43h */
    uint8_t brightness;   /* 1Fh 58h */
    uint8_t reverse;      /* 1Fh 72h */
    uint8_t speed;        /* 1Fh 73h */
    uint8_t mixing;       /* 1Fh 77h */
    uint8_t w;            /* 1Fh 28h 67h 03h */
    uint8_t x_enlarged;   /* 1Fh 28h 67h 40h, its first parameter */
    uint8_t y_enlarged;   /* and its second */
    uint8_t write_mode;   /* 1Fh 28h 77h 10h */
    uint8_t own;          /* 1Bh 25h: stored downloads are drawn */
} second_settings;

/* A place for a download; the other members mean nothing unless it is
 * stored. */
typedef struct {
    bool stored;
    uint8_t code;
    uint8_t width; /* 5 or 7 columns, leftmost first */
    uint8_t columns[SECOND_DOWNLOAD_COLUMNS];
} second_download;

/* "For each row a span holds the first and last column written since the
 * last refresh, or nothing." */
typedef struct {
    bool any;
    uint16_t first, last;
} second_span;

/* A half-read command: what is awaited next, and what was gathered so far.
 * The numbers of `phase` and `command` are panel.c's own; phase 0 is "no
 * command is half read". Which members have a meaning depends on the phase. */
typedef struct {
    uint8_t phase;
    uint8_t command;         /* whose parameter bytes are gathered */
    uint8_t got;             /* how many of them, or of a download's columns,
                              * have arrived */
    uint8_t window;          /* define or cancel: a */
    uint8_t bytes[8];        /* the parameter bytes */
    uint8_t first, last;     /* download: c1 and c2 */
    bool dropped;            /* download: a code before this one was dropped */
    second_download coming;  /* download: this code's, without `stored` */
    uint16_t width, height;  /* image: x size and y size */
    uint16_t column, row;    /* image: the place of the next byte in it */
} second_half;

typedef struct {
    second_place base;
    second_window windows[SECOND_WINDOWS]; /* user window k at k - 1 */
    uint8_t selected;                      /* 0 is the base */
    second_settings settings;
    bool held;
    uint8_t held_window;       /* these three mean nothing unless held */
    uint8_t saved_selected;
    second_settings saved;
    second_span spans[SECOND_ROWS];
    second_half half;
    second_download downloads[SECOND_DOWNLOADS];
} second_state;

/* What a feed gives back beside its number. */
typedef struct {
    size_t carried;
    size_t answered;
    unsigned outcome;
} second_counts;

unsigned second_start(second_state *state, uint8_t *memory,
                      size_t memory_length);

unsigned second_feed(second_state *state, uint8_t *memory,
                     size_t memory_length, const uint8_t *font,
                     size_t font_length, const uint8_t *piece,
                     size_t piece_length, second_counts *counts);

unsigned second_hold(second_state *state, uint32_t window);

unsigned second_release(second_state *state);

unsigned second_refresh(second_state *state, const uint8_t *memory,
                        size_t memory_length, uint8_t *glass,
                        size_t glass_length, size_t *moved);

#endif
