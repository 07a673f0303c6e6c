/* The places of docs/RECORD.md's record: one list for the player, the second
 * program and the comparison. */
#ifndef PLAY_PLACES_H
#define PLAY_PLACES_H

enum {
    RECORD_WINDOWS = 4,
    RECORD_ROWS = 2,
    RECORD_DOWNLOADS = 16,
    RECORD_COLUMNS = 7 /* of a download */
};

/* From AT_SETTINGS or AT_SAVED on. */
enum {
    SET_CHARSET,
    SET_CODEPAGE,
    SET_CURSOR_SHOWN,
    SET_BRIGHTNESS,
    SET_SPEED,
    SET_W,
    SET_WRITE_MODE,
    SET_OWN,
    SET_REVERSE,
    SET_MIXING,
    SET_X_ENLARGED,
    SET_Y_ENLARGED,
    SETTINGS_BYTES
};

/* A cursor and its mode, from its start. */
enum { PLACE_X = 0, PLACE_Y = 2, PLACE_MODE = 4, PLACE_BYTES };

/* From a user window's start. */
enum {
    WINDOW_LEFT = 0,
    WINDOW_TOP = 2,
    WINDOW_WIDTH = 4,
    WINDOW_HEIGHT = 6,
    WINDOW_PLACE = 8,
    WINDOW_BYTES = WINDOW_PLACE + PLACE_BYTES
};

/* From the start of what is half read. */
enum {
    HALF_CASE = 0,
    HALF_A,
    HALF_B,
    HALF_C,
    HALF_D,
    HALF_P = 5,
    HALF_Q = 7,
    HALF_R = 9,
    HALF_S = 11,
    HALF_IN_ALL = 13, /* a download's columns: how many it has, */
    HALF_COME,        /* how many have come, */
    HALF_COLUMNS,     /* and they */
    HALF_BYTES = HALF_COLUMNS + RECORD_COLUMNS
};

/* From a span's start. */
enum { SPAN_FIRST = 0, SPAN_END = 2, SPAN_BYTES = 4 };

/* From the start of a place of the downloads. */
enum {
    DOWNLOAD_CODE = 0,
    DOWNLOAD_WIDTH,
    DOWNLOAD_COLUMNS,
    DOWNLOAD_BYTES = DOWNLOAD_COLUMNS + RECORD_COLUMNS
};

enum {
    AT_SETTINGS = 0,
    AT_WINDOWS = AT_SETTINGS + SETTINGS_BYTES,
    AT_BASE = AT_WINDOWS + RECORD_WINDOWS * WINDOW_BYTES,
    AT_SELECTED = AT_BASE + PLACE_BYTES,
    AT_HELD,
    AT_HELD_WINDOW,
    AT_SAVED_SELECTED,
    AT_SAVED,
    AT_HALF = AT_SAVED + SETTINGS_BYTES,
    AT_SPANS = AT_HALF + HALF_BYTES,
    AT_DOWNLOADS = AT_SPANS + RECORD_ROWS * SPAN_BYTES,
    RECORD_BYTES = AT_DOWNLOADS + RECORD_DOWNLOADS * DOWNLOAD_BYTES
};

/* The page's own numbers. */
_Static_assert(AT_WINDOWS == 12 && AT_BASE == 64 && AT_SELECTED == 69, "");
_Static_assert(AT_SAVED == 73 && AT_HALF == 85 && AT_SPANS == 107, "");
_Static_assert(AT_DOWNLOADS == 115 && RECORD_BYTES == 259, "");

#endif
