/* The panel interpreter for C: five calls over memory that the caller lends, and
 * one that finds the telegrams of a link. The library keeps nothing between calls, allocates nothing, and never writes
 * outside what it is lent. It takes any bytes, any lengths and any state record.
 *
 * A pointer is valid for the length given with it (with length 0 it may be null);
 * what a call may write, a parameter without const, overlaps no other parameter.
 *
 * Link: `tools/archive panel_c` writes target/staticlib/libpanel_c.a (x86-64), and
 * `cc yours.c target/staticlib/libpanel_c.a` needs no other library. examples/
 * has a receiver. The numbers are document 01's; docs/RECORD.md has the record,
 * docs/MANUAL.md the commands. They are document 01's with document 02's orders 1
 * (LF in MD1 without room below goes to the range's top left), 2 (downloads) and
 * 4 (telegrams).
 *
 * Stack, on x86-64: a feed needs some 2,100 bytes, every other call below 1,000
 * (docs/MEASURED.md).
 */
#ifndef PANEL_H
#define PANEL_H

#include <stddef.h>
#include <stdint.h>

#ifdef __cplusplus
extern "C" {
#endif

/* Lengths, in bytes, of what is lent. */
#define PANEL_STATE 259   /* the state record */
#define PANEL_MEMORY 1024 /* display memory: column x, row y at 2x + y, bit 7 on top */
#define PANEL_FONT 1120   /* the font: 5 columns for each code 20h to FFh */
#define PANEL_GLASS 224   /* the glass: the visible columns, addressed as the memory */

/* Answers of a call. Unless a call says otherwise, one that is not answered
 * PANEL_OK changes nothing that it was lent, and its counts are 0. */
#define PANEL_OK 0
#define PANEL_MEMORY_LENGTH 1    /* memory is not PANEL_MEMORY bytes */
#define PANEL_FONT_LENGTH 2      /* font is not PANEL_FONT bytes */
#define PANEL_GLASS_LENGTH 3     /* glass is not PANEL_GLASS bytes */
#define PANEL_NO_SUCH_WINDOW 4   /* window to hold is not 1 to 4 */
#define PANEL_UNDEFINED_WINDOW 5 /* window to hold is not defined */
#define PANEL_HELD_ALREADY 6     /* hold while held */
#define PANEL_NOT_HELD 7         /* release while not held */
#define PANEL_BROKEN_STATE 8     /* the record is that of no state, or of one that breaks a bound */
#define PANEL_NO_SUCH_ADDRESS 20 /* our address is not 0 to 15 */
#define PANEL_NO_TELEGRAM 21     /* no place of the piece has a good telegram for us */
#define PANEL_RECORD_LENGTH 100  /* the record is not PANEL_STATE bytes; tested before all others */

/* Outcomes: what the last byte of a piece came to. */
#define PANEL_UNFINISHED 9     /* it finished nothing; also for an empty piece and a refused call */
#define PANEL_CARRIED 10       /* it finished a command that was carried out */
#define PANEL_OUT_OF_DOMAIN 11 /* a parameter out of its domain */
#define PANEL_CANCELLED 12     /* the command is cancelled at this byte */
#define PANEL_UNKNOWN 13       /* this byte makes the code unknown */
#define PANEL_NOT_CARRIED 14   /* a command that is read whole and not carried */
#define PANEL_WINDOW_HELD 15   /* refused because a window is held */
#define PANEL_TOO_LARGE 16     /* the character cell exceeds the range */
#define PANEL_NOT_DEFINED 17   /* select of an undefined window */
#define PANEL_DROPPED 18       /* a define of downloads, read to its end: 16 were stored, and a code was dropped */
#define PANEL_NOT_STORED 19    /* erase of a code that is not stored */

/* What a feed answers. */
typedef struct PanelFed {
    uint32_t answer;  /* PANEL_OK, 1, 2, 8 or 100 */
    uint32_t outcome; /* 9 to 19, of the last byte */
    size_t carried;   /* commands carried out */
    size_t answered;  /* commands answered 11 to 19 */
} PanelFed;

/* What a refresh answers. */
typedef struct PanelRefreshed {
    uint32_t answer; /* PANEL_OK, 1, 3, 8 or 100 */
    size_t moved;    /* bytes copied to the glass */
} PanelRefreshed;

/* What a receive answers. Places are counted from the piece's start, from 0. */
typedef struct PanelReceived {
    uint32_t answer; /* PANEL_OK, 20 or 21; with 20 and 21 all else is 0 */
    size_t first;    /* the place where the data begin */
    size_t count;    /* how many data bytes there are, 1 to 128 */
    size_t after;    /* the place after the telegram */
} PanelReceived;

/* Starts a panel: the initial state, the memory zeroed, all of it marked as written.
 * Answers PANEL_OK, 100, or 1.
 * Leaves, answered 1, the initial state with nothing marked, and the memory as it was. */
uint32_t panel_start(uint8_t *state, size_t state_length, uint8_t *memory, size_t memory_length);

/* Feeds a piece of the stream: any bytes, cut anywhere, one command's bytes over several pieces too.
 * Answers PANEL_OK, 100, 1, 2 or 8, with the counts and the last byte's outcome.
 * Leaves the state after the piece and the memory that its commands wrote. */
PanelFed panel_feed(uint8_t *state, size_t state_length, uint8_t *memory, size_t memory_length,
                    const uint8_t *font, size_t font_length, const uint8_t *piece, size_t piece_length);

/* Holds window 1 to 4: what is fed from now on changes no dot outside it, until the release.
 * Answers PANEL_OK, 100, 8, 6, 4 or 5.
 * Leaves a half-read command dropped, settings and selection saved, the window selected. */
uint32_t panel_hold(uint8_t *state, size_t state_length, size_t window);

/* Releases the held window.
 * Answers PANEL_OK, 100, 8 or 7.
 * Leaves a half-read command dropped, the saved settings and selection back. */
uint32_t panel_release(uint8_t *state, size_t state_length);

/* Brings the glass in step with the memory, by what was written since the last refresh.
 * Answers PANEL_OK, 100, 1, 3 or 8, with the number of bytes moved.
 * Leaves every other byte of the glass as it was, and nothing marked as written. */
PanelRefreshed panel_refresh(uint8_t *state, size_t state_length, const uint8_t *memory, size_t memory_length,
                             uint8_t *glass, size_t glass_length);

/* Finds the first good telegram for this address, or for all (FFh), in a received piece: 02h, address, length 01h to 80h, so
 * many data bytes, 03h, and the exclusive or of all bytes from 02h to 03h. A good one for another address is passed as a whole.
 * Answers PANEL_OK, 20 or 21, with the data's place in the piece and the place after the telegram, from which to read on.
 * Leaves everything as it was: the data are fed from where they lie, panel_feed(.., piece + first, count). */
PanelReceived panel_receive(const uint8_t *piece, size_t piece_length, size_t address);

#ifdef __cplusplus
}
#endif

#endif
