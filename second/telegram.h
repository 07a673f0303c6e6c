/* The second program's reader of telegrams.
 *
 * Written from order 4 of document 02 and source document 000, 3.6.2, alone.
 * It has no state and changes nothing: a piece goes in, places in it come
 * out. */
#ifndef SECOND_TELEGRAM_H
#define SECOND_TELEGRAM_H

#include <stddef.h>
#include <stdint.h>

/* What a receive answers. */
enum {
    SECOND_RECEIVED = 0,
    SECOND_NO_SUCH_ADDRESS = 20,
    SECOND_NO_TELEGRAM = 21
};

/* "hand its data back as the caller's own bytes, with the place after it":
 * places of the piece, from 0. */
typedef struct {
    size_t first; /* where the data begin */
    size_t count; /* how many they are */
    size_t after; /* the place after the telegram */
} second_part;

/* The first good telegram for this address or for all. The address is any
 * number; it is never cut to a byte. */
unsigned second_receive(const uint8_t *piece, size_t length, size_t address,
                        second_part *part);

#endif
