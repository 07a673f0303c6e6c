/* The second program's reader of telegrams. The words in quotes are those of
 * order 4 of document 02. */
#include "telegram.h"

#include <stdbool.h>

/* "02h, address, length 01h to 80h, that many data bytes, 03h, then the
 * exclusive or of all bytes from 02h to 03h" */
enum {
    HEADER = 0x02,
    FOOTER = 0x03,
    DATA_MOST = 0x80,
    AT_ADDRESS = 1,
    AT_LENGTH = 2,
    AT_DATA = 3,
    BEHIND_DATA = 2 /* the footer and the check byte */
};

/* "our address 0 to 15", "ours or FFh" */
enum { ADDRESS_MOST = 15, ADDRESS_OF_ALL = 0xFF };

/* "the exclusive or of all bytes" */
static uint8_t exclusive_or(const uint8_t *from, size_t count)
{
    uint8_t sum = 0;
    for (size_t i = 0; i < count; i++)
        sum ^= from[i];
    return sum;
}

/* How many bytes the good telegram has that begins here, 0 if none does.
 * `rest` bytes of the piece are left: what they cut off is not good. */
static size_t good_telegram(const uint8_t *from, size_t rest)
{
    if (rest < AT_DATA || from[0] != HEADER)
        return 0;
    size_t count = from[AT_LENGTH];
    size_t whole = AT_DATA + count + BEHIND_DATA;
    if (count < 1 || count > DATA_MOST || rest < whole)
        return 0;
    const uint8_t *behind = from + AT_DATA + count;
    bool good = behind[0] == FOOTER &&
                behind[1] == exclusive_or(from, whole - 1);
    return good ? whole : 0;
}

/* "ours or FFh" */
static bool is_for(const uint8_t *telegram, size_t address)
{
    return telegram[AT_ADDRESS] == address ||
           telegram[AT_ADDRESS] == ADDRESS_OF_ALL;
}

/* "find the first place from which a good telegram can be read, ours or FFh";
 * "Answer 21 exactly if no place in the piece has one"; "With 20 or 21 the
 * part handed back is empty and the place is 0; 20 is tested first." */
unsigned second_receive(const uint8_t *piece, size_t length, size_t address,
                        second_part *part)
{
    size_t at = 0;
    *part = (second_part){0, 0, 0};
    if (address > ADDRESS_MOST)
        return SECOND_NO_SUCH_ADDRESS;
    while (at < length) {
        size_t whole = good_telegram(piece + at, length - at);
        if (whole > 0 && is_for(piece + at, address)) {
            *part = (second_part){at + AT_DATA, piece[at + AT_LENGTH],
                                  at + whole};
            return SECOND_RECEIVED;
        }
        /* "A good telegram for another address is passed as a whole and its
         * inside not searched"; the next place otherwise. */
        at += whole > 0 ? whole : 1;
    }
    return SECOND_NO_TELEGRAM;
}
