/* Text that grows, and bytes that do. */
#ifndef PLAY_TEXT_H
#define PLAY_TEXT_H

#include <stddef.h>

struct text {
    char *bytes;
    size_t length, room;
};

_Noreturn void out_of_store(void);

/* At most 100 bytes at a time. */
void append(struct text *text, const char *format, ...);

void append_byte(struct text *text, char byte);

/* A byte so many times. */
void append_times(struct text *text, char byte, size_t times);

#endif
