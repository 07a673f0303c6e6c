/* Text that grows. */
#include "text.h"

#include <stdarg.h>
#include <stdio.h>
#include <stdlib.h>
#include <string.h>

enum { APPENDED_MAX = 100 };

void out_of_store(void)
{
    fputs("out of store\n", stderr);
    exit(3);
}

static void make_room(struct text *text, size_t more)
{
    if (text->length + more < text->room)
        return;
    text->room = 2 * (text->length + more) + 256;
    text->bytes = realloc(text->bytes, text->room);
    if (text->bytes == NULL)
        out_of_store();
}

void append(struct text *text, const char *format, ...)
{
    va_list list;
    make_room(text, APPENDED_MAX + 1);
    va_start(list, format);
    text->length += (size_t)vsnprintf(text->bytes + text->length,
                                      APPENDED_MAX + 1, format, list);
    va_end(list);
}

void append_byte(struct text *text, char byte)
{
    append_times(text, byte, 1);
}

void append_times(struct text *text, char byte, size_t times)
{
    make_room(text, times);
    memset(text->bytes + text->length, byte, times);
    text->length += times;
}
