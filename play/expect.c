/* `= TEXT`: what the last command wrote is held to it. */
#include "run.h"

#include <stdio.h>
#include <string.h>

bool is_expectation(const char *text, size_t length, size_t *at)
{
    size_t i = 0;
    while (i < length && is_blank(text[i]))
        i++;
    if (i == length || text[i] != '=')
        return false;
    i++;
    if (i < length && !is_blank(text[i]) && text[i] != '#')
        return false;
    while (i < length && is_blank(text[i]))
        i++;
    *at = i;
    return true;
}

static size_t without_blanks(const char *text, size_t length)
{
    while (length > 0 && is_blank(text[length - 1]))
        length--;
    return length;
}

/* "the text of an `=` line is first held whole and then without what follows
 * its first `#`" */
static bool is_as_expected(const char *next, size_t next_length,
                           const char *text, size_t length)
{
    const char *mark = memchr(text, '#', length);
    size_t bare =
        mark == NULL ? length : without_blanks(text, (size_t)(mark - text));
    return (next_length == length && memcmp(next, text, length) == 0) ||
           (next_length == bare && memcmp(next, text, bare) == 0);
}

static void complain(struct run *run, const char *next, size_t next_length,
                     const char *text, size_t length)
{
    fflush(stdout);
    fprintf(stderr, "line %lu: wrote %.*s, expected %.*s\n", run->line.number,
            (int)next_length, next, (int)length, text);
    run->differs = true;
}

void expect(struct run *run, const char *text, size_t length)
{
    static const char nothing[] = "nothing";
    length = without_blanks(text, length);
    if (length == 0)
        fail(&run->line, "a text is missing");
    if (run->unheld)
        return;
    if (run->held_to == run->written.length) {
        complain(run, nothing, strlen(nothing), text, length);
        return;
    }
    const char *next = run->written.bytes + run->held_to;
    const char *end = memchr(next, '\n', run->written.length - run->held_to);
    size_t next_length = (size_t)(end - next);
    run->held_to += next_length + 1;
    if (!is_as_expected(next, next_length, text, length))
        complain(run, next, next_length, text, length);
}
