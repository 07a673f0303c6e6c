/* Plays a script (docs/SCRIPTS.md) on the panel that it is linked with, over
 * the calls of include/panel.h. The script is read on standard input.
 *   play              writes what each call answers
 *   play calls OUT    writes to OUT the calls as bytes, and what crates/replay
 *                     is to write when it plays them
 *   play glass FONT   writes the glass at the script's end, 224 bytes, and a
 *                     line with how much was played: its world begins with the
 *                     font of 1,120 bytes in FONT; `=` lines are not held
 * The status is 0; 1 if an `=` line does not hold; 2 if a line can't be read;
 * 3 if anything else is wrong. */
#include "run.h"

#include <stdio.h>
#include <stdlib.h>
#include <string.h>

static _Noreturn void die(const char *name, const char *what)
{
    fprintf(stderr, "%s: %s\n", name, what);
    exit(3);
}

/* The next line without its end; false when there is none. */
static bool read_line(struct text *text)
{
    int c;
    text->length = 0;
    while ((c = getchar()) != EOF && c != '\n')
        append_byte(text, (char)c);
    return c != EOF || text->length > 0;
}

static void play_line(struct run *run, const char *text, size_t length)
{
    size_t at;
    if (length > 0 && text[length - 1] == '\r')
        length--;
    if (is_expectation(text, length, &at)) {
        expect(run, text + at, length - at);
        return;
    }
    split(&run->line, text, length);
    play_words(run);
}

static void play_all(struct run *run)
{
    struct text text = {NULL, 0, 0};
    while (read_line(&text)) {
        run->line.number++;
        play_line(run, text.bytes, text.length);
    }
    if (ferror(stdin))
        die("standard input", "can't be read");
    free(text.bytes);
}

/* The font in a file, in place of the fixed one. */
static void read_font(struct world *w, const char *name)
{
    FILE *file = fopen(name, "rb");
    if (file == NULL)
        die(name, "can't be opened");
    size_t length = fread(w->font, 1, PANEL_FONT, file);
    if (length != PANEL_FONT || getc(file) != EOF)
        die(name, "not a font of 1120 bytes");
    fclose(file);
}

static void write_glass(const struct run *run)
{
    fwrite(run->world.glass, 1, PANEL_GLASS, stdout);
    printf("%lu lines of the script played\n", run->line.number);
}

static void write_calls(const struct calls *calls, const char *name)
{
    FILE *file = fopen(name, "wb");
    if (file == NULL)
        die(name, "can't be opened");
    fwrite(calls->bytes.bytes, 1, calls->bytes.length, file);
    if (ferror(file) | fclose(file))
        die(name, "can't be written");
    printf("%lu calls played, no difference\n", calls->count);
}

int main(int argc, char **argv)
{
    static struct run run;
    const bool calls = argc == 3 && strcmp(argv[1], "calls") == 0;
    const bool glass = argc == 3 && strcmp(argv[1], "glass") == 0;
    if (argc != 1 && !calls && !glass)
        die("usage", "play [calls OUT | glass FONT] <SCRIPT");
    run.world.calls.wanted = calls;
    run.silent = calls || glass;
    run.unheld = glass;
    new_world(&run.world);
    if (glass)
        read_font(&run.world, argv[2]);
    play_all(&run);
    if (glass)
        write_glass(&run);
    if (calls)
        write_calls(&run.world.calls, argv[2]);
    free(run.line.words);
    free(run.piece.bytes);
    free(run.written.bytes);
    free(run.world.calls.bytes.bytes);
    if (fflush(stdout) != 0)
        die("standard output", "can't be written");
    return run.differs ? 1 : 0;
}
