/* A run: a script that is being played. */
#ifndef PLAY_RUN_H
#define PLAY_RUN_H

#include "line.h"
#include "world.h"

struct run {
    struct line line;    /* the one that is played */
    struct world world;
    struct text piece;   /* what it feeds or receives */
    struct text written; /* what the last command wrote */
    size_t held_to;      /* how much of that `=` lines have spoken of */
    bool differs;        /* an `=` line did not hold */
    bool silent;         /* answers are not written */
    bool unheld;         /* `=` lines are not held */
};

/* Plays the line's words, if it has any: commands.c. */
void play_words(struct run *run);

/* Is the text `= ..`? Its text then begins at *at: expect.c. */
bool is_expectation(const char *text, size_t length, size_t *at);

/* Holds the next line written to a text. */
void expect(struct run *run, const char *text, size_t length);

#endif
