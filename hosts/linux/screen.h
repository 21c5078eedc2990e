/* The screen: who is listed, what goes on, what was counted and what happened last, drawn again in place. */
#ifndef SCREEN_H
#define SCREEN_H

#include "counts.h"
#include "event.h"
#include "options.h"
#include "pace.h"
#include "panel.h"

enum { SCREEN_LINES = 40, SCREEN_WIDE = 160 };

struct line {
    uint64_t at;
    char text[SCREEN_WIDE];
};

struct screen {
    const struct options *options;
    const struct panel *panel;
    const struct counts *counts;
    const struct pace *pace;
    uint64_t heard[NADRELGOS_NODES]; /* when the board at each position was last heard */
    uint64_t wait, since;            /* the answer by which the panel waits, and since when */
    bool is_lost;                    /* the device is */
    struct line lines[SCREEN_LINES]; /* the last of what happened: the n-th stands at n modulo their count */
    unsigned long happened;
    bool is_obeyed;      /* a note came: the order that was typed is done */
    unsigned rows;       /* how many the terminal had */
    uint64_t due, drawn; /* when to draw it again, and when it was drawn */
};

void screen_begin(struct screen *screen, const struct options *options, const struct panel *panel,
                  const struct counts *counts, const struct pace *pace);

/* A frame was sent, by this answer; a board was heard; anything has happened. */
void screen_sent(struct screen *screen, uint64_t wait, uint64_t at);
void screen_heard(struct screen *screen, unsigned position, uint64_t at);
void screen_note(struct screen *screen, const struct event *event);

/* Draws it where it is time. */
void screen_refresh(struct screen *screen);

/* The terminal as it was. */
void screen_end(struct screen *screen);

#endif
