/* The house: the boards, the line that they share, and what is due on it. */
#ifndef HOUSE_H
#define HOUSE_H

#include "board.h"
#include "ear.h"
#include "line.h"
#include "options.h"
#include "pace.h"
#include "terminal.h"

enum { HOUSE_BOARDS = 40 };

/* The orders' input: a line that is not complete yet. */
enum { ORDER_ROOM = 512 };

struct input {
    int descriptor; /* -1 after its end */
    char line[ORDER_ROOM];
    size_t count;
    bool too_long;
};

struct house {
    struct pace pace;
    struct terminal terminal;
    struct ear ear;
    struct line line;
    struct board *speaker; /* whose transmission is on the line, or NULL */
    bool speaks_request;   /* and whether it is a request */
    struct board boards[HOUSE_BOARDS];
    unsigned count;
    uint64_t seed;
    struct input input;
    bool ended;            /* by an order */
};

/* Puts the first three boards into the house, whose terminal is open. The furnace speaks 1.0. */
void house_start(struct house *house, const struct options *options);

/* A new board, unplugged and without power, that speaks 2.0; NULL where the house is full. */
struct board *house_add(struct house *house, const char *name, uint8_t kind, uint64_t mac);

/* The board of that name, or NULL. */
struct board *house_find(struct house *house, const char *name);

/* Bytes that came from the panel. */
void house_hear(struct house *house, const uint8_t *bytes, size_t count);

/* Does all that is due by now. */
void house_run(struct house *house);

/* When the next thing is due; never, where nothing is. */
uint64_t house_due(const struct house *house);

/* Noise on the line, from now on. */
void house_disturb(struct house *house, size_t count);

/* The board is about to lose the line or its power: what it sends ends here. */
void house_cut(struct house *house, const struct board *board);

#endif
