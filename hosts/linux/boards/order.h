/* An order: its words, and what each order does. Each answers by one line, `ok` or `no:`. */
#ifndef ORDER_H
#define ORDER_H

#include "house.h"

enum { ORDER_WORDS = 5 };

struct order {
    const char *words[ORDER_WORDS]; /* the first of them */
    unsigned count;                 /* of all */
    const char *from[ORDER_WORDS];  /* the line from each of them on, as it was written */
};

void order_plug(struct house *house, const struct order *order);
void order_unplug(struct house *house, const struct order *order);
void order_power(struct house *house, const struct order *order);
void order_jumper(struct house *house, const struct order *order);
void order_version(struct house *house, const struct order *order);
void order_deaf(struct house *house, const struct order *order);
void order_elsewhere(struct house *house, const struct order *order);
void order_noise(struct house *house, const struct order *order);
void order_heat(struct house *house, const struct order *order);
void order_display(struct house *house, const struct order *order);
void order_fault(struct house *house, const struct order *order);
void order_store(struct house *house, const struct order *order);
void order_fetch(struct house *house, const struct order *order);
void order_boards(struct house *house, const struct order *order);

/* The board of that name. NULL where there is none, which is then answered. */
struct board *order_board(struct house *house, const char *name);

/* A number from least to most. False where it is none, which is then answered. */
bool order_number(const char *what, const char *word, unsigned least, unsigned most, unsigned *number);

#endif
