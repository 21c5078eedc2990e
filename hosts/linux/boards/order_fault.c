/* Orders about what goes wrong on the line. */
#include "order.h"
#include "tell.h"

#include <string.h>

enum { DEAF_MOST = 1000000, ELSEWHERE_MOST = 1000000 };

void order_deaf(struct house *house, const struct order *order) {
    struct board *board = order_board(house, order->words[1]);
    unsigned count;
    if (!board || !order_number("COUNT", order->words[2], 0, DEAF_MOST, &count)) return;
    board->faults.deaf = count;
    tell("ok %s does not hear the next %u messages to it", board->name, count);
}

void order_elsewhere(struct house *house, const struct order *order) {
    struct board *board = order_board(house, order->words[1]);
    unsigned count;
    if (!board || !order_number("COUNT", order->words[2], 0, ELSEWHERE_MOST, &count)) return;
    board->faults.elsewhere = count;
    tell("ok another system's board gives the next %u answers of %s", count, board->name);
}

static void noise_now(struct house *house, const char *word) {
    unsigned count;
    if (!order_number("COUNT", word, 1, NOISE_MOST, &count)) return;
    if (house->line.noise + count > NOISE_MOST) {
        tell("no: there is noise on the line already");
        return;
    }
    house_disturb(house, count);
    tell("ok %u bytes of noise are on the line", count);
}

/* Where in the next answer: before it, after it, inside it; NULL where the word is none of these. */
static unsigned *place_of(struct faults *faults, const char *word) {
    if (strcmp(word, "before") == 0) return &faults->before;
    if (strcmp(word, "after") == 0) return &faults->after;
    if (strcmp(word, "inside") == 0) return &faults->inside;
    return NULL;
}

void order_noise(struct house *house, const struct order *order) {
    if (order->count == 2) {
        noise_now(house, order->words[1]);
        return;
    }
    if (order->count != 4) {
        tell("no: the order is noise COUNT, or noise NAME before|after|inside COUNT");
        return;
    }
    struct board *board = order_board(house, order->words[1]);
    if (!board) return;
    unsigned *place = place_of(&board->faults, order->words[2]);
    unsigned count;
    if (!place)
        tell("no: noise is before, after or inside, and not %.20s", order->words[2]);
    else if (order_number("COUNT", order->words[3], 1, NOISE_AROUND, &count)) {
        *place = count;
        tell("ok %u bytes of noise %s the next answer of %s", count, order->words[2], board->name);
    }
}
