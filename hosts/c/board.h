/* A simulated board: who it is, and what it does with the messages to its address. */
#ifndef BOARD_H
#define BOARD_H

#include "line.h"
#include "scene.h"

/* The node types of the boards. */
enum { KIND_THERMOSTAT = 1, KIND_FURNACE = 2, KIND_AIR_HANDLER = 3, KIND_AIR_CONDITIONER = 4, KIND_CROSSOVER = 9 };

struct board {
    enum part part; /* in the scene */
    uint8_t kind;
    bool is_old;    /* it speaks 1.0 */
    uint64_t mac;
    uint64_t session;
    uint8_t address, subnet; /* 0 where it has none */
    bool powered;
    uint32_t heard;          /* when a message last came to its address, in seconds */
    unsigned messages;       /* how many were for it: offers, lists, forwards, returns, Get Node ID, Set Address */
    unsigned offers;         /* how many offers it answered */
    uint64_t drawn;          /* the last of its pseudorandom numbers */
};

/* What the board answers to a message to its address. */
void board_answer(struct board *board, struct line *line, const uint8_t *frame);

/* Puts a frame from the board on the line, by method 0. */
void board_say(const struct board *board, struct line *line, uint8_t type, const uint8_t *payload, size_t count);

#endif
