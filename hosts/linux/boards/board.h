/* A simulated board: who it is, what it remembers, and what it does with the messages to its address. */
#ifndef BOARD_H
#define BOARD_H

#include "wire.h"

/* A type of board that acknowledges a request before it answers. */
enum { FURNACE = 2 };

enum { BOARD_NAME = 16, BOARD_ANSWERS = 2, BOARD_REQUESTS = 4, REQUEST_MOST = 32 };

/* A request that waits for an offer. */
struct request {
    uint8_t type, method, parameter;
    uint8_t payload[REQUEST_MOST];
    size_t count;
};

/* A frame that waits for its time on the line. */
struct answer {
    uint8_t frame[WIRE_MOST];
    size_t count;
    bool is_request;
};

/* What a board loses with its power. */
struct memory {
    uint64_t session;
    uint8_t address, subnet; /* 0 where it has none */
    uint64_t heard;          /* when a message last came to its address */
    bool met;                /* it has seen an offer, from this panel in this session: */
    uint64_t panel_mac, panel_session;
    bool in_slot;            /* it counts its slot delay, until then: */
    uint64_t slot;
    struct answer answers[BOARD_ANSWERS];
    unsigned answers_waiting;
    uint64_t due;            /* when the first of them may begin */
    struct request requests[BOARD_REQUESTS];
    unsigned requests_waiting;
};

/* What orders do to the board's messages: how many do not reach it, the noise around and in its next answer, and how many
   of its answers another system's board gives. */
struct faults {
    unsigned deaf, before, after, inside, elsewhere;
};

struct board {
    char name[BOARD_NAME];
    uint8_t kind;
    uint64_t mac;
    bool is_old;     /* it speaks 1.0 */
    uint64_t chance; /* its pseudorandom numbers */
    bool plugged, powered;
    struct memory now;
    struct faults faults;
};

/* Power comes: it remembers nothing, and has a new session. Power goes. */
void board_power_up(struct board *board);
void board_power_off(struct board *board);

/* A session that it did not have before (Networking Specification, 11.9). */
void board_new_session(struct board *board);

/* A frame of the panel that the board hears. */
void board_hear(struct board *board, const uint8_t *frame, uint64_t at);

/* One more request waits for an offer; false where there is no room. */
bool board_wish(struct board *board, const struct request *request);

/* One more frame waits for its time on the line. */
void board_say(struct board *board, uint8_t type, const uint8_t *payload, size_t count);

/* The first frame that waits leaves. There is one. */
void board_next_answer(struct board *board, struct answer *answer);

/* When the board does something by itself, on a line that is free from then on: never, where it is busy. */
uint64_t board_due(const struct board *board, uint64_t free);

#endif
