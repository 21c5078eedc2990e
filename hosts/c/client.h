/* How a simulated board comes by its address: the AutoNet client (Networking Specification, 11.12; API Reference, 6.6
   to 6.8). */
#ifndef CLIENT_H
#define CLIENT_H

#include "board.h"

/* A board without an address has heard Node Discovery: it makes a new session. Its slot delay, in milliseconds. */
unsigned client_delay(struct board *board);

/* The slot delay is over and the line was silent: it answers type, MAC and session. */
void client_answer(const struct board *board, struct line *line);

/* It takes the address, and answers from there with the same payload. A 1.0 board takes none in another subnet than its
   own. */
void client_take(struct board *board, struct line *line, const uint8_t *frame);

/* It gives its ID: type, MAC and session. */
void client_identify(const struct board *board, struct line *line);

#endif
