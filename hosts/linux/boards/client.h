/* How a board comes by its address and loses it: the AutoNet client (Networking Specification, 11.12 and 9.1.2; API
   Reference, 6.6 to 6.8). */
#ifndef CLIENT_H
#define CLIENT_H

#include "board.h"

/* It has heard Node Discovery: without an address, and where it is meant, it makes a new session and counts a slot
   delay. */
void client_discovered(struct board *board, const uint8_t *frame, uint64_t at);

/* Something is on the line: it holds back until the next Node Discovery. */
void client_hold_back(struct board *board);

/* The slot delay is over and the line was silent: type, MAC and session. */
void client_answer(struct board *board);

/* It has heard Set Address: where it is meant, it takes the address, and answers from there with the same payload. A
   1.0 board takes none in another subnet than its own. */
void client_take(struct board *board, const uint8_t *frame, uint64_t at);

/* It gives its ID: type, MAC and session. */
void client_identify(struct board *board);

/* When it gives up its address, where nothing comes to it until then. */
uint64_t client_forgotten(const struct board *board);

/* It gives up its address and its subnet. */
void client_give_up(struct board *board);

#endif
