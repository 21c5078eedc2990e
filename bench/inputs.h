/* What is timed: frames, captures, panels. */
#ifndef INPUTS_H
#define INPUTS_H

#include "proved.h"

enum { CAPTURE = 4096 };

/* The subnet of the frames. */
enum { SUBNET = 3 };

/* Numbers that look random and are the same in every run. */
uint64_t next_random(uint64_t *seed);

/* A frame of `length` payload bytes at the front of out; its length. */
size_t make_frame(size_t length, uint8_t *out);

/* The ACK of the board at a position. */
size_t make_ack(const ct_coordinator *c, const ct_node *nodes, size_t position, uint8_t *out);

/* A capture; what is given is the subnet in which it is to be read. */

/* Good frames with noise between. */
uint8_t make_typical(uint8_t capture[CAPTURE]);

/* Good frames one right after another, as on a line without noise. */
uint8_t make_quiet(uint8_t capture[CAPTURE]);

/* No good frame, and at every start a candidate of the longest length. */
uint8_t make_worst(uint8_t capture[CAPTURE]);

struct panel {
    struct nadrelgos_coordinator coordinator;
    struct nadrelgos_node nodes[NADRELGOS_NODES];
};

/* A panel with k = 40 and so many boards, all of 2.0, resting, to none of which a list is owed, that offered the bus to
   `last`. */
void make_panel(struct panel *p, size_t boards, size_t last);

/* The list is owed to the board at a position, which is of this version. */
void owe_list(struct panel *p, size_t position, uint8_t version);

#endif
