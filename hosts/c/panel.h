/* The loop that a firmware runs, and all that it needs. */
#ifndef PANEL_H
#define PANEL_H

#include "nadrelgos.h"
#include "port.h"
#include "shared.h"

/* What the panel is set up with, and how often it looks for boards. */
struct plan {
    const uint8_t *addresses;
    size_t addresses_count;
    uint8_t subnet, internal;
    uint64_t mac, session;
    uint32_t look_every; /* in seconds, 120 at most; after a board has joined it is done at the next chance */
};

/* In static storage, so that it starts as zeros, but for the plan and the images of shared data that it is lent. */
struct panel {
    struct nadrelgos_coordinator coordinator;
    struct nadrelgos_node nodes[NADRELGOS_NODES];
    uint8_t out[NADRELGOS_ROOM];
    uint8_t received[NADRELGOS_ROOM];
    struct plan plan;
    uint32_t look; /* when to look for boards again, in seconds */
    struct shared shared;
};

/* The fresh start. Whether the plan was taken. */
bool panel_set_up(struct panel *panel);

/* One turn, and what the host does between two turns: a firmware calls it for ever. Records that are not fit, as zeros
   are, get a fresh start. Whether the panel goes on: it does, where the plan is taken. */
bool panel_go_round(struct panel *panel, const struct port *port);

#endif
