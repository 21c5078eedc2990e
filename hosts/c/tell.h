/* What the loop tells of, call by call: each of these is handed the answer to it, refused or not. A firmware leaves
   them out; this host prints a line of text (tell.c). */
#ifndef TELL_H
#define TELL_H

#include "panel.h"

void tell_setup(const struct panel *panel, uint64_t answer);

void tell_discover(const struct panel *panel, uint64_t answer);

void tell_turn(const struct panel *panel, uint64_t answer);

/* `count` bytes have come in, panel->received, in the wait that began with this answer. */
void tell_frame(const struct panel *panel, uint64_t wait, size_t count, uint64_t answer);

/* No answer came in this wait. The record at the position awaited was this one before. */
void tell_quiet(const struct panel *panel, uint64_t wait, struct nadrelgos_node before, uint64_t answer);

/* A request for the host, which ended this wait. */
void tell_request(const struct panel *panel, uint64_t wait);

/* The same, of shared data: a record to be stored, and one that was asked for. */
void tell_stored(const struct panel *panel, uint64_t wait, struct nadrelgos_storing stored);
void tell_served(const struct panel *panel, uint64_t wait, const struct served *served);

/* Who is listed. The loop does not ask for it. */
void tell_table(const struct panel *panel);

#endif
