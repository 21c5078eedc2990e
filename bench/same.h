/* Whether the proved functions and the counterpart give the same. */
#ifndef SAME_H
#define SAME_H

#include "inputs.h"

/* What a join is told. */
struct ct_joiner {
    uint8_t kind;
    uint64_t mac, session;
    uint8_t version;
};

/* One step of the counterpart on a panel, in place; the answer is packed as the panel's face packs it. */
uint64_t step_counterpart(struct panel *p, uint8_t event, const struct ct_joiner *joiner, const uint8_t *received,
                          size_t count, uint8_t *out, size_t room);

/* Compares all that is timed, and a long random play; says where they differ. */
bool all_same(void);

#endif
