/* What the boards hear from the panel: frames out of its bytes. */
#ifndef EAR_H
#define EAR_H

#include "wire.h"

struct ear {
    uint8_t bytes[WIRE_MOST]; /* heard, and not yet a frame */
    size_t count;
    uint64_t last;            /* when the last of them came */
    uint64_t silence;         /* so long without a byte, and no frame goes on */
};

/* `faster` as the line's time is. */
void ear_start(struct ear *ear, unsigned faster);

void ear_take(struct ear *ear, uint8_t byte, uint64_t at);

/*
 * Takes a good frame out of what was heard, `frame` with room for WIRE_MOST bytes, and gives its length; 0 where there
 * is none or where it may still be incomplete. After a `silence` nothing is incomplete. After each byte it is asked
 * until it gives 0: then there is room for the next one.
 */
size_t ear_frame(struct ear *ear, bool silence, uint8_t *frame);

/* When the silence is over that ends what was heard; never, where nothing was. */
uint64_t ear_due(const struct ear *ear);

#endif
