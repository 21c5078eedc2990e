/* What disturbs an answer on its way. */
#ifndef NOISE_H
#define NOISE_H

#include "board.h"

/*
 * Writes what goes over the line for a frame: with the noise before and after it and the changed bytes that were
 * ordered for the board, which are then done. `bytes` has room for LINE_ROOM. Gives the count.
 */
size_t noise_around(struct faults *faults, uint64_t *chance, const struct answer *answer, uint8_t *bytes);

#endif
