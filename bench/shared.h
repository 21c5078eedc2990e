/* Shared data at work: the proved functions and the counterpart's, on the same two images. */
#ifndef SHARED_H
#define SHARED_H

#include "work.h"

/* Sectors of both images, which have no free slot: one in the last slot of the network's copy, one in neither. */
enum { SECTOR_LAST = NADRELGOS_SLOTS, SECTOR_NONE = 0 };

/* Makes the images, and names the sector that the jobs look up or store. */
void make_shared(uint8_t sector);

job hold_proved, hold_counterpart, store_proved, store_counterpart;

#endif
