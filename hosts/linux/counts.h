/* How often what has happened. */
#ifndef COUNTS_H
#define COUNTS_H

#include <stdint.h>

/* The numbers by which steps are refused are below this one. */
enum { REFUSALS = 26 };

struct counts {
    unsigned long offers, carried, misses, drops, joins;
    unsigned long refused[REFUSALS];
    uint64_t noise; /* bytes in no frame */
};

#endif
