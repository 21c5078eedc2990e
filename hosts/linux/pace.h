/* Time on the line, in microseconds since the program began. For trials it goes faster than the machine's. */
#ifndef PACE_H
#define PACE_H

#include <stdint.h>
#include <time.h>

enum { MILLISECOND = 1000, SECOND = 1000000 };

/* Whoever sends leaves the bus alone for so long before (Networking Specification, 9.5). */
enum { BUS_DELAY = 100 * MILLISECOND };

/* When nothing is due. */
#define NEVER UINT64_MAX

struct pace {
    uint64_t began; /* on the machine's clock, in microseconds */
    unsigned faster;
};

void pace_begin(struct pace *pace, unsigned faster);

/* What time it is on the line. */
uint64_t pace_now(const struct pace *pace);

/* How long to sleep on the machine until it is this time on the line. */
struct timespec pace_until(const struct pace *pace, uint64_t then);

#endif
