#define _POSIX_C_SOURCE 200809L
#include "pace.h"

static uint64_t machine_now(void) {
    struct timespec now = {0};
    clock_gettime(CLOCK_MONOTONIC, &now);
    return (uint64_t)now.tv_sec * SECOND + (uint64_t)now.tv_nsec / 1000;
}

void pace_begin(struct pace *pace, unsigned faster) {
    pace->began = machine_now();
    pace->faster = faster;
}

uint64_t pace_now(const struct pace *pace) {
    return (machine_now() - pace->began) * pace->faster;
}

/* Rounded up, so that it is not too early when the sleep is over. */
struct timespec pace_until(const struct pace *pace, uint64_t then) {
    uint64_t now = pace_now(pace);
    uint64_t sleep = then > now ? (then - now) / pace->faster + 1 : 0;
    struct timespec until = {(time_t)(sleep / SECOND), (long)(sleep % SECOND) * 1000};
    return until;
}
