/* What is timed, and the jobs that the wire's proved functions do. */
#ifndef WORK_H
#define WORK_H

#include "inputs.h"

enum { PANELS = 8 };

struct work {
    uint8_t subnet; /* ours */
    const uint8_t *bytes;
    size_t count;
    struct panel panels[PANELS];
    uint8_t acks[PANELS][CT_FRAME];
    size_t ack_count;
    uint8_t event;
    uint8_t out[CT_FRAME];
};

/* A job does `times` calls and gives a number that depends on them. */
typedef size_t job(struct work *w, size_t times);

job good_proved, read_proved, write_proved, list_proved;

#endif
