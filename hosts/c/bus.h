/* A simulated CT-485 bus: its boards, the line between them and the panel, and a clock. */
#ifndef BUS_H
#define BUS_H

#include "board.h"
#include "port.h"

struct bus {
    struct board boards[PARTS];
    struct line line;  /* from them to the panel */
    unsigned messages; /* of the panel, ACKs apart */
    uint32_t seconds;  /* since the bus was switched on */
};

/* The bus as it is switched on: no board has power yet. */
void bus_start(struct bus *bus);

/* The bus as a serial port. */
struct port bus_port(struct bus *bus);

#endif
