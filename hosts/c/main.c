/* The panel's loop on the simulated bus. A firmware has its own wire, and goes round for ever. */
#include "bus.h"
#include "panel.h"
#include "tell.h"

#include <stdio.h>

enum { SUBNET = 3, ZONE_CONTROLLER = 21, LOOK_EVERY = 60, MESSAGES = 160 };

static const uint8_t addresses[] = {16, 17, 18, 19, 20};

/* The network's copy of the shared data: zeros are free slots. A firmware has it where it outlives a power failure. */
static uint8_t network[NADRELGOS_IMAGE];

/* The factory image: in a slot the sector, the record's length and the record (API Reference, table 22). It has records
   for a furnace and for an air conditioner; the other slots are free. */
static const uint8_t factory[NADRELGOS_IMAGE] = {
    2, 10, 10, 0x11, 0, 0x22, 0, 2, 40, 30, 100, 0,         /* slot 1 */
    [NADRELGOS_SLOT] = 4, 8, 8, 0x11, 0, 0x33, 0, 4, 24, 12, /* slot 2 */
};

/* In static storage, so that it starts as zeros. */
static struct panel panel = {
    .plan = {addresses, sizeof addresses, SUBNET, ZONE_CONTROLLER, 0x1A2B00000001, 7, LOOK_EVERY},
    .shared = {network, factory},
};

int main(void) {
    static struct bus bus;
    bus_start(&bus);
    struct port port = bus_port(&bus);

    printf("coordinator %u bytes, node %u bytes\n", (unsigned)sizeof panel.coordinator, (unsigned)sizeof *panel.nodes);
    while (bus.messages < MESSAGES)
        if (!panel_go_round(&panel, &port)) return 1;
    tell_table(&panel);
    return 0;
}
