/* What happens on the simulated bus: requests that boards make, what they do wrong, and when they have power. */
#ifndef SCENE_H
#define SCENE_H

#include <stddef.h>
#include <stdint.h>

/* The boards. The furnace speaks 1.0; the new one, which takes its place, does not. */
enum part { THERMOSTAT, FURNACE, AIR_CONDITIONER, AIR_HANDLER, CROSSOVER, NEW_FURNACE, PARTS };

/* A request that a board makes at one of its offers. */
struct request {
    enum part part;
    unsigned offer;
    uint8_t type, method, parameter;
    size_t count;
    uint8_t payload[40];
};

/* What a board does otherwise than it should at one of its messages. */
enum lapse { NONE, MISSES, NO_RESPONSE, DAMAGED, TALKED_OVER, LATE_ID, NOISE };

/* The request of this board at its n-th offer; NULL where it has none. */
const struct request *scene_request(enum part part, unsigned offer);

/* What this board does at the n-th message for it. */
enum lapse scene_lapse(enum part part, unsigned message);

/* A board is without power from the message `off` on the bus, and has it again from the message `on`. It then has no
   address, or this one, which another panel gave it. */
struct outage {
    enum part part;
    unsigned off, on;
    uint8_t address;
};

/* The outage of this board that is on, or over, at the n-th message on the bus; NULL where there is none. */
const struct outage *scene_outage(enum part part, unsigned message);

#endif
