#include "scene.h"

#include "wire.h"

#include <limits.h>

#define COUNT(table) (sizeof(table) / sizeof *(table))

/* control command codes: send parameter 1 by method 1, and the first two bytes of the payload */
enum { HEAT = 100, COOL = 101 };

/* a node type that no board here has */
enum { HEAT_PUMP = 5 };

static const struct request requests[] = {
    {AIR_HANDLER, 2, TYPE_DISPLAY, 0, 0, 15, "\x03\x0D" "CHANGE FILTER"}, /* for the panel's screen */
    {THERMOSTAT, 4, TYPE_CONTROL, 1, HEAT, 4, {HEAT, 0, 70, 0}},          /* by priority: to the furnace */
    {THERMOSTAT, 6, TYPE_CONTROL, 2, HEAT_PUMP, 4, {HEAT, 0, 50, 0}},     /* by type: there is none */
    {THERMOSTAT, 7, TYPE_CONTROL, 1, HEAT, 4, {HEAT, 0, 60, 0}},          /* no response comes */
    {THERMOSTAT, 12, TYPE_CONTROL, 1, COOL, 4, {COOL, 0, 24, 0}},         /* to the air conditioner */
    {THERMOSTAT, 18, TYPE_CONTROL, 1, HEAT, 4, {HEAT, 0, 80, 0}},         /* the furnace is back */
    {AIR_CONDITIONER, 3, TYPE_DISPLAY, 0, 0, 7, "\x04\x05" "9\xB0" "C\r\n"}, /* no text */
    {CROSSOVER, 2, TYPE_DISPLAY, 0, 0, 7, "\x09\x06" "CLOSE"},            /* another length */
    {FURNACE, 4, TYPE_DIAGNOSTICS, 0, 0, 12, "\x02\x1F\x00\x08" "NO FLAME"},
    {FURNACE, 6, TYPE_DIAGNOSTICS, 0, 0, 4, "\x02\x00\x00"},              /* the fault is gone */
    {CROSSOVER, 3, TYPE_DIAGNOSTICS, 0, 0, 4, "\x09\x00\x07"},            /* a fault without words */
    {AIR_CONDITIONER, 4, TYPE_DIAGNOSTICS, 0, 0, 3, "\x04\x01\x00"},      /* cut off */
    /* messages inside messages, in levels of seven bytes: code, three operands, and type, packet number and length of
       the message that the level holds */
    {CROSSOVER, 4, TYPE_ENCAPSULATION, 0, 0, 17, "\1\0\0\0\x7E\0\x0A" "\2\0\0\0\x02\0\x03" "\1\2\3"},
    {CROSSOVER, 5, TYPE_ENCAPSULATION, 0, 0, 17, "\1\0\0\0\x7E\0\x0A" "\2\0\0\0\x02\0\x04" "\1\2\3"}, /* cut off */
    {CROSSOVER, 6, TYPE_ENCAPSULATION, 0, 0, 35,                          /* five levels */
     "\1\0\0\0\x7E\0\x1C" "\2\0\0\0\x7E\0\x15" "\3\0\0\0\x7E\0\x0E" "\4\0\0\0\x7E\0\x07" "\5\0\0\0\x02\0\0"},
    /* shared data: a sector and its record, which is a length, control ID, manufacturer ID, node type and settings; or
       a sector alone, whose record is wanted */
    {FURNACE, 11, TYPE_SET_SHARED, 0, 0, 11, "\2" "\x0A\x11\0\x22\0\2" "\x2D\x1E\x5A\3"},
    {AIR_HANDLER, 18, TYPE_SET_SHARED, 0, 0, 6, "\3" "\x05\x11\0\x22\0"}, /* too short */
    {CROSSOVER, 8, TYPE_GET_SHARED, 0, 0, 1, "\x09"},                     /* nobody has it */
    {AIR_CONDITIONER, 8, TYPE_GET_SHARED, 0, 0, 1, "\4"},                 /* the factory has it */
    {NEW_FURNACE, 1, TYPE_GET_SHARED, 0, 0, 1, "\2"},                     /* what the other furnace stored */
};

/* The air conditioner leaves its first Set Address unanswered; the crossover gives no ID when it is asked for it. */
static const struct {
    enum part part;
    unsigned message;
    enum lapse lapse;
} lapses[] = {
    {AIR_CONDITIONER, 1, MISSES}, {CROSSOVER, 1, NO_RESPONSE},   {FURNACE, 5, MISSES},
    {FURNACE, 11, NO_RESPONSE},   {FURNACE, 13, MISSES},         {FURNACE, 14, MISSES},
    {THERMOSTAT, 7, NOISE},       {THERMOSTAT, 10, TALKED_OVER}, {AIR_HANDLER, 5, DAMAGED},
    {AIR_HANDLER, 8, LATE_ID},
};

/* One board after the other is switched on, two of them with addresses that the panel believes free. The furnace loses
   its power for a moment, and later for so long that it is dropped. In the end it is taken out for good, and the new
   one is put in its place. */
static const struct outage outages[] = {
    {THERMOSTAT, 1, 2, 0},  {FURNACE, 1, 7, 0},   {AIR_CONDITIONER, 1, 13, 0}, {AIR_HANDLER, 1, 13, 18},
    {CROSSOVER, 1, 16, 19}, {FURNACE, 60, 61, 0}, {FURNACE, 89, 109, 0},       {FURNACE, 129, UINT_MAX, 0},
    {NEW_FURNACE, 1, 145, 0},
};

const struct request *scene_request(enum part part, unsigned offer) {
    for (size_t i = 0; i < COUNT(requests); i++)
        if (requests[i].part == part && requests[i].offer == offer) return &requests[i];
    return NULL;
}

enum lapse scene_lapse(enum part part, unsigned message) {
    for (size_t i = 0; i < COUNT(lapses); i++)
        if (lapses[i].part == part && lapses[i].message == message) return lapses[i].lapse;
    return NONE;
}

const struct outage *scene_outage(enum part part, unsigned message) {
    for (size_t i = 0; i < COUNT(outages); i++)
        if (outages[i].part == part && outages[i].off <= message && message <= outages[i].on) return &outages[i];
    return NULL;
}
