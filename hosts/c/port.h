/*
 * The serial line, the reply timer and the clock, as the panel's loop needs them. A firmware has a UART and its timers
 * behind these functions; this host has the simulated bus of bus.c.
 */
#ifndef PORT_H
#define PORT_H

#include <stdbool.h>
#include <stddef.h>
#include <stdint.h>

struct port {
    void *line; /* handed to each of them */

    /* Puts one frame on the line. */
    void (*send)(void *line, const uint8_t *bytes, size_t count);

    /* The next frame that has come in, whole, at most `room` bytes of it. Its count, or 0 where none has come. */
    size_t (*receive)(void *line, uint8_t *bytes, size_t room);

    /* Starts the reply timer: three seconds. */
    void (*start)(void *line);

    /* Whether the reply timer has run out: the line is quiet. */
    bool (*quiet)(void *line);

    /* The seconds since the host was switched on. */
    uint32_t (*seconds)(void *line);

    /* There is nothing to do for this many seconds. */
    void (*pause)(void *line, uint32_t seconds);
};

#endif
