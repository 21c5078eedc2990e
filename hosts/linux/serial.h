/*
 * The line as the panel's loop needs it (struct port): frames sent after the bus delay, frames received as the cutter
 * finds them, the reply timer, the clock. It sleeps whenever there is nothing to do, and where the device is lost it
 * waits until it can be opened again.
 */
#ifndef SERIAL_H
#define SERIAL_H

#include "capture.h"
#include "cutter.h"
#include "device.h"
#include "notes.h"
#include "pace.h"
#include "port.h"

struct serial {
    struct device device;
    struct pace pace;
    struct capture capture;
    struct notes notes;
    struct cutter cutter;
    int stop;         /* ready to read when the end is wished */
    uint64_t lost;    /* of the bytes that the cutter has lost, how many were told */
    uint64_t silence; /* so long a silence ends a stretch */
    uint64_t heard;   /* when the last byte came in */
    uint64_t sent;    /* when our last frame had gone out */
    uint64_t reply;   /* when the reply timer runs out */
};

struct port serial_port(struct serial *serial);

#endif
