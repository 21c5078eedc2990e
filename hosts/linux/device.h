/* The serial device: opened raw, at its rate and format; bytes in and out without waiting. */
#ifndef DEVICE_H
#define DEVICE_H

#include <stdbool.h>
#include <stddef.h>
#include <stdint.h>

struct device {
    const char *path;
    unsigned baud;
    char format[4]; /* data bits, parity, stop bits: 8N1 */
    bool rs485;     /* the kernel switches the adapter's direction */
    int fd;         /* -1 while it is not open */
};

/* Whether there is such a rate, and such a format. */
bool device_has_rate(unsigned baud);
bool device_has_format(const char *format);

/* Opens it. NULL where that went well, else why not. */
const char *device_open(struct device *device);

void device_close(struct device *device);

/* At most `room` bytes that have come in: their count, 0 where none has, -1 where the device is lost. */
long device_read(struct device *device, uint8_t *bytes, size_t room);

/* Sends bytes: the count that the device has taken, 0 where it has no room now, -1 where it is lost. */
long device_write(struct device *device, const uint8_t *bytes, size_t count);

#endif
