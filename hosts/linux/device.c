#define _DEFAULT_SOURCE
#include "device.h"

#include <errno.h>
#include <fcntl.h>
#include <linux/serial.h>
#include <string.h>
#include <sys/ioctl.h>
#include <termios.h>
#include <unistd.h>

static const struct {
    unsigned baud;
    speed_t speed;
} rates[] = {
    {1200, B1200},   {2400, B2400},   {4800, B4800},   {9600, B9600},
    {19200, B19200}, {38400, B38400}, {57600, B57600}, {115200, B115200},
};

/* NULL where there is no such rate. */
static const speed_t *speed_of(unsigned baud) {
    for (size_t i = 0; i < sizeof rates / sizeof *rates; i++)
        if (rates[i].baud == baud) return &rates[i].speed;
    return NULL;
}

bool device_has_rate(unsigned baud) {
    return speed_of(baud) != NULL;
}

/* A frame's bytes have eight bits. */
bool device_has_format(const char *format) {
    return strlen(format) == 3 && format[0] == '8' && strchr("NEO", format[1]) && strchr("12", format[2]);
}

/* Raw: no echo, no line, no character with a meaning, no flow control; modem lines are not looked at. */
static bool set_raw(const struct device *device) {
    struct termios settings;
    const speed_t *speed = speed_of(device->baud);
    if (!speed || tcgetattr(device->fd, &settings) != 0) return false;
    cfmakeraw(&settings);
    settings.c_cflag &= ~(tcflag_t)(CSTOPB | PARENB | PARODD | CRTSCTS);
    settings.c_cflag |= CLOCAL | CREAD;
    if (device->format[1] != 'N') settings.c_cflag |= PARENB;
    if (device->format[1] == 'O') settings.c_cflag |= PARODD;
    if (device->format[2] == '2') settings.c_cflag |= CSTOPB;
    cfsetispeed(&settings, *speed);
    cfsetospeed(&settings, *speed);
    return tcsetattr(device->fd, TCSANOW, &settings) == 0;
}

/* The adapter drives the line while it sends, and listens otherwise. */
static bool set_direction(const struct device *device) {
    struct serial_rs485 rs485 = {.flags = SER_RS485_ENABLED | SER_RS485_RTS_ON_SEND};
    return ioctl(device->fd, TIOCSRS485, &rs485) == 0;
}

const char *device_open(struct device *device) {
    device->fd = open(device->path, O_RDWR | O_NOCTTY | O_NONBLOCK | O_CLOEXEC);
    if (device->fd < 0) return strerror(errno);
    const char *why = NULL;
    if (!isatty(device->fd))
        why = "it is no serial device";
    else if (!set_raw(device))
        why = "it does not take this rate and format";
    else if (device->rs485 && !set_direction(device))
        why = "its driver has no RS-485 direction control: leave out --rs485";
    if (why)
        device_close(device);
    else
        tcflush(device->fd, TCIOFLUSH); /* what came in before is nobody's answer */
    return why;
}

void device_close(struct device *device) {
    if (device->fd >= 0) close(device->fd);
    device->fd = -1;
}

/* What a read or a write gave: nothing for now is no loss. */
static long counted(ssize_t count) {
    if (count >= 0) return count;
    return errno == EAGAIN || errno == EINTR ? 0 : -1;
}

/* A read of no bytes is a hang-up: a line that is only silent has none to read, which is another answer. */
long device_read(struct device *device, uint8_t *bytes, size_t room) {
    ssize_t count = read(device->fd, bytes, room);
    return count == 0 ? -1 : counted(count);
}

long device_write(struct device *device, const uint8_t *bytes, size_t count) {
    return counted(write(device->fd, bytes, count));
}
