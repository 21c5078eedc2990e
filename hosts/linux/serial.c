#define _GNU_SOURCE
#include "serial.h"

#include "nadrelgos.h"
#include "watch.h"

#include <poll.h>
#include <stdlib.h>

/* A reply comes within three seconds, and at most half a second lies between two transactions, however noisy the line
   is (Networking Specification, 7.8). */
enum { REPLY = 3 * SECOND, TURNAROUND = 500 * MILLISECOND };

/* How long a device that takes no bytes is waited for, and how often one that is lost is looked for. */
enum { NO_ROOM = SECOND, LOST = SECOND };

/* A byte and its frame: start bit, eight bits, parity or not, stop bits. */
static uint64_t time_of(const struct serial *serial, size_t count) {
    const char *format = serial->device.format;
    unsigned bits = 9u + (format[1] != 'N') + (unsigned)(format[2] - '0');
    return (uint64_t)count * bits * SECOND / serial->device.baud;
}

static uint64_t later(uint64_t a, uint64_t b) {
    return a > b ? a : b;
}

static uint64_t earlier(uint64_t a, uint64_t b) {
    return a < b ? a : b;
}

/* ---- sleeping */

/* Sleeps until it is this time, or until the device (where `events` is not 0) or a note is ready; what is to be seen of
   the panel is seen to meanwhile. What the device is ready for. */
static short sleep_until(struct serial *serial, uint64_t then, short events) {
    struct timespec time = pace_until(&serial->pace, earlier(then, watch_due()));
    struct pollfd ready[] = {
        {events ? serial->device.fd : -1, events, 0},
        {serial->notes.fd, POLLIN, 0},
        {serial->stop, POLLIN, 0},
    };
    bool is_any = ppoll(ready, 3, &time, NULL) > 0;
    bool goes_on = !is_any || !ready[1].revents || notes_read(&serial->notes, watch_note);
    if (!goes_on || (is_any && ready[2].revents)) watch_end(EXIT_SUCCESS);
    watch_refresh();
    return is_any ? ready[0].revents : 0;
}

/* The device is lost: waits until it can be opened again. */
static void reopen(struct serial *serial) {
    watch_lost("the device is gone");
    device_close(&serial->device);
    do {
        uint64_t then = pace_now(&serial->pace) + (uint64_t)LOST * serial->pace.faster;
        while (pace_now(&serial->pace) < then) sleep_until(serial, then, 0);
    } while (device_open(&serial->device));
    serial->heard = pace_now(&serial->pace);
    watch_opened();
}

static void keep(struct serial *serial, const uint8_t *bytes, size_t count) {
    const char *why = capture_keep(&serial->capture, bytes, count);
    if (why) watch_capture_ended(why);
}

/* Takes in what the device has. */
static void take_in(struct serial *serial) {
    uint8_t bytes[512];
    long count = device_read(&serial->device, bytes, sizeof bytes);
    if (count < 0) reopen(serial);
    if (count <= 0) return;
    serial->heard = pace_now(&serial->pace);
    cutter_add(&serial->cutter, bytes, (size_t)count);
    keep(serial, bytes, (size_t)count);
}

/* Listens until it is this time, or something came in. */
static void listen_until(struct serial *serial, uint64_t then) {
    if (sleep_until(serial, then, POLLIN)) take_in(serial);
}

/* ---- sending */

/* The bus delay: the line was silent for so long, or the next transaction can wait no longer. */
static void wait_for_the_bus(struct serial *serial) {
    uint64_t last = pace_now(&serial->pace) + TURNAROUND - BUS_DELAY;
    for (;;) {
        uint64_t then = earlier(last, later(serial->heard, serial->sent) + BUS_DELAY);
        if (pace_now(&serial->pace) >= then) return;
        listen_until(serial, then);
    }
}

/* Writes to the device. Whether it was there; bytes for which it has no room for long are lost, as on a wire. */
static bool write_out(struct serial *serial, const uint8_t *bytes, size_t count) {
    uint64_t last = pace_now(&serial->pace) + (uint64_t)NO_ROOM * serial->pace.faster;
    while (count > 0 && pace_now(&serial->pace) < last) {
        long written = device_write(&serial->device, bytes, count);
        if (written < 0) return false;
        bytes += written;
        count -= (size_t)written;
        if (count > 0) sleep_until(serial, last, POLLOUT);
    }
    return true;
}

static void serial_send(void *line, const uint8_t *bytes, size_t count) {
    struct serial *serial = line;
    wait_for_the_bus(serial);
    while (!write_out(serial, bytes, count)) reopen(serial);
    serial->sent = pace_now(&serial->pace) + time_of(serial, count);
    keep(serial, bytes, count);
}

/* ---- receiving */

/* The reply timer begins when the frame has gone out. */
static void serial_start(void *line) {
    struct serial *serial = line;
    serial->reply = later(pace_now(&serial->pace), serial->sent) + REPLY;
}

/* Not while something is coming in that may be the reply; but no noise goes on for longer than a frame can. */
static bool serial_quiet(void *line) {
    struct serial *serial = line;
    uint64_t now = pace_now(&serial->pace);
    if (cutter_has_stretch(&serial->cutter) || now < serial->reply) return false;
    return !cutter_is_filling(&serial->cutter) ||
           now >= serial->reply + time_of(serial, NADRELGOS_ROOM) + serial->silence;
}

/* The next frame of the stretch, where one is cut; what was lost beside frames is told. */
static size_t next_frame(struct serial *serial, uint8_t *bytes, size_t room) {
    size_t count = 0;
    while (count == 0 && cutter_has_stretch(&serial->cutter)) count = cutter_next(&serial->cutter, bytes, room);
    if (serial->cutter.lost > serial->lost) watch_noise((size_t)(serial->cutter.lost - serial->lost));
    serial->lost = serial->cutter.lost;
    return count;
}

/* Sleeps until a frame has come in, or the reply timer has run out. */
static size_t serial_receive(void *line, uint8_t *bytes, size_t room) {
    struct serial *serial = line;
    for (;;) {
        size_t count = next_frame(serial, bytes, room);
        if (count > 0 || serial_quiet(serial)) return count;
        bool is_filling = cutter_is_filling(&serial->cutter);
        uint64_t end = serial->heard + serial->silence;
        if (is_filling && pace_now(&serial->pace) >= end)
            cutter_cut(&serial->cutter);
        else
            listen_until(serial, is_filling ? end : serial->reply);
    }
}

/* ---- the clock */

static uint32_t serial_seconds(void *line) {
    const struct serial *serial = line;
    return (uint32_t)(pace_now(&serial->pace) / SECOND);
}

static void serial_pause(void *line, uint32_t seconds) {
    struct serial *serial = line;
    uint64_t then = pace_now(&serial->pace) + (uint64_t)seconds * SECOND;
    while (pace_now(&serial->pace) < then) listen_until(serial, then);
}

struct port serial_port(struct serial *serial) {
    struct port port = {serial, serial_send, serial_receive, serial_start, serial_quiet, serial_seconds, serial_pause};
    return port;
}
