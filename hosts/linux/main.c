/* ./panel: the coordinator on a serial device. */
#define _DEFAULT_SOURCE
#include "options.h"
#include "serial.h"
#include "stop.h"
#include "watch.h"

#include <stdio.h>
#include <stdlib.h>
#include <string.h>
#include <sys/random.h>
#include <unistd.h>

/* Exit statuses beside 0. */
enum { FAILED = 1, WRONG = 2, NO_DEVICE = 3, NO_CAPTURE = 4 };

/* The shipped pool: 16 to 55. */
enum { FIRST_ADDRESS = 16, ADDRESSES = NADRELGOS_NODES };

/* The type of our internal subordinate: a zone controller. */
enum { ZONE_CONTROLLER = 21 };

/* In static storage, so that it starts as zeros. */
static struct panel panel;
static struct serial serial;
static uint8_t addresses[ADDRESSES];

/* The images of shared data: zeros are free slots. What boards store is kept as long as the panel runs; they store it
   anew when they get the node list (API Reference, 5.10). There is no factory data. */
static uint8_t network[NADRELGOS_IMAGE];
static const uint8_t factory[NADRELGOS_IMAGE];

/* A new session at each start (Networking Specification, 7.10.1), and not 0. */
static uint64_t new_session(void) {
    uint64_t session = 0;
    if (getrandom(&session, sizeof session, 0) != sizeof session) session = (uint64_t)getpid();
    return session ? session : 1;
}

static void make_plan(const struct options *options) {
    for (unsigned i = 0; i < ADDRESSES; i++) addresses[i] = (uint8_t)(FIRST_ADDRESS + i);
    panel.plan = (struct plan){addresses,    sizeof addresses, options->subnet,    ZONE_CONTROLLER,
                               options->mac, new_session(),    options->look_every};
    panel.shared = (struct shared){network, factory};
}

static void make_line(const struct options *options) {
    serial.device = (struct device){.path = options->device, .baud = options->baud, .rs485 = options->rs485, .fd = -1};
    memcpy(serial.device.format, options->format, sizeof serial.device.format);
    serial.cutter.subnet = options->subnet;
    serial.capture.fd = -1;
    serial.notes.fd = options->notes ? STDIN_FILENO : -1;
    pace_begin(&serial.pace, options->faster);
    serial.silence = (uint64_t)options->silence * MILLISECOND * options->faster;
}

static int cannot(const char *what, const char *name, const char *why, int status) {
    fprintf(stderr, "panel: %s cannot be %s: %s\n", name, what, why);
    return status;
}

int main(int count, char **words) {
    static struct options options;
    const char *why;
    switch (options_read(&options, count, words)) {
    case ASKED_HELP: return EXIT_SUCCESS;
    case ASKED_WRONG: return WRONG;
    default: break;
    }
    if (!options.device) return cannot("started", "a simulated house", "./panel does that", WRONG);
    make_plan(&options);
    make_line(&options);
    if (options.capture && (why = capture_begin(&serial.capture, options.capture)))
        return cannot("written", options.capture, why, NO_CAPTURE);
    if ((why = device_open(&serial.device))) return cannot("opened", options.device, why, NO_DEVICE);

    struct port port = serial_port(&serial);
    serial.stop = stop_begin();
    watch_begin(&options, &panel, &serial.pace);
    bool goes_on = panel_set_up(&panel);
    while (goes_on) goes_on = panel_go_round(&panel, &port);
    watch_end(FAILED);
}
