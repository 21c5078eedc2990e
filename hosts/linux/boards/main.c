/* Simulated CT-485 boards on a pseudo-terminal, for a panel at its other end. */
#define _GNU_SOURCE

#include "house.h"
#include "orders.h"
#include "stop.h"
#include "tell.h"

#include <errno.h>
#include <fcntl.h>
#include <poll.h>
#include <signal.h>
#include <stdio.h>
#include <string.h>
#include <unistd.h>

enum { DONE = 0, FAILED = 1, WRONG_OPTION = 2 };

/* What the program waits for. */
enum { PANEL, ORDERS, STOP, SOURCES };

/* Standard input, output and error are open, else the terminal would take the place of one of them. */
static bool keep_standard_files(void) {
    int file = 0;
    while (file >= 0 && file <= STDERR_FILENO) file = open("/dev/null", O_RDWR);
    if (file < 0) return false;
    close(file);
    return true;
}

/* What the panel has sent. False where the terminal is broken. */
static bool read_panel(struct house *house) {
    uint8_t bytes[512];
    ssize_t count = read(house->terminal.master, bytes, sizeof bytes);
    if (count < 0) return errno == EAGAIN || errno == EINTR;
    house_hear(house, bytes, (size_t)count);
    return count > 0;
}

/* Sleeps until something comes or is due. False where that fails. */
static bool sleep_until(const struct house *house, uint64_t due, struct pollfd *sources) {
    struct timespec left = {0, 0};
    if (due != NEVER) left = pace_until(&house->pace, due);
    sources[ORDERS].fd = house->input.descriptor;
    for (unsigned i = 0; i < SOURCES; i++) sources[i].revents = 0;
    return ppoll(sources, SOURCES, due == NEVER ? NULL : &left, NULL) >= 0 || errno == EINTR;
}

/* Until an order or a signal ends it. */
static int run(struct house *house, int stop) {
    struct pollfd sources[SOURCES] = {
        [PANEL] = {house->terminal.master, POLLIN, 0},
        [ORDERS] = {house->input.descriptor, POLLIN, 0},
        [STOP] = {stop, POLLIN, 0},
    };
    while (!house->ended) {
        bool well = sleep_until(house, house_due(house), sources);
        house_run(house);
        if (sources[STOP].revents) return DONE;
        if (sources[PANEL].revents) well = read_panel(house);
        if (sources[ORDERS].revents) orders_read(house);
        if (!well) {
            fprintf(stderr, "boards: the terminal: %s\n", strerror(errno));
            return FAILED;
        }
    }
    return DONE;
}

int main(int count, char **words) {
    static struct house house;
    struct options options;
    if (!keep_standard_files()) return FAILED;
    if (!options_read(&options, count, words)) return WRONG_OPTION;
    if (options.help) {
        tell("%s", options_help());
        return DONE;
    }
    signal(SIGPIPE, SIG_IGN); /* standard output may be closed */
    int stop = stop_begin();
    if (stop < 0) {
        fprintf(stderr, "boards: the signals: %s\n", strerror(errno));
        return FAILED;
    }
    int status = FAILED;
    if (terminal_open(&house.terminal, options.link)) {
        house_start(&house, &options);
        house.input.descriptor = STDIN_FILENO;
        tell("device %s", house.terminal.device);
        status = run(&house, stop);
    }
    terminal_close(&house.terminal);
    return status;
}
