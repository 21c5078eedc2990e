/* The pseudo-terminal: its master end is ours, its slave end is the panel's serial device. */
#ifndef TERMINAL_H
#define TERMINAL_H

#include <stdbool.h>

enum { DEVICE_ROOM = 64, LINK_ROOM = 4096 };

struct terminal {
    int master, slave;
    char device[DEVICE_ROOM]; /* the slave's path */
    const char *link;         /* a symbolic link to it, or NULL */
};

/* Opens it, and makes the link; where that fails, says why on standard error. */
bool terminal_open(struct terminal *terminal, const char *link);

/* Removes the link, where it is still ours, and closes both ends. */
void terminal_close(struct terminal *terminal);

#endif
