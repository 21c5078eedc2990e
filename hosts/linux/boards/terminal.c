#define _GNU_SOURCE

#include "terminal.h"

#include <errno.h>
#include <fcntl.h>
#include <stdio.h>
#include <stdlib.h>
#include <string.h>
#include <termios.h>
#include <unistd.h>

static bool complain(const char *what) {
    fprintf(stderr, "boards: %s: %s\n", what, strerror(errno));
    return false;
}

/* The slave is open here too: so a panel that closes it is no hang-up, and its settings last. */
static bool open_ends(struct terminal *terminal) {
    terminal->master = posix_openpt(O_RDWR | O_NOCTTY);
    if (terminal->master < 0) return complain("no pseudo-terminal");
    if (grantpt(terminal->master) != 0 || unlockpt(terminal->master) != 0) return complain("the pseudo-terminal");
    const char *device = ptsname(terminal->master);
    if (!device || strlen(device) >= DEVICE_ROOM) return complain("the pseudo-terminal's name");
    strcpy(terminal->device, device);
    terminal->slave = open(terminal->device, O_RDWR | O_NOCTTY);
    if (terminal->slave < 0) return complain(terminal->device);
    int flags = fcntl(terminal->master, F_GETFL);
    if (flags < 0 || fcntl(terminal->master, F_SETFL, flags | O_NONBLOCK) != 0) return complain("the pseudo-terminal");
    return true;
}

/* Bytes pass as they are, without echo; 9600 baud, 8 bits, no parity, one stop bit. */
static bool make_raw(const struct terminal *terminal) {
    struct termios settings;
    if (tcgetattr(terminal->slave, &settings) != 0) return complain(terminal->device);
    cfmakeraw(&settings);
    settings.c_cflag &= ~(tcflag_t)CSTOPB;
    settings.c_cflag |= CREAD | CLOCAL;
    cfsetispeed(&settings, B9600);
    cfsetospeed(&settings, B9600);
    if (tcsetattr(terminal->slave, TCSANOW, &settings) != 0) return complain(terminal->device);
    return true;
}

/* Where the link leads: false where there is none, with errno. */
static bool read_link(const char *link, char *target, size_t room) {
    ssize_t length = readlink(link, target, room - 1);
    if (length < 0) return false;
    target[length] = '\0';
    return true;
}

/* An old link is replaced in one step, so that the name is never missing; another file is left alone. */
static bool make_link(const char *device, const char *link) {
    char target[LINK_ROOM], fresh[LINK_ROOM];
    if (!read_link(link, target, sizeof target) && errno != ENOENT) {
        if (errno != EINVAL) return complain(link);
        fprintf(stderr, "boards: %s is there, and is no link\n", link);
        return false;
    }
    if (snprintf(fresh, sizeof fresh, "%s.%ld", link, (long)getpid()) >= (int)sizeof fresh) {
        errno = ENAMETOOLONG;
        return complain(link);
    }
    unlink(fresh);
    if (symlink(device, fresh) != 0) return complain(fresh);
    if (rename(fresh, link) == 0) return true;
    complain(link);
    unlink(fresh);
    return false;
}

bool terminal_open(struct terminal *terminal, const char *link) {
    terminal->master = terminal->slave = -1;
    terminal->link = NULL;
    if (!open_ends(terminal) || !make_raw(terminal)) return false;
    if (link && !make_link(terminal->device, link)) return false;
    terminal->link = link;
    return true;
}

void terminal_close(struct terminal *terminal) {
    char target[LINK_ROOM];
    if (terminal->link && read_link(terminal->link, target, sizeof target) && strcmp(target, terminal->device) == 0)
        unlink(terminal->link);
    if (terminal->slave >= 0) close(terminal->slave);
    if (terminal->master >= 0) close(terminal->master);
}
