#define _POSIX_C_SOURCE 200809L
#include "capture.h"

#include <errno.h>
#include <fcntl.h>
#include <string.h>
#include <unistd.h>

/* Without waiting: a file never does, and where it is a pipe that nobody reads the panel must not. */
const char *capture_begin(struct capture *capture, const char *path) {
    capture->fd = open(path, O_WRONLY | O_CREAT | O_TRUNC | O_NONBLOCK | O_CLOEXEC, 0666);
    return capture->fd < 0 ? strerror(errno) : NULL;
}

const char *capture_keep(struct capture *capture, const uint8_t *bytes, size_t count) {
    if (capture->fd < 0) return NULL;
    errno = ENOSPC; /* where fewer bytes are written than asked for */
    if (write(capture->fd, bytes, count) == (ssize_t)count) return NULL;
    const char *why = strerror(errno);
    close(capture->fd);
    capture->fd = -1;
    return why;
}
