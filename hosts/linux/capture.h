/* The line's bytes, both ways, kept in a file. */
#ifndef CAPTURE_H
#define CAPTURE_H

#include <stddef.h>
#include <stdint.h>

struct capture {
    int fd; /* -1 where nothing is kept */
};

/* Begins the file. NULL where that went well, else why not. */
const char *capture_begin(struct capture *capture, const char *path);

/* Keeps bytes. NULL where that went well; else why not, and no more are kept. */
const char *capture_keep(struct capture *capture, const uint8_t *bytes, size_t count);

#endif
