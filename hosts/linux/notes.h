/* Lines of text on standard input, which are shown among what happens: what simulated boards say. */
#ifndef NOTES_H
#define NOTES_H

#include <stdbool.h>
#include <stddef.h>

enum { NOTES_MOST = 156 };

struct notes {
    int fd;                /* -1 where there are none */
    char text[NOTES_MOST]; /* the line so far; what is past its end is left out */
    size_t count;
};

/* Reads what is there, and says each line that is whole. Whether there may be more. */
bool notes_read(struct notes *notes, void (*say)(const char *line));

#endif
