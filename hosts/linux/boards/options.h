/* The words after the program's name. */
#ifndef OPTIONS_H
#define OPTIONS_H

#include <stdbool.h>
#include <stdint.h>

struct options {
    const char *link; /* or NULL */
    unsigned faster, baud;
    uint64_t seed;
    bool empty, help;
};

/* Reads them; where one is wrong, says so on standard error. */
bool options_read(struct options *options, int count, char **words);

/* What the options are, in lines. */
const char *options_help(void);

#endif
