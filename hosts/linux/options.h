/* What the user asks for: the words of the command line. */
#ifndef OPTIONS_H
#define OPTIONS_H

#include <stdbool.h>
#include <stdint.h>

/* How what happens is shown: on a screen, as lines of text, as lines of JSON. */
enum show { SHOW_SCREEN, SHOW_LINES, SHOW_JSON };

struct options {
    const char *device; /* NULL where none is named */
    unsigned baud;
    const char *format;
    bool rs485;
    unsigned silence;    /* in milliseconds of the machine's time */
    unsigned look_every; /* in seconds */
    uint8_t subnet;
    uint64_t mac;
    unsigned faster;
    enum show show;
    const char *capture; /* NULL where nothing is captured */
    bool notes;
};

/* What came of reading them. */
enum asked { ASKED_RUN, ASKED_HELP, ASKED_WRONG };

/* Reads the words; says on standard error what is wrong, or prints the help. */
enum asked options_read(struct options *options, int count, char **words);

#endif
