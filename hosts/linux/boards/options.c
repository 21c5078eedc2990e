#define _GNU_SOURCE

#include "options.h"

#include "number.h"

#include <stdio.h>
#include <string.h>
#include <time.h>

enum { FASTER_MOST = 1000, BAUD = 9600, BAUD_LEAST = 50, BAUD_MOST = 4000000 };

const char *options_help(void) {
    return "boards [--link PATH] [--faster N] [--seed N] [--baud RATE] [--empty]\n"
           "Simulated CT-485 boards on a pseudo-terminal, for a panel to run on.\n"
           "  --link PATH    makes a symbolic link PATH to the device, and removes it at the end\n"
           "  --faster N     every time goes N times faster, 1 to 1000\n"
           "  --seed N       the seed of the pseudorandom numbers; else the clock gives it\n"
           "  --baud RATE    the pace of the bytes, 50 to 4000000; else 9600\n"
           "  --empty        no board is on the line at the start, and none has power\n"
           "The first line printed is `device PATH`. The order `help` on standard input lists the orders.";
}

static bool wrong(const char *word, const char *why) {
    fprintf(stderr, "boards: %s: %s\n", word, why);
    return false;
}

static bool read_count(const char *word, const char *value, unsigned least, unsigned most, unsigned *count) {
    uint64_t number;
    if (!number_decimal(value, &number) || number < least || number > most) {
        fprintf(stderr, "boards: %s: a number from %u to %u, and not %s\n", word, least, most, value);
        return false;
    }
    *count = (unsigned)number;
    return true;
}

/* An option with a value. */
static bool read_value(struct options *options, const char *name, const char *value) {
    if (strcmp(name, "--faster") == 0) return read_count(name, value, 1, FASTER_MOST, &options->faster);
    if (strcmp(name, "--baud") == 0) return read_count(name, value, BAUD_LEAST, BAUD_MOST, &options->baud);
    if (strcmp(name, "--seed") == 0)
        return number_decimal(value, &options->seed) || wrong(name, "a number of at most 64 bits");
    options->link = value;
    return value[0] != '\0' || wrong(name, "a path");
}

/* The name that `word` begins with, where it has a value: itself, or up to the first =. NULL where there is none. */
static const char *name_of(const char *word) {
    static const char *const names[] = {"--link", "--faster", "--seed", "--baud"};
    size_t length = strcspn(word, "=");
    for (unsigned i = 0; i < sizeof names / sizeof *names; i++)
        if (strlen(names[i]) == length && strncmp(names[i], word, length) == 0) return names[i];
    return NULL;
}

/* The option that begins with the first word. Gives how many words it takes, 0 where it is wrong. */
static int read_option(struct options *options, char **words) {
    const char *name = name_of(words[0]);
    const char *value = strchr(words[0], '=');
    if (strcmp(words[0], "--empty") == 0) {
        options->empty = true;
        return 1;
    }
    if (strcmp(words[0], "--help") == 0) {
        options->help = true;
        return 1;
    }
    if (!name) return wrong(words[0], "there is no such option; --help lists them");
    if (value) return read_value(options, name, value + 1) ? 1 : 0;
    if (!words[1]) return wrong(name, "its value is missing");
    return read_value(options, name, words[1]) ? 2 : 0;
}

static uint64_t seed_of_clock(void) {
    struct timespec now;
    clock_gettime(CLOCK_REALTIME, &now);
    return (uint64_t)now.tv_sec * 1000000000 + (uint64_t)now.tv_nsec;
}

bool options_read(struct options *options, int count, char **words) {
    memset(options, 0, sizeof *options);
    options->faster = 1;
    options->baud = BAUD;
    options->seed = seed_of_clock();
    int taken = 1;
    for (int i = 1; i < count && taken > 0; i += taken) taken = read_option(options, words + i);
    return taken > 0;
}
