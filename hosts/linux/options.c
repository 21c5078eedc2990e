#define _POSIX_C_SOURCE 200809L
#include "options.h"

#include "device.h"
#include "nadrelgos.h"
#include "number.h"

#include <stdio.h>
#include <string.h>
#include <unistd.h>

static const char help[] =
    "./panel [DEVICE] [OPTIONS]\n"
    "\n"
    "Runs the coordinator of a CT-485 bus on the serial device DEVICE, as /dev/ttyUSB0, until it is\n"
    "stopped (Ctrl-C). Without DEVICE it runs on a simulated house, whose boards take orders: type help.\n"
    "On a terminal it shows a screen; else, a line for each event.\n"
    "\n"
    "  --baud RATE       the line's rate: 1200 to 115200 (9600)\n"
    "  --format WORD     data bits, parity, stop bits: 8N1, 8E1, 8O1, 8N2, 8E2 or 8O2 (8N1)\n"
    "  --rs485           the kernel's driver switches the adapter between sending and listening\n"
    "  --silence MS      so many milliseconds of silence end what was received, 1 to 1000 (30)\n"
    "  --look SECONDS    how often boards without an address are looked for, 1 to 120 (20)\n"
    "  --subnet NUMBER   our subnet, of frames to and from boards later than 1.0, 0 to 255 (3)\n"
    "  --mac HEX         the panel's own MAC, 1 to ffffffffffffff (1a2b00000001)\n"
    "  --lines           a line for each event, on a terminal too\n"
    "  --json            a line of JSON for each event\n"
    "  --capture FILE    keeps the line's bytes, both ways, which framelist lists\n"
    "  --faster N        every time is N times shorter, 1 to 1000: for trials on a simulated house\n"
    "  --notes           lines on standard input are shown among what happens; their end is the panel's\n"
    "  --help            says this\n"
    "\n"
    "It ends with 0 when it is stopped, 2 where the options are wrong, 3 where DEVICE cannot be opened,\n"
    "4 where FILE cannot be written, 1 where anything else fails.\n";

/* ---- values */

/* A number in a range. */
static bool set_unsigned(unsigned *value, const char *word, unsigned least, unsigned most) {
    uint64_t number;
    bool is_good = number_decimal(word, &number) && least <= number && number <= most;
    if (is_good) *value = (unsigned)number;
    return is_good;
}

static bool set_baud(struct options *options, const char *word) {
    unsigned baud;
    bool is_good = set_unsigned(&baud, word, 1, UINT32_MAX) && device_has_rate(baud);
    if (is_good) options->baud = baud;
    return is_good;
}

static bool set_format(struct options *options, const char *word) {
    options->format = word;
    return device_has_format(word);
}

static bool set_silence(struct options *options, const char *word) {
    return set_unsigned(&options->silence, word, 1, 1000);
}

static bool set_look(struct options *options, const char *word) {
    return set_unsigned(&options->look_every, word, 1, 120);
}

static bool set_subnet(struct options *options, const char *word) {
    unsigned subnet;
    bool is_good = set_unsigned(&subnet, word, 0, 255);
    if (is_good) options->subnet = (uint8_t)subnet;
    return is_good;
}

static bool set_mac(struct options *options, const char *word) {
    return number_hex(word, &options->mac) && 1 <= options->mac && options->mac <= NADRELGOS_MAC_MAX;
}

static bool set_capture(struct options *options, const char *word) {
    options->capture = word;
    return *word != '\0';
}

static bool set_faster(struct options *options, const char *word) {
    return set_unsigned(&options->faster, word, 1, 1000);
}

static bool set_rs485(struct options *options, const char *word) {
    (void)word;
    return options->rs485 = true;
}

static bool set_lines(struct options *options, const char *word) {
    (void)word;
    options->show = SHOW_LINES;
    return true;
}

static bool set_json(struct options *options, const char *word) {
    (void)word;
    options->show = SHOW_JSON;
    return true;
}

static bool set_notes(struct options *options, const char *word) {
    (void)word;
    return options->notes = true;
}

/* ---- words */

static const struct option {
    const char *name;
    bool has_value;
    bool (*set)(struct options *options, const char *word);
} table[] = {
    {"--baud", true, set_baud},       {"--format", true, set_format}, {"--rs485", false, set_rs485},
    {"--silence", true, set_silence}, {"--look", true, set_look},     {"--subnet", true, set_subnet},
    {"--mac", true, set_mac},         {"--lines", false, set_lines},  {"--json", false, set_json},
    {"--capture", true, set_capture}, {"--faster", true, set_faster}, {"--notes", false, set_notes},
};

/* The option that a word names, by itself or as --name=value; NULL where it names none. */
static const struct option *option_of(const char *word) {
    size_t length = strcspn(word, "=");
    for (size_t i = 0; i < sizeof table / sizeof *table; i++)
        if (strlen(table[i].name) == length && strncmp(table[i].name, word, length) == 0) return &table[i];
    return NULL;
}

/* Says what is wrong with a word, and with a second one where there is one. */
static bool wrong(const char *word, const char *what, const char *other) {
    fprintf(stderr, "panel: %s %s%s; ./panel --help says what there is\n", word, what, other);
    return false;
}

/* Reads one option: its value stands in the same word, or is the next one. How many words it took; 0: it is wrong. */
static int read_option(struct options *options, const char *word, const char *next) {
    const struct option *option = option_of(word);
    const char *value = strchr(word, '=');
    if (!option) return wrong(word, "is no option", "");
    if (!option->has_value && value) return wrong(option->name, "takes no value", "");
    if (option->has_value && !value && !next) return wrong(option->name, "needs a value", "");
    int taken = option->has_value && !value ? 2 : 1;
    if (option->has_value) value = value ? value + 1 : next;
    if (!option->set(options, value)) return wrong(option->name, "cannot be ", value);
    return taken;
}

/* A word that is no option is the device. */
static bool read_device(struct options *options, const char *word) {
    if (options->device) return wrong(options->device, "is a device already, and so is ", word);
    if (*word == '\0') return wrong("the device's name", "is empty", "");
    options->device = word;
    return true;
}

enum asked options_read(struct options *options, int count, char **words) {
    *options = (struct options){.baud = 9600, .format = "8N1", .silence = 30, .look_every = 20, .subnet = 3,
                                .mac = 0x1A2B00000001, .faster = 1};
    options->show = isatty(STDOUT_FILENO) ? SHOW_SCREEN : SHOW_LINES;
    for (int i = 1, taken; i < count; i += taken) {
        if (strcmp(words[i], "--help") == 0 || strcmp(words[i], "-h") == 0) {
            fputs(help, stdout);
            return ASKED_HELP;
        }
        taken = words[i][0] == '-' ? read_option(options, words[i], words[i + 1]) : read_device(options, words[i]);
        if (taken == 0) return ASKED_WRONG;
    }
    return ASKED_RUN;
}
