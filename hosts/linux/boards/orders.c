#define _GNU_SOURCE

#include "orders.h"

#include "number.h"
#include "order.h"
#include "tell.h"

#include <errno.h>
#include <string.h>
#include <unistd.h>

static void order_help(struct house *house, const struct order *order);
static void order_quit(struct house *house, const struct order *order);

/* The least and the most words that an order has, itself among them. */
static const struct {
    const char *name;
    unsigned least, most;
    void (*act)(struct house *house, const struct order *order);
    const char *form, *means;
} orders[] = {
    {"plug", 2, 4, order_plug, "plug NAME [TYPE MAC]", "on the line and powered; with TYPE and MAC (hex) a new board"},
    {"unplug", 2, 2, order_unplug, "unplug NAME", "off the line; its own clock goes on"},
    {"power", 3, 3, order_power, "power on|off NAME|all", "power comes back, or goes"},
    {"deaf", 3, 3, order_deaf, "deaf NAME COUNT", "the next COUNT messages to it do not reach it"},
    {"elsewhere", 3, 3, order_elsewhere, "elsewhere NAME COUNT", "its next COUNT answers have another system's subnet"},
    {"noise", 2, 4, order_noise, "noise COUNT, noise NAME before|after|inside COUNT",
     "random bytes now, or at its next answer; inside: COUNT of its bytes changed"},
    {"heat", 3, 3, order_heat, "heat NAME PERCENT", "it sends a heat demand at its next offer"},
    {"display", 3, UINT32_MAX, order_display, "display NAME TEXT", "it sends a display message at its next offer"},
    {"fault", 4, UINT32_MAX, order_fault, "fault NAME MAJOR MINOR [TEXT]",
     "it reports a fault at its next offer; with 0 0 and no text, that it is gone"},
    {"store", 3, UINT32_MAX, order_store, "store NAME TEXT",
     "it has these settings stored for its type in the network, at its next offer"},
    {"fetch", 2, 2, order_fetch, "fetch NAME", "it asks for the settings of its type at its next offer"},
    {"jumper", 3, 3, order_jumper, "jumper NAME TYPE", "its type is another, and it starts anew"},
    {"version", 3, 3, order_version, "version NAME 1|2", "it speaks 1.0, or 2.0, and starts anew"},
    {"boards", 1, 1, order_boards, "boards", "a line for each board"},
    {"help", 1, 1, order_help, "help", "these lines"},
    {"quit", 1, 1, order_quit, "quit", "the end"},
};

enum { ORDERS = sizeof orders / sizeof *orders };

static void order_help(struct house *house, const struct order *order) {
    (void)house;
    (void)order;
    tell("ok %u orders", (unsigned)ORDERS);
    for (unsigned i = 0; i < ORDERS; i++) tell("  %s: %s", orders[i].form, orders[i].means);
}

static void order_quit(struct house *house, const struct order *order) {
    (void)order;
    house->ended = true;
    tell("ok the end");
}

struct board *order_board(struct house *house, const char *name) {
    struct board *board = house_find(house, name);
    if (!board) tell("no: there is no board %.20s", name);
    return board;
}

bool order_number(const char *what, const char *word, unsigned least, unsigned most, unsigned *number) {
    uint64_t value;
    if (!number_decimal(word, &value) || value < least || value > most) {
        tell("no: %s is a number from %u to %u, and not %.20s", what, least, most, word);
        return false;
    }
    *number = (unsigned)value;
    return true;
}

/* Finds the words of a line: each ends with a zero in it. `text` is the same line without these. */
static void split(struct order *order, char *line, const char *text) {
    char *rest = line;
    memset(order, 0, sizeof *order);
    for (char *word = strtok_r(line, " ", &rest); word; word = strtok_r(NULL, " ", &rest)) {
        if (order->count < ORDER_WORDS) {
            order->words[order->count] = word;
            order->from[order->count] = text + (word - line);
        }
        order->count++;
    }
}

static void obey(struct house *house, const struct order *order) {
    unsigned i = 0;
    while (i < ORDERS && strcmp(orders[i].name, order->words[0]) != 0) i++;
    if (i == ORDERS)
        tell("no: there is no order %.20s; help lists them", order->words[0]);
    else if (order->count < orders[i].least || order->count > orders[i].most)
        tell("no: the order is %s", orders[i].form);
    else
        orders[i].act(house, order);
}

/* A complete line. */
static void take_line(struct house *house) {
    struct input *input = &house->input;
    char text[ORDER_ROOM];
    struct order order;
    while (input->count > 0 && input->line[input->count - 1] == ' ') input->count--;
    input->line[input->count] = '\0';
    memcpy(text, input->line, input->count + 1);
    split(&order, input->line, text);
    bool passed_over = order.count == 0 || order.words[0][0] == '#';
    if (!passed_over && input->too_long)
        tell("no: the line is longer than %u characters", (unsigned)ORDER_ROOM - 1);
    else if (!passed_over)
        obey(house, &order);
    input->count = 0;
    input->too_long = false;
}

/* What a byte of the input stands for: a control character for a space, one that is not ASCII for a question mark. */
static char plain(char byte) {
    unsigned char value = (unsigned char)byte;
    if (value < ' ') return ' ';
    return value < 0x7F ? byte : '?';
}

static void take_byte(struct house *house, char byte) {
    struct input *input = &house->input;
    if (byte == '\n')
        take_line(house);
    else if (input->count < ORDER_ROOM - 1)
        input->line[input->count++] = plain(byte);
    else
        input->too_long = true;
}

void orders_read(struct house *house) {
    char bytes[ORDER_ROOM];
    ssize_t count = read(house->input.descriptor, bytes, sizeof bytes);
    if (count < 0 && (errno == EINTR || errno == EAGAIN)) return;
    for (ssize_t i = 0; i < count && !house->ended; i++) take_byte(house, bytes[i]);
    if (count > 0) return;
    if (house->input.count > 0) take_line(house);
    house->input.descriptor = -1; /* the end of the orders, and not of the program */
}
