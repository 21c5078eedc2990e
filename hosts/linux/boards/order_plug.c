/* Orders about the wire, the power, the jumpers and the versions of boards. */
#include "names.h"
#include "number.h"
#include "order.h"
#include "tell.h"

#include <string.h>

enum { TYPE_MOST = 255 };

static bool has_mac(const struct house *house, uint64_t mac) {
    for (unsigned i = 0; i < house->count; i++)
        if (house->boards[i].mac == mac) return true;
    return false;
}

static void plug_new(struct house *house, const struct order *order) {
    const char *name = order->words[1];
    unsigned kind;
    uint64_t mac;
    if (!order_number("TYPE", order->words[2], 1, TYPE_MOST, &kind)) return;
    if (!names_fit(name)) {
        tell("no: a name has up to 15 letters, digits, - and _, and is not `all`");
    } else if (house_find(house, name)) {
        tell("no: there is a board %s already", name);
    } else if (!number_hex(order->words[3], &mac) || mac == 0) {
        tell("no: MAC is a hexadecimal number of at most 16 digits, and not 0");
    } else if (has_mac(house, mac)) {
        tell("no: another board has this MAC");
    } else {
        struct board *board = house_add(house, name, (uint8_t)kind, mac);
        if (!board) {
            tell("no: the house has %u boards, and room for no more", house->count);
            return;
        }
        board->plugged = true;
        board_power_up(board);
        tell("ok %s is new on the line, of type %u and powered up", name, kind);
    }
}

void order_plug(struct house *house, const struct order *order) {
    if (order->count == 4) {
        plug_new(house, order);
        return;
    }
    if (order->count == 3) {
        tell("no: the order is plug NAME, or plug NAME TYPE MAC");
        return;
    }
    struct board *board = order_board(house, order->words[1]);
    if (!board) return;
    bool plugged = board->plugged, powered = board->powered;
    board->plugged = true;
    if (!powered) board_power_up(board);
    tell("ok %s is on the line%s", board->name, !powered ? " and powered up" : plugged ? " already" : "");
}

void order_unplug(struct house *house, const struct order *order) {
    struct board *board = order_board(house, order->words[1]);
    if (!board) return;
    bool plugged = board->plugged;
    house_cut(house, board);
    board->plugged = false;
    tell("ok %s is off the line%s", board->name, plugged ? "" : " already");
}

/* Power that a board has already does not come again. */
static void set_power(struct house *house, struct board *board, bool on) {
    if (board->powered == on) return;
    house_cut(house, board);
    if (on)
        board_power_up(board);
    else
        board_power_off(board);
}

void order_power(struct house *house, const struct order *order) {
    bool on = strcmp(order->words[1], "on") == 0;
    if (!on && strcmp(order->words[1], "off") != 0) {
        tell("no: the order is power on NAME|all, or power off NAME|all");
        return;
    }
    if (strcmp(order->words[2], "all") == 0) {
        for (unsigned i = 0; i < house->count; i++) set_power(house, &house->boards[i], on);
        tell("ok %s", on ? "all boards have power" : "no board has power");
        return;
    }
    struct board *board = order_board(house, order->words[2]);
    if (!board) return;
    const char *already = board->powered == on ? " already" : "";
    set_power(house, board, on);
    tell("ok %s has %s%s", board->name, on ? "power" : "no power", already);
}

/* What it is now has changed: where it has power, it starts anew. What becomes of it. */
static const char *start_anew(struct house *house, struct board *board) {
    house_cut(house, board);
    if (!board->powered) return "has no power";
    board_power_up(board);
    return "starts anew";
}

void order_jumper(struct house *house, const struct order *order) {
    struct board *board = order_board(house, order->words[1]);
    unsigned kind;
    if (!board || !order_number("TYPE", order->words[2], 1, TYPE_MOST, &kind)) return;
    board->kind = (uint8_t)kind;
    tell("ok %s is of type %u now, and %s", board->name, kind, start_anew(house, board));
}

void order_version(struct house *house, const struct order *order) {
    struct board *board = order_board(house, order->words[1]);
    unsigned version;
    if (!board || !order_number("VERSION", order->words[2], 1, 2, &version)) return;
    board->is_old = version == 1;
    tell("ok %s speaks %u.0 now, and %s", board->name, version, start_anew(house, board));
}
