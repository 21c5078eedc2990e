/* The order that lists the boards. */
#include "order.h"
#include "tell.h"

/* The board's line: "  furnace: type 2, version 1.0, MAC 1A2B00000202, on the line, powered, address 16, ...". */
static void tell_board(const struct board *board) {
    const struct memory *now = &board->now;
    tell("  %s: type %u, version %s, MAC %012llX, %s the line, %s, address %u, subnet %u, session %016llX, "
         "requests waiting %u",
         board->name, (unsigned)board->kind, board->is_old ? "1.0" : "2.0", (unsigned long long)board->mac,
         board->plugged ? "on" : "off", board->powered ? "powered" : "no power", (unsigned)now->address,
         (unsigned)now->subnet, (unsigned long long)now->session, now->requests_waiting);
}

void order_boards(struct house *house, const struct order *order) {
    (void)order;
    tell("ok %u boards", house->count);
    for (unsigned i = 0; i < house->count; i++) tell_board(&house->boards[i]);
}
