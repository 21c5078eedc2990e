/* Orders to send a request at the next offer. */
#include "order.h"
#include "tell.h"

#include <string.h>

/* Heat demand: its control command code, which is also the send parameter (Networking Specification, table 3). */
enum { HEAT = 100, PERCENT_MOST = 100, BY_COMMAND = 1 };

/* The longest text of a display message and of a fault (API Reference, 5.4 and 5.5). */
enum { DISPLAY_MOST = 30, FAULT_MOST = 15 };

/* A record of shared data: length, control ID, manufacturer ID and node type, then settings (API Reference, table 22),
   of which a request here has room for so many. The IDs are made up. */
enum { RECORD_HEAD = 6, SETTINGS_MOST = REQUEST_MOST - 1 - RECORD_HEAD, MADE_UP = 1 };

/* The request waits, or there is a reason why not, which is then answered. */
static bool wish(struct board *board, const struct request *request) {
    if (!board->powered)
        tell("no: %s has no power", board->name);
    else if (!board_wish(board, request))
        tell("no: %u requests of %s wait already", (unsigned)BOARD_REQUESTS, board->name);
    else
        return true;
    return false;
}

void order_heat(struct house *house, const struct order *order) {
    struct board *board = order_board(house, order->words[1]);
    unsigned percent;
    if (!board || !order_number("PERCENT", order->words[2], 0, PERCENT_MOST, &percent)) return;
    struct request request = {TYPE_CONTROL, BY_COMMAND, HEAT, {HEAT, 0, (uint8_t)percent, 0}, 4};
    if (wish(board, &request)) tell("ok %s sends heat demand %u at its next offer", board->name, percent);
}

/* Puts text behind what the payload has. Where it is too long, that is answered. */
static bool put(struct request *request, const char *text, size_t most) {
    size_t length = strlen(text);
    if (length > most) {
        tell("no: the text has up to %zu characters, and not %zu", most, length);
        return false;
    }
    memcpy(request->payload + request->count, text, length);
    request->count += length;
    return true;
}

/* Length and text. */
static bool put_text(struct request *request, const char *text, size_t most) {
    request->payload[request->count++] = (uint8_t)strlen(text);
    return put(request, text, most);
}

/* Node type, length, text (API Reference, 5.4): to the panel, by method 0. */
void order_display(struct house *house, const struct order *order) {
    struct board *board = order_board(house, order->words[1]);
    if (!board) return;
    const char *text = order->from[2];
    struct request request = {TYPE_DISPLAY, 0, 0, {board->kind}, 1};
    if (put_text(&request, text, DISPLAY_MOST) && wish(board, &request))
        tell("ok %s sends \"%s\" at its next offer", board->name, text);
}

/* Node type, fault codes, length, text (API Reference, 5.5): to the panel, by method 0. */
void order_fault(struct house *house, const struct order *order) {
    struct board *board = order_board(house, order->words[1]);
    unsigned major, minor;
    if (!board || !order_number("MAJOR", order->words[2], 0, UINT8_MAX, &major)) return;
    if (!order_number("MINOR", order->words[3], 0, UINT8_MAX, &minor)) return;
    const char *text = order->count > 4 ? order->from[4] : "";
    struct request request = {TYPE_DIAGNOSTICS, 0, 0, {board->kind, (uint8_t)major, (uint8_t)minor}, 3};
    if (put_text(&request, text, FAULT_MOST) && wish(board, &request))
        tell("ok %s reports fault %u, %u \"%s\" at its next offer", board->name, major, minor, text);
}

/* Sector, its own type, and record, the settings as text (API Reference, 5.10): to the panel, by method 0. */
void order_store(struct house *house, const struct order *order) {
    struct board *board = order_board(house, order->words[1]);
    if (!board) return;
    const char *text = order->from[2];
    uint8_t kind = board->kind, length = (uint8_t)(RECORD_HEAD + strlen(text));
    struct request request = {TYPE_SET_SHARED, 0, 0, {kind, length, MADE_UP, 0, MADE_UP, 0, kind}, 1 + RECORD_HEAD};
    if (put(&request, text, SETTINGS_MOST) && wish(board, &request))
        tell("ok %s stores \"%s\" at its next offer", board->name, text);
}

/* The sector alone, its own type (API Reference, 5.11): to the panel, by method 0. */
void order_fetch(struct house *house, const struct order *order) {
    struct board *board = order_board(house, order->words[1]);
    if (!board) return;
    struct request request = {TYPE_GET_SHARED, 0, 0, {board->kind}, 1};
    if (wish(board, &request)) tell("ok %s asks for what is stored for its type at its next offer", board->name);
}
