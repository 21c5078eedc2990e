#include "client.h"

#include "chance.h"
#include "pace.h"
#include "tell.h"

/* The shortest and the longest slot delay (Networking Specification, 11.1), and after how long a board to which nothing
   is sent gives up its address (9.1.2, the rule for version 1.0). */
enum { SHORTEST = 100 * MILLISECOND, LONGEST = 2500 * MILLISECOND, FORGOTTEN = 120 * SECOND };

void client_discovered(struct board *board, const uint8_t *frame, uint64_t at) {
    struct memory *now = &board->now;
    uint8_t filter = frame[AT_PAYLOAD + DISCOVER_FILTER];
    if (now->address != 0 || frame[AT_LENGTH] != DISCOVER_LENGTH) return;
    if (filter != 0 && filter != board->kind) return;
    board_new_session(board);
    now->answers_waiting = 0;
    now->in_slot = true;
    uint64_t milliseconds = chance_draw(&board->chance) % ((LONGEST - SHORTEST) / MILLISECOND + 1);
    now->slot = at + SHORTEST + milliseconds * MILLISECOND;
}

void client_hold_back(struct board *board) {
    board->now.in_slot = false;
}

void client_answer(struct board *board) {
    uint8_t payload[FOUND_LENGTH];
    wire_put_found(payload, board->kind, board->mac, board->now.session);
    board->now.in_slot = false;
    board_say(board, TYPE_DISCOVER + TYPE_RESPONSE, payload, sizeof payload);
}

/* Whether it can have this address: the panel's own is none to give, and a 1.0 board knows one subnet. */
static bool can_have(const struct board *board, uint8_t address, uint8_t subnet) {
    if (address == 0) return true; /* it is to have none */
    return address != WIRE_PANEL && (!board->is_old || subnet == OLD_SUBNET);
}

void client_take(struct board *board, const uint8_t *frame, uint64_t at) {
    struct memory *now = &board->now;
    const uint8_t *payload = frame + AT_PAYLOAD;
    if (!wire_assigns(frame, board->mac, now->session)) return;
    if (!can_have(board, payload[ASSIGN_ADDRESS], payload[ASSIGN_SUBNET])) return;
    if (board->faults.deaf > 0) {
        board->faults.deaf--;
        return;
    }
    if (payload[ASSIGN_ADDRESS] == 0) {
        client_give_up(board);
    } else {
        now->address = payload[ASSIGN_ADDRESS];
        now->subnet = payload[ASSIGN_SUBNET];
        tell("%s: address %u", board->name, (unsigned)now->address);
    }
    now->heard = at;
    now->due = at + BUS_DELAY;
    now->answers_waiting = 0;
    board_say(board, TYPE_ASSIGN + TYPE_RESPONSE, payload, ASSIGN_LENGTH);
}

void client_identify(struct board *board) {
    uint8_t payload[ID_LENGTH];
    wire_put_id(payload, board->kind, board->mac, board->now.session);
    board_say(board, TYPE_IDENTIFY + TYPE_RESPONSE, payload, sizeof payload);
}

uint64_t client_forgotten(const struct board *board) {
    return board->now.heard + FORGOTTEN;
}

void client_give_up(struct board *board) {
    struct memory *now = &board->now;
    if (now->address != 0) tell("%s: address given up", board->name);
    now->address = now->subnet = 0;
    now->answers_waiting = 0;
}
