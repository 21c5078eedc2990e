#include "client.h"

/* The shortest and the longest slot delay, in milliseconds (Networking Specification, 11.1). */
enum { SHORTEST = 100, LONGEST = 2500 };

/* A pseudorandom number (xorshift); the first is made from the MAC, so that no two boards draw the same. */
static uint64_t draw(struct board *board) {
    uint64_t x = board->drawn ? board->drawn : board->mac;
    x ^= x << 13;
    x ^= x >> 7;
    x ^= x << 17;
    return board->drawn = x;
}

unsigned client_delay(struct board *board) {
    board->session = 1 + draw(board) % (UINT64_MAX - 1);
    return SHORTEST + (unsigned)(draw(board) % (LONGEST - SHORTEST + 1));
}

void client_answer(const struct board *board, struct line *line) {
    uint8_t payload[FOUND_LENGTH];
    wire_put_found(payload, board->kind, board->mac, board->session);
    board_say(board, line, TYPE_DISCOVER + TYPE_RESPONSE, payload, sizeof payload);
}

void client_take(struct board *board, struct line *line, const uint8_t *frame) {
    const uint8_t *payload = frame + AT_PAYLOAD;
    if (board->is_old && payload[ASSIGN_SUBNET] != OLD_SUBNET) return;
    board->address = payload[ASSIGN_ADDRESS];
    board->subnet = payload[ASSIGN_SUBNET];
    board_say(board, line, TYPE_ASSIGN + TYPE_RESPONSE, payload, ASSIGN_LENGTH);
}

void client_identify(const struct board *board, struct line *line) {
    uint8_t payload[ID_LENGTH];
    wire_put_id(payload, board->kind, board->mac, board->session);
    board_say(board, line, TYPE_IDENTIFY + TYPE_RESPONSE, payload, sizeof payload);
}
