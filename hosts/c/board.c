#include "board.h"

#include "client.h"

static struct sender sender_of(const struct board *board) {
    struct sender sender = {board->address, board->subnet, board->kind};
    return sender;
}

/* By any method. */
static void say(const struct board *board, struct line *line, uint8_t type, uint8_t method, uint8_t parameter,
                const uint8_t *payload, size_t count) {
    uint8_t frame[WIRE_MOST];
    size_t length = wire_frame(frame, sender_of(board), type, 0, method, parameter, payload, count);
    if (board->is_old) wire_make_old(frame, length);
    line_put(line, frame, length);
}

void board_say(const struct board *board, struct line *line, uint8_t type, const uint8_t *payload, size_t count) {
    say(board, line, type, 0, 0, payload, count);
}

/* An ACK; `turned` bits of its code are wrong. */
static void say_ack(const struct board *board, struct line *line, uint8_t turned) {
    uint8_t frame[WIRE_MOST];
    size_t count = wire_ack(frame, sender_of(board), board->mac, board->session);
    if (board->is_old) wire_make_old(frame, count);
    frame[AT_PAYLOAD] ^= turned;
    line_put(line, frame, count);
}

/* To an offer: a request where the board has one, else an ACK. */
static void take_offer(struct board *board, struct line *line, enum lapse lapse) {
    board->offers++;
    const struct request *r = scene_request(board->part, board->offers);
    if (r)
        say(board, line, r->type, r->method, r->parameter, r->payload, r->count);
    else
        say_ack(board, line, lapse == DAMAGED ? 0x10 : 0);
}

/* To a node list: the same. A 1.0 board knows none of another length, and is silent. */
static void take_list(const struct board *board, struct line *line, const uint8_t *frame) {
    if (board->is_old && frame[AT_LENGTH] != OLD_LIST) return;
    board_say(board, line, TYPE_LIST + TYPE_RESPONSE, frame + AT_PAYLOAD, frame[AT_LENGTH]);
}

/* To another board's request: the furnace acknowledges first, the others give their response at once. */
static void take_request(const struct board *board, struct line *line, const uint8_t *frame, enum lapse lapse) {
    if (board->kind == KIND_FURNACE) say_ack(board, line, 0);
    if (lapse != NO_RESPONSE)
        say(board, line, (uint8_t)(frame[AT_TYPE] + TYPE_RESPONSE), frame[AT_METHOD], frame[AT_PARAMETER],
            frame + AT_PAYLOAD, frame[AT_LENGTH]);
}

/* To Get Node ID: an ACK, then who it is. */
static void take_identify(const struct board *board, struct line *line, enum lapse lapse) {
    say_ack(board, line, 0);
    if (lapse != NO_RESPONSE) client_identify(board, line);
}

/* What goes before the answer: noise, another board's ACK, another board's ID that nobody asks for any more. */
static void disturb(const struct board *board, struct line *line, enum lapse lapse) {
    struct board other = *board;
    other.address++;
    if (lapse == NOISE) line_put(line, (const uint8_t *)"\xFF\x10\x03", 3);
    if (lapse == TALKED_OVER) say_ack(&other, line, 0);
    if (lapse == LATE_ID) client_identify(&other, line);
}

void board_answer(struct board *board, struct line *line, const uint8_t *frame) {
    enum lapse lapse = scene_lapse(board->part, board->messages);
    uint8_t type = frame[AT_TYPE];
    if (lapse == MISSES) return;
    disturb(board, line, lapse);
    if (type == TYPE_R2R)
        take_offer(board, line, lapse);
    else if (type == TYPE_LIST)
        take_list(board, line, frame);
    else if (type == TYPE_IDENTIFY)
        take_identify(board, line, lapse);
    else if (type >= TYPE_RESPONSE)
        say_ack(board, line, 0); /* the response to its own request */
    else
        take_request(board, line, frame, lapse);
}
