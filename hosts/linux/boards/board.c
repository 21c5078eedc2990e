#include "board.h"

#include "chance.h"
#include "client.h"
#include "names.h"
#include "pace.h"
#include "tell.h"

#include <string.h>

void board_new_session(struct board *board) {
    board->now.session = 1 + chance_draw(&board->chance) % (UINT64_MAX - 1);
}

void board_power_off(struct board *board) {
    memset(&board->now, 0, sizeof board->now);
    board->powered = false;
}

void board_power_up(struct board *board) {
    board_power_off(board);
    board->powered = true;
    board_new_session(board);
}

bool board_wish(struct board *board, const struct request *request) {
    if (board->now.requests_waiting == BOARD_REQUESTS) return false;
    board->now.requests[board->now.requests_waiting++] = *request;
    return true;
}

/* Another system's subnet is so much above that of the board for which it answers that it is neither the panel's nor
   the 1.0 boards'. */
enum { ELSEWHERE = 100 };

/* Another system's board has its address there, and another subnet. */
static struct sender sender_of(struct board *board) {
    struct sender sender = {board->now.address, board->now.subnet, board->kind};
    if (board->faults.elsewhere > 0) {
        board->faults.elsewhere--;
        sender.subnet += ELSEWHERE;
    }
    return sender;
}

/* Room for one more answer. No message has more than BOARD_ANSWERS, and each drops those of the one before. */
static struct answer *more_answer(struct board *board) {
    struct answer *answer = &board->now.answers[board->now.answers_waiting++];
    answer->is_request = false;
    return answer;
}

/* The frame as a board of its version has it: the version bit is set by 1.0 boards alone (API Reference, 4.3). */
static void set_version(const struct board *board, struct answer *answer) {
    if (board->is_old) wire_make_old(answer->frame, answer->count);
}

/* By any method; the packet number is 0 but for the version bit. */
static struct answer *say(struct board *board, uint8_t type, uint8_t method, uint8_t parameter, const uint8_t *payload,
                          size_t count) {
    struct answer *answer = more_answer(board);
    answer->count = wire_frame(answer->frame, sender_of(board), type, 0, method, parameter, payload, count);
    set_version(board, answer);
    return answer;
}

void board_say(struct board *board, uint8_t type, const uint8_t *payload, size_t count) {
    say(board, type, 0, 0, payload, count);
}

static void say_ack(struct board *board) {
    struct answer *answer = more_answer(board);
    answer->count = wire_ack(answer->frame, sender_of(board), board->mac, board->now.session);
    set_version(board, answer);
}

static void drop_request(struct memory *now) {
    now->requests_waiting--;
    memmove(now->requests, now->requests + 1, now->requests_waiting * sizeof *now->requests);
}

void board_next_answer(struct board *board, struct answer *answer) {
    struct memory *now = &board->now;
    *answer = now->answers[0];
    now->answers_waiting--;
    memmove(now->answers, now->answers + 1, now->answers_waiting * sizeof *now->answers);
    if (answer->is_request) drop_request(now);
}

/* Whether the offer is from another panel than the last one, or from another session of it (Networking Specification,
   7.10.1). The first one after power-up is not. */
static bool panel_changed(struct memory *now, const uint8_t *payload) {
    uint64_t mac = wire_word(payload + 1), session = wire_word(payload + 9);
    bool changed = now->met && (mac != now->panel_mac || session != now->panel_session);
    now->met = true;
    now->panel_mac = mac;
    now->panel_session = session;
    return changed;
}

/* It leaves the queue only when it begins to go out: until then another message may come before it. */
static void send_request(struct board *board) {
    const struct request *r = &board->now.requests[0];
    say(board, r->type, r->method, r->parameter, r->payload, r->count)->is_request = true;
}

/* To an offer: the request that waits, else an ACK (API Reference, 6.1). To a changed panel an ACK, so that it learns
   the new session before anything else. */
static void take_offer(struct board *board, const uint8_t *frame) {
    if (panel_changed(&board->now, frame + AT_PAYLOAD)) {
        board_new_session(board);
        board->now.answers_waiting = 0;
        say_ack(board);
    } else if (board->now.answers_waiting > 0) {
        return; /* the response that it owes answers the offer (Networking Specification, 7.6.3) */
    } else if (board->now.requests_waiting > 0) {
        send_request(board);
    } else {
        say_ack(board);
    }
}

/* To a request: a furnace acknowledges first, the others give their response at once. A control command comes back as
   it is, the rest is confirmed (API Reference, 5.3 and 5.4). */
static void take_request(struct board *board, const uint8_t *frame) {
    static const uint8_t confirmed[] = {0xAC, CODE_ACK};
    bool echo = frame[AT_TYPE] == TYPE_CONTROL;
    tell_bytes(board->name, names_request(frame[AT_TYPE]), frame + AT_PAYLOAD, frame[AT_LENGTH]);
    if (board->kind == FURNACE) say_ack(board);
    say(board, (uint8_t)(frame[AT_TYPE] + TYPE_RESPONSE), frame[AT_METHOD], frame[AT_PARAMETER],
        echo ? frame + AT_PAYLOAD : confirmed, echo ? frame[AT_LENGTH] : sizeof confirmed);
}

/* To a node list: the same. A 1.0 board takes none of another length (Networking Specification, 8.1.2.4). */
static void take_list(struct board *board, const uint8_t *frame) {
    if (board->is_old && frame[AT_LENGTH] != OLD_LIST) return;
    board_say(board, TYPE_LIST + TYPE_RESPONSE, frame + AT_PAYLOAD, frame[AT_LENGTH]);
}

/* To anything but an offer: what it had still to say is not awaited any more (Networking Specification, 11.14, c). */
static void take_other(struct board *board, const uint8_t *frame) {
    uint8_t type = frame[AT_TYPE];
    board->now.answers_waiting = 0;
    if (type == TYPE_LIST) {
        take_list(board, frame);
    } else if (type == TYPE_IDENTIFY) {
        say_ack(board);
        client_identify(board);
    } else if (type >= TYPE_RESPONSE) {
        tell_bytes(board->name, "answer", frame + AT_PAYLOAD, frame[AT_LENGTH]);
        say_ack(board);
    } else if (type != TYPE_DISCOVER) { /* that is for boards without an address */
        take_request(board, frame);
    }
}

static bool is_dataflow(const uint8_t *frame, uint8_t code) {
    return frame[AT_TYPE] == TYPE_R2R && frame[AT_LENGTH] == R2R_LENGTH && frame[AT_PAYLOAD] == code;
}

/* To its address. A frame of type 0 that is no offer has no answer. The panel's ACK is no message that a deaf board
   leaves unanswered, and does not reach it either. */
static void take_message(struct board *board, const uint8_t *frame, uint64_t at) {
    bool ack = is_dataflow(frame, CODE_ACK);
    if (board->faults.deaf > 0) {
        if (!ack) board->faults.deaf--;
        return;
    }
    board->now.heard = at;
    if (frame[AT_TYPE] == TYPE_R2R && !is_dataflow(frame, CODE_OFFER)) return;
    board->now.due = at + BUS_DELAY;
    if (frame[AT_TYPE] == TYPE_R2R)
        take_offer(board, frame);
    else
        take_other(board, frame);
}

/* Only Node Discovery and Set Address are for all; the latter is for the board that it names, to whichever address. */
void board_hear(struct board *board, const uint8_t *frame, uint64_t at) {
    uint8_t to = frame[AT_DESTINATION], subnet = frame[AT_SUBNET];
    if (subnet != WIRE_ALL && subnet != board->now.subnet) return;
    if (to != WIRE_ALL && to != board->now.address) return;
    if (frame[AT_TYPE] == TYPE_ASSIGN)
        client_take(board, frame, at);
    else if (to != WIRE_ALL)
        take_message(board, frame, at);
    else if (frame[AT_TYPE] == TYPE_DISCOVER)
        client_discovered(board, frame, at);
}

static uint64_t sooner(uint64_t a, uint64_t b) {
    return a < b ? a : b;
}

uint64_t board_due(const struct board *board, uint64_t free) {
    const struct memory *now = &board->now;
    uint64_t due = NEVER;
    if (!board->powered) return NEVER;
    if (now->in_slot) due = now->slot;
    if (now->answers_waiting > 0) due = sooner(due, now->due > free ? now->due : free);
    if (now->address != 0) due = sooner(due, client_forgotten(board));
    return due;
}
