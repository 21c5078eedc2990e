#include "wire.h"

#include <string.h>

/* The two sums over bytes. */
static void sums_over(const uint8_t *bytes, size_t count, unsigned *first, unsigned *second) {
    *first = 170;
    *second = 0;
    for (size_t i = 0; i < count; i++) {
        *first = (*first + bytes[i]) % 255;
        *second = (*second + *first) % 255;
    }
}

size_t wire_seal(uint8_t *frame, size_t end) {
    unsigned first, second;
    sums_over(frame, end, &first, &second);
    frame[end] = (uint8_t)(255 - (first + second) % 255);
    frame[end + 1] = (uint8_t)(255 - (first + frame[end]) % 255);
    return end + 2;
}

size_t wire_frame(uint8_t *frame, struct sender from, uint8_t type, uint8_t packet, uint8_t method, uint8_t parameter,
                  const uint8_t *payload, size_t count) {
    const uint8_t head[AT_PAYLOAD] = {WIRE_PANEL, from.address, from.subnet, method, parameter,
                                      0,          from.kind,    type,        packet, (uint8_t)count};
    memcpy(frame, head, sizeof head);
    memcpy(frame + AT_PAYLOAD, payload, count);
    return wire_seal(frame, AT_PAYLOAD + count);
}

void wire_make_old(uint8_t *frame, size_t count) {
    frame[AT_PACKET] |= OLD_BIT;
    wire_seal(frame, count - 2);
}

size_t wire_ack(uint8_t *frame, struct sender from, uint64_t mac, uint64_t session) {
    uint8_t payload[R2R_LENGTH] = {CODE_ACK};
    wire_put_word(payload + 1, mac);
    wire_put_word(payload + 9, session);
    return wire_frame(frame, from, TYPE_R2R, DATAFLOW, 0, 0, payload, sizeof payload);
}

void wire_put_found(uint8_t *payload, uint8_t kind, uint64_t mac, uint64_t session) {
    payload[0] = kind;
    payload[1] = 0; /* reserved */
    wire_put_word(payload + 2, mac);
    wire_put_word(payload + 10, session);
}

void wire_put_id(uint8_t *payload, uint8_t kind, uint64_t mac, uint64_t session) {
    payload[0] = kind;
    wire_put_word(payload + 1, mac);
    wire_put_word(payload + 9, session);
}

bool wire_assigns(const uint8_t *frame, uint64_t mac, uint64_t session) {
    const uint8_t *payload = frame + AT_PAYLOAD;
    return frame[AT_LENGTH] == ASSIGN_LENGTH && wire_word(payload + ASSIGN_MAC) == mac &&
           wire_word(payload + ASSIGN_SESSION) == session && payload[ASSIGN_WRITE] == 1;
}

uint64_t wire_word(const uint8_t *bytes) {
    uint64_t word = 0;
    for (unsigned i = 8; i > 0; i--) word = word << 8 | bytes[i - 1];
    return word;
}

void wire_put_word(uint8_t *bytes, uint64_t word) {
    for (unsigned i = 0; i < 8; i++) bytes[i] = (uint8_t)(word >> 8 * i);
}

bool wire_good(const uint8_t *frame, size_t count) {
    unsigned first, second;
    if (count < WIRE_AROUND || count != WIRE_AROUND + (size_t)frame[AT_LENGTH]) return false;
    sums_over(frame, count, &first, &second);
    return first == 0 && second == 0;
}
