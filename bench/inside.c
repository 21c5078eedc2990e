#include "inside.h"

/* Bytes that a level takes of a payload: code, operands, and the inner message's type, packet number and length. */
enum { LEVEL = 7 };

static struct nadrelgos_header header = {
    .destination = 2, .source = 255, .subnet = SUBNET, .kind = 165, .message = 2, .packet = 0};
static struct nadrelgos_levels levels = {{{1, 2, 3, 4, 0}, {5, 6, 7, 8, 0}, {9, 10, 11, 12, 0}, {13, 14, 15, 16, 0}}};
static size_t depth;
static uint8_t payload[CT_PAYLOAD];

static size_t payload_count(void) { return CT_PAYLOAD - LEVEL * depth; }

size_t make_inside(size_t levels_around, uint8_t *frame) {
    depth = levels_around;
    for (size_t i = 0; i < sizeof payload; i++) payload[i] = (uint8_t)(i * 7 + 1);
    return nadrelgos_wrap(header, levels, depth, payload, payload_count(), frame, CT_FRAME).written;
}

size_t unwrap_proved(struct work *w, size_t times) {
    size_t sum = 0;
    while (times-- > 0) {
        struct nadrelgos_unwrapping found = nadrelgos_unwrap(w->subnet, w->bytes, w->count);
        sum += found.start + found.length;
    }
    return sum;
}

size_t wrap_proved(struct work *w, size_t times) {
    size_t sum = 0;
    while (times-- > 0)
        sum += nadrelgos_wrap(header, levels, depth, payload, payload_count(), w->out, sizeof w->out).written;
    return sum;
}
