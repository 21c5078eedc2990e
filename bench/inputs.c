#include "inputs.h"

#include <string.h>

uint64_t next_random(uint64_t *seed) {
    *seed = *seed * UINT64_C(6364136223846793005) + UINT64_C(1442695040888963407);
    return *seed >> 33;
}

static size_t framed(const struct ct_header *header, const uint8_t *payload, size_t length, uint8_t *out) {
    ct_write(header, payload, length, out, CT_FRAME);
    return CT_OVERHEAD + length;
}

size_t make_frame(size_t length, uint8_t *out) {
    uint8_t payload[CT_PAYLOAD];
    for (size_t i = 0; i < length; i++) payload[i] = (uint8_t)(7 * i + 1);
    struct ct_header header = {.destination = 255, .source = 17, .subnet = SUBNET, .kind = 2, .message = 2};
    return framed(&header, payload, length, out);
}

size_t make_ack(const ct_coordinator *c, const ct_node *nodes, size_t position, uint8_t *out) {
    const ct_node *n = &nodes[position - 1];
    uint8_t payload[17] = {6};
    for (int i = 0; i < 8; i++) {
        payload[1 + i] = (uint8_t)(n->mac >> 8 * i);
        payload[9 + i] = (uint8_t)(n->session >> 8 * i);
    }
    struct ct_header header = {.destination = 255,
                               .source = c->setup.pool[position - 1],
                               .subnet = n->version == NADRELGOS_VERSION_1_0 ? NADRELGOS_OLD_SUBNET : c->setup.subnet,
                               .kind = n->kind,
                               .packet = 0x80};
    return framed(&header, payload, sizeof payload, out);
}

/* Frames with less than `noise` bytes of noise before each. */
static void make_capture(uint8_t capture[CAPTURE], size_t noise) {
    static const size_t lengths[] = {17, 17, 0, 41, 17, 240, 17, 5};
    uint64_t seed = 1;
    for (size_t i = 0; i < CAPTURE; i++) capture[i] = (uint8_t)next_random(&seed);
    size_t at = 0;
    for (size_t i = 0;; i++) {
        size_t length = lengths[i % (sizeof lengths / sizeof *lengths)];
        at += next_random(&seed) % noise;
        if (at + CT_OVERHEAD + length > CAPTURE) return;
        at += make_frame(length, capture + at);
    }
}

uint8_t make_typical(uint8_t capture[CAPTURE]) {
    make_capture(capture, 24);
    return SUBNET;
}

uint8_t make_quiet(uint8_t capture[CAPTURE]) {
    make_capture(capture, 1);
    return SUBNET;
}

uint8_t make_worst(uint8_t capture[CAPTURE]) {
    memset(capture, CT_PAYLOAD, CAPTURE);
    return CT_PAYLOAD;
}

void make_panel(struct panel *p, size_t boards, size_t last) {
    enum { KINDS = 4 }; /* in turn, so that every fourth board has one more as its index */
    uint8_t pool[NADRELGOS_NODES];
    memset(p, 0, sizeof *p);
    for (size_t i = 0; i < NADRELGOS_NODES; i++) pool[i] = (uint8_t)(16 + i);
    ct_setup(&p->coordinator, p->nodes, NADRELGOS_NODES, pool, NADRELGOS_NODES, SUBNET, 21, 0xA1B2C3D4E5,
             0x1122334455667788);
    for (size_t i = 0; i < boards; i++)
        p->nodes[i] = (ct_node){.kind = (uint8_t)(2 + i % KINDS),
                                .mac = 0x00A0B0C0D0E000 + i,
                                .session = 0x0102030405060708 + i,
                                .index = (uint8_t)(i / KINDS),
                                .version = NADRELGOS_VERSION_LATER};
    p->coordinator.last = last;
}

void owe_list(struct panel *p, size_t position, uint8_t version) {
    p->nodes[position - 1].owed = 1;
    p->nodes[position - 1].version = version;
}
