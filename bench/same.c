#include "same.h"

#include <stdio.h>
#include <string.h>

/* ---- the counterpart behind the panel's face ---- */

/* The counterpart's answer has the order of the packed one. */
static uint64_t packed(struct ct_answer answer) {
    uint64_t number;
    memcpy(&number, &answer, sizeof number);
    return number;
}

uint64_t step_counterpart(struct panel *p, uint8_t event, const struct ct_joiner *joiner, const uint8_t *received,
                          size_t count, uint8_t *out, size_t room) {
    ct_coordinator *c = &p->coordinator;
    ct_node *nodes = p->nodes;
    struct ct_answer answer;
    switch (event) {
    case NADRELGOS_EVENT_TURN: answer = ct_turn(c, nodes, NADRELGOS_NODES, out, room); break;
    case NADRELGOS_EVENT_FRAME: answer = ct_hear(c, nodes, NADRELGOS_NODES, received, count, out, room); break;
    case NADRELGOS_EVENT_QUIET: answer = ct_quiet(c, nodes, NADRELGOS_NODES); break;
    default:
        answer = ct_join(c, nodes, NADRELGOS_NODES, joiner->kind, joiner->mac, joiner->session, joiner->version);
        break;
    }
    return packed(answer);
}

/* ---- field by field: padding has no meaning ---- */

static bool same_node(const ct_node *a, const ct_node *b) {
    return a->kind == b->kind && a->mac == b->mac && a->session == b->session && a->misses == b->misses &&
           a->owed == b->owed && a->index == b->index && a->version == b->version;
}

static bool same_setup(const struct nadrelgos_settings *a, const struct nadrelgos_settings *b) {
    return memcmp(a->pool, b->pool, sizeof a->pool) == 0 && a->k == b->k && a->subnet == b->subnet &&
           a->internal == b->internal && a->mac == b->mac && a->session == b->session;
}

static bool same_kept(const struct nadrelgos_kept *a, const struct nadrelgos_kept *b) {
    return a->message == b->message && a->packet == b->packet && a->kind == b->kind && a->method == b->method &&
           a->parameter == b->parameter && a->length == b->length &&
           memcmp(a->payload, b->payload, sizeof a->payload) == 0;
}

static bool same_found(const struct nadrelgos_found *a, const struct nadrelgos_found *b) {
    return a->kind == b->kind && a->version == b->version && a->mac == b->mac && a->session == b->session;
}

static bool same_panel(const struct panel *a, const struct panel *b) {
    const ct_coordinator *c = &a->coordinator, *d = &b->coordinator;
    for (size_t i = 0; i < NADRELGOS_NODES; i++)
        if (!same_node(&a->nodes[i], &b->nodes[i])) return false;
    return same_setup(&c->setup, &d->setup) && c->last == d->last && c->held == d->held &&
           c->searched == d->searched && c->stand.stage == d->stand.stage && c->stand.board == d->stand.board &&
           c->stand.requester == d->stand.requester && same_kept(&c->kept, &d->kept) &&
           same_found(&c->found, &d->found);
}

/* ---- frames ---- */

static bool same_reading_in(uint8_t ours, const uint8_t *bytes, size_t count) {
    struct read_numbers r = measure_read(ours, bytes, count);
    struct ct_frame f = {.length = 0};
    ct_refusal refusal = ct_read(ours, bytes, count, &f);
    return r.refusal == refusal && r.length == f.length && memcmp(&r.header, &f.header, sizeof f.header) == 0;
}

/* In our subnet, in another, and in 0. */
static bool same_reading(const uint8_t *bytes, size_t count) {
    return same_reading_in(SUBNET, bytes, count) && same_reading_in(SUBNET + 1, bytes, count) &&
           same_reading_in(0, bytes, count) && measure_good(bytes, count) == ct_good(bytes, count);
}

static bool same_writing(const uint8_t *bytes, size_t length, size_t room) {
    uint8_t a[CT_FRAME + 8], b[CT_FRAME + 8];
    memset(a, 0xEE, sizeof a);
    memset(b, 0xEE, sizeof b);
    struct ct_header header;
    memcpy(&header, bytes, sizeof header);
    struct write_numbers w = measure_write(header, bytes + 10, length, a, room);
    ct_refusal refusal = ct_write(&header, bytes + 10, length, b, room);
    if (w.refusal != refusal || w.written != (refusal ? 0 : CT_OVERHEAD + length) || memcmp(a, b, sizeof a) != 0)
        return false;
    memset(a, 0xEE, sizeof a);
    struct write_numbers r = measure_write_ready(measure_prepare(header), bytes + 10, length, a, room);
    return r.refusal == w.refusal && r.written == w.written && memcmp(a, b, sizeof a) == 0;
}

static bool same_finding(uint8_t ours, const uint8_t *bytes, size_t count, size_t budget) {
    struct nadrelgos_finding a = nadrelgos_find(ours, bytes, count, budget);
    ct_finding b = ct_find(ours, bytes, count, budget);
    return a.number == b.number && a.start == b.start && a.length == b.length && a.tried == b.tried;
}

/* The finder sums a long stretch in parts of 3,845 starts: a frame in noise at every place about the end of the first. */
static bool same_parts(void) {
    enum { PART = 3845, LONG = 2 * CAPTURE };
    static uint8_t noise[LONG], stretch[LONG];
    uint64_t seed = 3;
    for (size_t i = 0; i < LONG; i++) noise[i] = (uint8_t)next_random(&seed);
    for (size_t at = PART - CT_FRAME; at <= PART + CT_FRAME; at++) {
        memcpy(stretch, noise, LONG);
        make_frame(at % (CT_PAYLOAD + 1), stretch + at);
        if (!same_finding(SUBNET, stretch, LONG, LONG)) return false;
    }
    return same_finding(SUBNET, noise, LONG, LONG) && same_finding(SUBNET, noise, LONG, PART) &&
           same_finding(SUBNET, noise, LONG, PART + 1);
}

static bool same_wire(void) {
    uint8_t frame[2 * CT_FRAME], capture[CAPTURE];
    uint64_t seed = 2;
    for (size_t length = 0; length <= CT_PAYLOAD; length++) {
        size_t count = make_frame(length, frame);
        if (!same_reading(frame, count) || !same_writing(frame, length, CT_FRAME) ||
            !same_writing(frame, length, count - 1))
            return false;
        frame[next_random(&seed) % count] ^= 1;
        if (!same_reading(frame, count) || !same_reading(frame, count - 1)) return false;
    }
    uint8_t ours = make_typical(capture);
    for (size_t at = 0; at < CAPTURE; at++)
        if (!same_finding(ours, capture + at, CAPTURE - at, CAPTURE) || !same_finding(ours, capture, at, at / 2) ||
            !same_finding(ours + 1, capture + at, CAPTURE - at, CAPTURE))
            return false;
    uint8_t worst = make_worst(capture);
    return same_parts() && same_finding(worst, capture, CAPTURE, CAPTURE) &&
           ct_find(worst, capture, CAPTURE, CAPTURE).number == NADRELGOS_NOTHING;
}

/* ---- steps ---- */

static const uint8_t nothing[1];
static const struct ct_joiner nobody;

/* The same step on both; what they leave must be the same. */
static bool same_step(struct panel *ours, struct panel *theirs, uint8_t event, struct ct_joiner joiner,
                      const uint8_t *received, size_t count, size_t room) {
    uint8_t a[CT_FRAME + 8], b[CT_FRAME + 8];
    memset(a, 0xEE, sizeof a);
    memset(b, 0xEE, sizeof b);
    uint64_t x = nadrelgos_step(&ours->coordinator, ours->nodes, NADRELGOS_NODES, event, joiner.kind, joiner.mac,
                                joiner.session, joiner.version, received, count, a, room);
    uint64_t y = step_counterpart(theirs, event, &joiner, received, count, b, room);
    return x == y && memcmp(a, b, sizeof a) == 0 && same_panel(ours, theirs);
}

/* Mostly the board's own subnet, else ours, that of 1.0 boards, or any. */
static uint8_t random_subnet(const ct_node *n, uint64_t *seed) {
    switch (next_random(seed) % 16) {
    case 0: return (uint8_t)next_random(seed);
    case 1: return SUBNET;
    case 2: return NADRELGOS_OLD_SUBNET;
    default: return n->version == NADRELGOS_VERSION_1_0 ? NADRELGOS_OLD_SUBNET : SUBNET;
    }
}

/* A frame that the wait may take, or nearly. */
static size_t random_frame(const struct panel *p, uint64_t *seed, uint8_t *out) {
    const ct_coordinator *c = &p->coordinator;
    const ct_node *nodes = p->nodes;
    size_t board = c->stand.board;
    if (board < 1 || board > NADRELGOS_NODES) return make_frame(next_random(seed) % (CT_PAYLOAD + 1), out);
    ct_node n = nodes[board - 1];
    if (next_random(seed) % 16 == 0) n.mac++;
    if (next_random(seed) % 16 == 0) n.session++;
    ct_node one[NADRELGOS_NODES];
    memcpy(one, nodes, sizeof one);
    one[board - 1] = n;
    size_t count;
    if (next_random(seed) % 3 == 0) {
        count = make_ack(c, one, board, out);
    } else {
        uint8_t payload[CT_PAYLOAD] = {c->setup.internal};
        size_t length = next_random(seed) % (CT_PAYLOAD + 1);
        static const uint8_t commands[] = {100, 101, 102, 105, 106, 2, 3, 9, 21, 0, 1, 40};
        struct ct_header header = {.destination = 255,
                                   .source = c->setup.pool[board - 1],
                                   .subnet = random_subnet(&n, seed),
                                   .method = (uint8_t)(next_random(seed) % 5),
                                   .parameter1 = commands[next_random(seed) % sizeof commands],
                                   .parameter2 = 1,
                                   .kind = n.kind,
                                   .message = (uint8_t)(1 + next_random(seed) % 130),
                                   .packet = 9};
        if (c->stand.stage == CT_STAGE_WAIT_LIST) {
            header.message = 0x94;
            length = ct_list(c, nodes, board, payload);
            if (next_random(seed) % 8 == 0) payload[length - 1]++;
        } else if (c->stand.stage == CT_STAGE_WAIT_FORWARD || c->stand.stage == CT_STAGE_WAIT_FORWARD_ACKED) {
            header.message = (uint8_t)(c->kept.message + 128);
        }
        if (next_random(seed) % 16 == 0) header.source++;
        if (next_random(seed) % 16 == 0) header.destination = 0;
        ct_write(&header, payload, length, out, CT_FRAME);
        count = CT_OVERHEAD + length;
    }
    if (next_random(seed) % 16 == 0) out[next_random(seed) % count] ^= 0x10;
    return count - (next_random(seed) % 32 == 0);
}

/* One bit of what is lent is changed for one step: anywhere in the coordinator or the records, in an index or in a
   version. */
static void spoil(struct panel *p, uint64_t *seed) {
    uint8_t *byte;
    switch (next_random(seed) % 4) {
    case 0: byte = (uint8_t *)&p->coordinator + next_random(seed) % sizeof p->coordinator; break;
    case 1: byte = (uint8_t *)p->nodes + next_random(seed) % sizeof p->nodes; break;
    case 2: byte = &p->nodes[next_random(seed) % NADRELGOS_NODES].index; break;
    default: byte = &p->nodes[next_random(seed) % NADRELGOS_NODES].version; break;
    }
    *byte ^= (uint8_t)(1 << next_random(seed) % 8);
}

static bool same_play(size_t boards, size_t steps) {
    struct panel ours, theirs;
    uint64_t seed = boards;
    make_panel(&theirs, boards, 0);
    for (size_t i = 1; i < boards; i += 2) theirs.nodes[i].version = NADRELGOS_VERSION_1_0;
    ours = theirs;
    for (size_t i = 0; i < steps; i++) {
        uint8_t received[CT_FRAME + 1];
        size_t count = random_frame(&theirs, &seed, received);
        size_t room = next_random(&seed) % 16 ? CT_FRAME : next_random(&seed) % CT_FRAME;
        uint64_t pick = next_random(&seed) % 16, board = next_random(&seed) % (NADRELGOS_NODES + 4);
        uint8_t event = pick < 6    ? NADRELGOS_EVENT_TURN
                        : pick < 13 ? NADRELGOS_EVENT_FRAME
                        : pick < 14 ? NADRELGOS_EVENT_QUIET
                                    : NADRELGOS_EVENT_JOIN;
        uint8_t kind = (uint8_t)(next_random(&seed) % 7), version = (uint8_t)(next_random(&seed) % 4);
        struct ct_joiner joiner = {kind, 0xA0B0C0D0E000 + board, i, version};
        if (next_random(&seed) % 8 == 0) {
            struct panel spoilt = theirs;
            spoil(&spoilt, &seed);
            struct panel same = spoilt;
            if (!same_step(&same, &spoilt, event, joiner, received, count, room)) return false;
        }
        if (!same_step(&ours, &theirs, event, joiner, received, count, room)) return false;
    }
    return true;
}

/* The steps that are timed: an offer, its ACK, and a quiet in its place. */
static bool same_round(size_t boards) {
    for (size_t last = 0; last < boards; last++) {
        uint8_t ack[CT_FRAME];
        struct panel ours, theirs, waiting;
        make_panel(&theirs, boards, last);
        ours = theirs;
        if (!same_step(&ours, &theirs, NADRELGOS_EVENT_TURN, nobody, ack, 0, CT_FRAME) ||
            theirs.coordinator.stand.stage != CT_STAGE_WAIT_OFFER)
            return false;
        waiting = theirs;
        size_t count = make_ack(&theirs.coordinator, theirs.nodes, theirs.coordinator.stand.board, ack);
        if (!same_step(&ours, &theirs, NADRELGOS_EVENT_FRAME, nobody, ack, count, CT_FRAME) ||
            theirs.coordinator.stand.stage != CT_STAGE_RESTING)
            return false;
        ours = theirs = waiting;
        if (!same_step(&ours, &theirs, NADRELGOS_EVENT_QUIET, nobody, ack, 0, CT_FRAME) ||
            theirs.coordinator.stand.stage != CT_STAGE_RESTING)
            return false;
    }
    return true;
}

/* And the lists, to a board of either version at each position. */
static bool same_lists(size_t boards) {
    for (size_t position = 1; position <= boards; position++)
        for (uint8_t version = NADRELGOS_VERSION_1_0; version <= NADRELGOS_VERSION_LATER; version++) {
            struct panel ours, theirs;
            make_panel(&theirs, boards, 0);
            owe_list(&theirs, position, version);
            ours = theirs;
            if (!same_step(&ours, &theirs, NADRELGOS_EVENT_TURN, nobody, nothing, 0, CT_FRAME) ||
                theirs.coordinator.stand.stage != CT_STAGE_WAIT_LIST)
                return false;
        }
    return true;
}

/* What a play does not come to by chance: nobody listed, a full table, a board that leaves while joins are held. */
static bool same_corners(void) {
    struct panel ours, theirs;
    make_panel(&theirs, NADRELGOS_NODES, 0);
    ours = theirs;
    const struct ct_joiner good = {2, 1, 1, 2}, bad = {2, 0, 1, 2};
    if (!same_step(&ours, &theirs, NADRELGOS_EVENT_JOIN, good, nothing, 0, 0) ||
        !same_step(&ours, &theirs, NADRELGOS_EVENT_JOIN, bad, nothing, 0, 0))
        return false;
    make_panel(&theirs, 0, 0);
    ours = theirs;
    if (!same_step(&ours, &theirs, NADRELGOS_EVENT_TURN, nobody, nothing, 0, CT_FRAME) ||
        !same_step(&ours, &theirs, NADRELGOS_EVENT_JOIN, good, nothing, 0, 0))
        return false;
    for (int i = 0; i < 3; i++) {
        theirs.nodes[0].owed = ours.nodes[0].owed = 1;
        if (!same_step(&ours, &theirs, NADRELGOS_EVENT_TURN, nobody, nothing, 0, CT_FRAME) ||
            !same_step(&ours, &theirs, NADRELGOS_EVENT_QUIET, nobody, nothing, 0, 0))
            return false;
    }
    return theirs.nodes[0].kind == 0 && theirs.coordinator.held == 0;
}

/* Every number as a byte of every record, listed or free: those that are right and all that are wrong. */
static bool same_bytes(size_t offset) {
    struct panel fit;
    make_panel(&fit, NADRELGOS_NODES / 2, 0);
    for (size_t i = 0; i < NADRELGOS_NODES; i++)
        for (unsigned number = 0; number <= UINT8_MAX; number++)
            for (uint8_t event = NADRELGOS_EVENT_JOIN; event <= NADRELGOS_EVENT_QUIET; event++) {
                struct panel ours = fit, theirs;
                *((uint8_t *)&ours.nodes[i] + offset) = (uint8_t)number;
                theirs = ours;
                if (!same_step(&ours, &theirs, event, (struct ct_joiner){3, 1, 1, 2}, nothing, 0, CT_FRAME))
                    return false;
            }
    return true;
}

/* A panel whose boards are of so many types by turns, and the one at position `old`, if any, a 1.0 board. */
static void make_typed(struct panel *p, size_t boards, size_t types, size_t old) {
    make_panel(p, boards, 0);
    for (size_t i = 0; i < boards; i++) {
        p->nodes[i].kind = (uint8_t)(2 + i % types);
        p->nodes[i].index = (uint8_t)(i / types);
    }
    if (old) p->nodes[old - 1].version = NADRELGOS_VERSION_1_0;
}

/* Joins where there are about as many types as a 1.0 board allows, with such a board at each position or at none: of a
   new board or a listed one, of a type that is there or another, of either version, at a full table or not. */
static bool same_types(size_t boards, size_t types, size_t old) {
    for (unsigned joiner = 0; joiner < 8; joiner++) {
        struct panel ours, theirs;
        make_typed(&theirs, boards, types, old);
        ours = theirs;
        struct ct_joiner who = {joiner & 1 ? 3 : 99, joiner & 2 ? theirs.nodes[boards - 1].mac : 1, 1,
                                joiner & 4 ? NADRELGOS_VERSION_1_0 : NADRELGOS_VERSION_LATER};
        if (!same_step(&ours, &theirs, NADRELGOS_EVENT_JOIN, who, nothing, 0, 0)) return false;
    }
    return true;
}

static bool same_old(void) {
    for (size_t boards = NADRELGOS_NODES - 3; boards <= NADRELGOS_NODES; boards++)
        for (size_t types = NADRELGOS_OLD_TYPES - 1; types <= NADRELGOS_OLD_TYPES + 2; types++)
            for (size_t old = 0; old <= boards; old++)
                if (!same_types(boards, types, old)) return false;
    return same_bytes(offsetof(ct_node, version));
}

static bool same_setup_of(const uint8_t *pool, size_t k, size_t nodes_count, uint64_t mac) {
    struct panel ours, theirs;
    make_panel(&theirs, 8, 3);
    ours = theirs;
    struct ct_answer answer = ct_setup(&theirs.coordinator, theirs.nodes, nodes_count, pool, k, 1, 2, mac, 3);
    return nadrelgos_setup(&ours.coordinator, ours.nodes, nodes_count, pool, k, 1, 2, mac, 3) == packed(answer) &&
           same_panel(&ours, &theirs);
}

static bool same_setups(void) {
    uint8_t pool[NADRELGOS_NODES + 1];
    for (size_t i = 0; i <= NADRELGOS_NODES; i++) pool[i] = (uint8_t)(3 * i + 1);
    bool same = true;
    for (size_t k = 0; k <= NADRELGOS_NODES + 1; k++)
        same = same && same_setup_of(pool, k, NADRELGOS_NODES, 1) && same_setup_of(pool, k, NADRELGOS_NODES, 0) &&
               same_setup_of(pool, k, 39, 1);
    pool[7] = pool[6];
    same = same && same_setup_of(pool, 8, NADRELGOS_NODES, 1);
    pool[0] = 0;
    same = same && same_setup_of(pool, 1, NADRELGOS_NODES, 1);
    pool[0] = 255;
    return same && same_setup_of(pool, 1, NADRELGOS_NODES, 1);
}

/* ---- shared data ---- */

static bool same_holder(const uint8_t *network, const uint8_t *factory, size_t count, uint8_t sector) {
    struct nadrelgos_holder a = nadrelgos_shared_holder(network, NADRELGOS_IMAGE, factory, count, sector);
    ct_holder b = ct_shared_holder(network, NADRELGOS_IMAGE, factory, count, sector);
    return a.refusal == b.refusal && a.image == b.image && a.slot == b.slot && a.start == b.start &&
           a.length == b.length;
}

/* Both store in the same image; what they leave must be the same. */
static bool same_store(uint8_t *ours, size_t count, uint8_t sector, const uint8_t *record, size_t length) {
    static uint8_t theirs[NADRELGOS_IMAGE];
    memcpy(theirs, ours, sizeof theirs);
    struct nadrelgos_storing a = nadrelgos_shared_store(ours, count, sector, record, length);
    ct_storing b = ct_shared_store(theirs, count, sector, record, length);
    return a.refusal == b.refusal && a.slot == b.slot && a.start == b.start && a.length == b.length &&
           memcmp(ours, theirs, sizeof theirs) == 0;
}

/* Records of every length, of more sectors than there are slots, and any byte of the image changed in between. The
   factory image is what the network's copy once was. */
static bool same_shared(void) {
    enum { STORES = 20000, SECTORS = 60, MORE = 210 };
    static uint8_t network[NADRELGOS_IMAGE], factory[NADRELGOS_IMAGE], record[MORE];
    uint64_t seed = 4;
    for (size_t i = 0; i < STORES; i++) {
        uint8_t sector = (uint8_t)(next_random(&seed) % SECTORS);
        for (size_t j = 0; j < MORE; j++) record[j] = (uint8_t)next_random(&seed);
        if (!same_store(network, NADRELGOS_IMAGE - (i % 64 == 0), sector, record, next_random(&seed) % MORE) ||
            !same_holder(network, factory, NADRELGOS_IMAGE - (i % 64 == 1), (uint8_t)(next_random(&seed) % SECTORS)))
            return false;
        if (i == NADRELGOS_SLOTS) memcpy(factory, network, sizeof factory);
        network[next_random(&seed) % NADRELGOS_IMAGE] = (uint8_t)next_random(&seed);
    }
    return true;
}

static bool said(const char *what, bool same) {
    if (!same) printf("bench: %s: the proved code and the counterpart DIFFER\n", what);
    return same;
}

static bool same_steps(void) {
    static const size_t boards[] = {1, 8, 40};
    for (size_t i = 0; i < 3; i++)
        if (!same_round(boards[i]) || !same_lists(boards[i]) || !same_play(boards[i], 20000)) return false;
    return same_corners() && same_bytes(offsetof(ct_node, index)) && same_old();
}

bool all_same(void) {
    return said("checksum, read, write, find", same_wire()) && said("lent step", same_steps()) &&
           said("setup", same_setups()) && said("shared data", same_shared());
}
