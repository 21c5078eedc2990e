#include "counterpart.h"

#include <string.h>

enum {
    COORDINATOR = 255, /* our address */
    OUR_KIND = 165,
    TYPE_R2R = 0x00,
    TYPE_LIST = 0x14,
    TYPE_ECHO = 0x94,
    TYPE_FIRST_REPLY = 0xF9, /* to Node Discovery, then to Set Address and to Get Node ID */
    TYPE_LAST_REPLY = 0xFB,
    RESPONSE = 128, /* a response's type is its request's and this */
    CODE_OFFER = 0x00,
    CODE_ACK = 0x06,
    PACKET_DATAFLOW = 0x80,
    SIGNED = 17 /* code, MAC, session */
};

/* ---- checksum ---- */

struct sums {
    uint32_t first, second;
};

/* Remainders are left to the end of a stretch: over 4,096 bytes neither sum leaves 32 bits. */
static struct sums sums_over(const uint8_t *bytes, size_t count) {
    uint32_t first = 170, second = 0;
    while (count > 0) {
        size_t stretch = count < 4096 ? count : 4096;
        count -= stretch;
        for (; stretch > 0; stretch--) {
            first += *bytes++;
            second += first;
        }
        first %= 255;
        second %= 255;
    }
    return (struct sums){first, second};
}

bool ct_good(const uint8_t *bytes, size_t count) {
    struct sums s = sums_over(bytes, count);
    return s.first == 0 && s.second == 0;
}

/* ---- frame ---- */

static bool takes_subnet(uint8_t ours, uint8_t subnet) {
    return subnet == ours || subnet == 0;
}

ct_refusal ct_read(uint8_t ours, const uint8_t *bytes, size_t count, struct ct_frame *frame) {
    if (count < CT_OVERHEAD) return NADRELGOS_SHORT;
    size_t length = bytes[9];
    if (length > CT_PAYLOAD) return NADRELGOS_OVER_LONG;
    if (count != CT_OVERHEAD + length) return NADRELGOS_LENGTH_MISMATCH;
    if (!ct_good(bytes, count)) return NADRELGOS_BAD_CHECKSUM;
    if (!takes_subnet(ours, bytes[2])) return NADRELGOS_OTHER_SUBNET;
    memcpy(&frame->header, bytes, sizeof frame->header);
    frame->payload = bytes + 10;
    frame->length = length;
    return NADRELGOS_ACCEPTED;
}

ct_refusal ct_write(const struct ct_header *header, const uint8_t *payload, size_t length, uint8_t *out, size_t room) {
    if (length > CT_PAYLOAD) return NADRELGOS_PAYLOAD_TOO_LONG;
    if (room < CT_OVERHEAD + length) return NADRELGOS_NO_ROOM;
    memcpy(out, header, sizeof *header);
    out[9] = (uint8_t)length;
    memcpy(out + 10, payload, length);
    struct sums s = sums_over(out, 10 + length);
    uint32_t check = 255 - (s.first + s.second) % 255;
    out[10 + length] = (uint8_t)check;
    out[11 + length] = (uint8_t)(255 - (s.first + check) % 255);
    return NADRELGOS_ACCEPTED;
}

/* ---- finder ---- */

ct_finding ct_find(uint8_t ours, const uint8_t *bytes, size_t count, size_t budget) {
    size_t starts = count < CT_OVERHEAD ? 0 : count - (CT_OVERHEAD - 1);
    size_t limit = budget < starts ? budget : starts;
    for (size_t at = 0; at < limit; at++) {
        if (!takes_subnet(ours, bytes[at + 2])) continue;
        size_t length = CT_OVERHEAD + bytes[at + 9];
        if (length <= CT_FRAME && length <= count - at && ct_good(bytes + at, length))
            return (ct_finding){NADRELGOS_FOUND, at, length, at + 1};
    }
    if (budget < starts) return (ct_finding){NADRELGOS_SPENT, 0, 0, budget};
    return (ct_finding){NADRELGOS_NOTHING, 0, 0, starts};
}

/* ---- boards and positions; position p is nodes[p - 1] ---- */

static bool is_listed(const ct_node *nodes, size_t position) {
    return position >= 1 && position <= NADRELGOS_NODES && nodes[position - 1].kind != 0;
}

static bool is_mac(uint64_t mac) {
    return mac != 0 && mac < (UINT64_C(1) << 56);
}

static bool is_kind(uint8_t kind) {
    return kind != 0 && kind != OUR_KIND;
}

static uint8_t address_of(const ct_coordinator *c, size_t position) {
    return c->setup.pool[position - 1];
}

static bool anyone_listed(const ct_node *nodes) {
    for (size_t i = 0; i < NADRELGOS_NODES; i++)
        if (nodes[i].kind != 0) return true;
    return false;
}

static size_t lowest_of_kind(const ct_node *nodes, size_t k, uint8_t kind) {
    if (kind == 0) return 0;
    for (size_t i = 0; i < k; i++)
        if (nodes[i].kind == kind) return i + 1;
    return 0;
}

static size_t lowest_owed(const ct_node *nodes, size_t k) {
    for (size_t i = 0; i < k; i++)
        if (nodes[i].kind != 0 && nodes[i].owed) return i + 1;
    return 0;
}

static bool is_old(const ct_node *n) {
    return n->version == NADRELGOS_VERSION_1_0;
}

/* Every index counted anew, in one pass: boards come, go and change their types too seldom for more. */
static void count_indexes(ct_node *nodes) {
    uint8_t lower[256] = {0}; /* of each type, at lower positions */
    for (size_t i = 0; i < NADRELGOS_NODES; i++)
        nodes[i].index = nodes[i].kind ? lower[nodes[i].kind]++ : 0;
}

static void owe_all(ct_node *nodes) {
    for (size_t i = 0; i < NADRELGOS_NODES; i++)
        if (nodes[i].kind != 0) nodes[i].owed = 1;
}

/* ---- fit (01, "Fit") ---- */

static bool pool_fits(const uint8_t *addresses, size_t k) {
    if (k < 1 || k > NADRELGOS_NODES) return false;
    if (addresses[0] == 0 || addresses[k - 1] == 255) return false;
    for (size_t i = 1; i < k; i++)
        if (addresses[i - 1] >= addresses[i]) return false;
    return true;
}

static bool is_version(uint8_t version) {
    return version == NADRELGOS_VERSION_1_0 || version == NADRELGOS_VERSION_LATER;
}

static bool record_fits(const ct_node *n, bool may_be_listed) {
    if (n->kind == 0)
        return n->mac == 0 && n->session == 0 && n->misses == 0 && n->owed == 0 && n->index == 0 && n->version == 0;
    return may_be_listed && n->kind != OUR_KIND && is_mac(n->mac) && n->misses <= 2 && n->owed <= 1 &&
           is_version(n->version);
}

static bool table_fits(const ct_node *nodes, size_t k) {
    uint8_t lower[256] = {0}; /* of each type, at lower positions */
    size_t types = 0, old = 0;
    for (size_t i = 0; i < NADRELGOS_NODES; i++) {
        if (!record_fits(&nodes[i], i < k)) return false;
        if (nodes[i].kind == 0) continue;
        if (nodes[i].index != lower[nodes[i].kind]++) return false;
        for (size_t j = 0; j < i; j++)
            if (nodes[j].mac == nodes[i].mac) return false;
        types += nodes[i].index == 0; /* the first of its type */
        old += is_old(&nodes[i]);
    }
    return old == 0 || types <= NADRELGOS_OLD_TYPES;
}

static bool keeps_request(const struct nadrelgos_kept *m) {
    return m->message >= 1 && m->message <= 127 && m->method >= 1 && m->method <= 3 && m->length <= CT_PAYLOAD;
}

static bool keeps_response(const struct nadrelgos_kept *m) {
    return m->message > RESPONSE && m->length <= CT_PAYLOAD;
}

static bool stake_fits(const ct_coordinator *c) {
    return c->stand.board >= 1 && c->stand.board <= c->setup.k;
}

static bool found_fits(const struct nadrelgos_found *f) {
    return is_kind(f->kind) && is_mac(f->mac) && is_version(f->version);
}

static bool stand_fits(const ct_coordinator *c, const ct_node *nodes) {
    const struct nadrelgos_stand *s = &c->stand;
    switch (s->stage) {
    case CT_STAGE_RESTING: return true;
    case CT_STAGE_WAIT_OFFER:
    case CT_STAGE_WAIT_LIST:
    case CT_STAGE_WAIT_RETURN: return is_listed(nodes, s->board);
    case CT_STAGE_WAIT_FORWARD:
    case CT_STAGE_WAIT_FORWARD_ACKED:
    case CT_STAGE_FORWARD_DUE:
        return is_listed(nodes, s->board) && is_listed(nodes, s->requester) && keeps_request(&c->kept);
    case CT_STAGE_RETURN_DUE: return is_listed(nodes, s->board) && keeps_response(&c->kept);
    case CT_STAGE_WAIT_SEARCH: return stake_fits(c);
    case CT_STAGE_IDENTIFY_DUE:
    case CT_STAGE_WAIT_IDENTIFY:
    case CT_STAGE_WAIT_IDENTIFY_ACKED:
    case CT_STAGE_ASSIGN_DUE:
    case CT_STAGE_WAIT_ASSIGN: return stake_fits(c) && found_fits(&c->found);
    default: return false;
    }
}

static bool is_fit(const ct_coordinator *c, const ct_node *nodes, size_t nodes_count) {
    return nodes_count == NADRELGOS_NODES && pool_fits(c->setup.pool, c->setup.k) && is_mac(c->setup.mac) &&
           table_fits(nodes, c->setup.k) && stand_fits(c, nodes) && c->searched <= 1 &&
           (c->held == 0 || (c->held == 1 && anyone_listed(nodes))) && c->last <= c->setup.k;
}

/* ---- answers ---- */

static struct ct_answer refuse(ct_refusal number) {
    return (struct ct_answer){.refusal = (uint8_t)number};
}

static struct ct_answer does(enum nadrelgos_answer_number what, size_t written) {
    return (struct ct_answer){.does = (uint8_t)what, .written = (uint16_t)written};
}

static struct ct_answer wait_for(size_t board, enum nadrelgos_exchange_number exchange, size_t written) {
    return (struct ct_answer){
        .does = NADRELGOS_WAIT, .board = (uint8_t)board, .exchange = (uint8_t)exchange, .written = (uint16_t)written};
}

static void stand(ct_coordinator *c, enum ct_stage stage, size_t board, size_t requester) {
    c->stand = (struct nadrelgos_stand){(uint8_t)stage, board, requester};
}

/* ---- setup and join ---- */

struct ct_answer ct_setup(ct_coordinator *c, ct_node *nodes, size_t nodes_count, const uint8_t *addresses, size_t k,
                          uint8_t subnet, uint8_t internal, uint64_t mac, uint64_t session) {
    if (nodes_count != NADRELGOS_NODES) return refuse(NADRELGOS_STATE_UNFIT);
    if (!pool_fits(addresses, k)) return refuse(NADRELGOS_BAD_POOL);
    if (!is_mac(mac)) return refuse(NADRELGOS_BAD_MAC);
    memset(nodes, 0, NADRELGOS_NODES * sizeof *nodes);
    memset(c, 0, sizeof *c);
    memcpy(c->setup.pool, addresses, k);
    c->setup.k = k;
    c->setup.subnet = subnet;
    c->setup.internal = internal;
    c->setup.mac = mac;
    c->setup.session = session;
    return does(NADRELGOS_REST, 0);
}

/* Whether a 1.0 board would be listed with more than 15 types, the joiner in place of its own record. */
static bool too_many_types(const ct_node *nodes, const ct_node *joiner) {
    bool seen[256] = {0};
    size_t types = 1;
    bool old = is_old(joiner);
    seen[joiner->kind] = true;
    for (size_t i = 0; i < NADRELGOS_NODES; i++) {
        const ct_node *n = &nodes[i];
        if (n->kind == 0 || n->mac == joiner->mac) continue;
        types += !seen[n->kind];
        seen[n->kind] = true;
        old = old || is_old(n);
    }
    return old && types > NADRELGOS_OLD_TYPES;
}

struct ct_answer ct_join(ct_coordinator *c, ct_node *nodes, size_t nodes_count, uint8_t kind, uint64_t mac,
                         uint64_t session, uint8_t version) {
    if (!is_fit(c, nodes, nodes_count)) return refuse(NADRELGOS_STATE_UNFIT);
    if (!is_kind(kind)) return refuse(NADRELGOS_BAD_TYPE);
    if (!is_mac(mac)) return refuse(NADRELGOS_BAD_MAC);
    size_t k = c->setup.k;
    if (c->stand.stage != CT_STAGE_RESTING || lowest_owed(nodes, k) != 0) return refuse(NADRELGOS_BUSY);
    if (c->held) return refuse(NADRELGOS_HELD);
    ct_node joiner = {.kind = kind, .mac = mac, .session = session};
    joiner.version = version == NADRELGOS_VERSION_1_0 ? NADRELGOS_VERSION_1_0 : NADRELGOS_VERSION_LATER;
    if (too_many_types(nodes, &joiner)) return refuse(NADRELGOS_TOO_MANY_TYPES);
    size_t known = 0, open = 0;
    for (size_t i = k; i > 0; i--) {
        if (nodes[i - 1].kind == 0)
            open = i;
        else if (nodes[i - 1].mac == mac)
            known = i;
    }
    size_t position = known ? known : open;
    if (position == 0) return refuse(NADRELGOS_FULL);
    nodes[position - 1] = joiner;
    count_indexes(nodes);
    owe_all(nodes);
    c->held = 1;
    struct ct_answer answer = does(NADRELGOS_REST, 0);
    answer.joined = (uint8_t)position;
    return answer;
}

/* ---- frames of our own ---- */

static void put_word(uint8_t *out, uint64_t word) {
    for (int i = 0; i < 8; i++) out[i] = (uint8_t)(word >> 8 * i);
}

static uint64_t word_at(const uint8_t *bytes) {
    uint64_t word = 0;
    for (int i = 0; i < 8; i++) word |= (uint64_t)bytes[i] << 8 * i;
    return word;
}

static uint8_t subnet_of(const ct_coordinator *c, const ct_node *n) {
    return is_old(n) ? NADRELGOS_OLD_SUBNET : c->setup.subnet;
}

static struct ct_header own_header(const ct_coordinator *c, const ct_node *nodes, size_t board, uint8_t message,
                                   uint8_t packet) {
    return (struct ct_header){.destination = address_of(c, board),
                              .source = COORDINATOR,
                              .subnet = subnet_of(c, &nodes[board - 1]),
                              .parameter2 = nodes[board - 1].index,
                              .kind = OUR_KIND,
                              .message = message,
                              .packet = packet};
}

/* The offer and the ACK differ in the code alone. */
static ct_refusal write_signed(const ct_coordinator *c, const ct_node *nodes, size_t board, uint8_t code, uint8_t *out,
                               size_t room) {
    uint8_t payload[SIGNED];
    payload[0] = code;
    put_word(payload + 1, c->setup.mac);
    put_word(payload + 9, c->setup.session);
    struct ct_header header = own_header(c, nodes, board, TYPE_R2R, PACKET_DATAFLOW);
    return ct_write(&header, payload, SIGNED, out, room);
}

/* Up to the highest listed position. */
static size_t full_list(const ct_node *nodes, uint8_t list[NADRELGOS_NODES + 1]) {
    size_t length = 1;
    for (size_t i = 0; i < NADRELGOS_NODES; i++) {
        list[i + 1] = nodes[i].kind;
        if (nodes[i].kind != 0) length = i + 2;
    }
    return length;
}

/* Each type once, in 16 bytes: the lowest 1.0 board of a type at its position, the other types where it is open. */
static size_t condensed_list(const ct_node *nodes, uint8_t list[NADRELGOS_NODES + 1]) {
    bool seen[256] = {[0] = true};
    memset(list + 1, 0, NADRELGOS_OLD_TYPES);
    for (size_t i = 0; i < NADRELGOS_OLD_TYPES; i++) {
        if (!is_old(&nodes[i]) || seen[nodes[i].kind]) continue;
        seen[nodes[i].kind] = true;
        list[i + 1] = nodes[i].kind;
    }
    size_t open = 1;
    for (size_t i = 0; i < NADRELGOS_NODES; i++) {
        if (seen[nodes[i].kind]) continue;
        while (list[open] != 0) open++;
        seen[nodes[i].kind] = true;
        list[open] = nodes[i].kind;
    }
    return NADRELGOS_OLD_LIST;
}

size_t ct_list(const ct_coordinator *c, const ct_node *nodes, size_t board, uint8_t list[NADRELGOS_NODES + 1]) {
    list[0] = c->setup.internal;
    return is_old(&nodes[board - 1]) ? condensed_list(nodes, list) : full_list(nodes, list);
}

static ct_refusal write_kept(const ct_coordinator *c, const ct_node *nodes, size_t board, uint8_t parameter2,
                             uint8_t *out, size_t room) {
    const struct nadrelgos_kept *m = &c->kept;
    struct ct_header header = {.destination = address_of(c, board),
                               .source = COORDINATOR,
                               .subnet = subnet_of(c, &nodes[board - 1]),
                               .method = m->method,
                               .parameter1 = m->parameter,
                               .parameter2 = parameter2,
                               .kind = m->kind,
                               .message = m->message,
                               .packet = m->packet};
    return ct_write(&header, m->payload, m->length, out, room);
}

/* ---- turn ---- */

static size_t next_listed(const ct_coordinator *c, const ct_node *nodes) {
    size_t k = c->setup.k, position = c->last;
    for (size_t left = k; left > 0; left--) {
        position = position >= k ? 1 : position + 1;
        if (nodes[position - 1].kind != 0) return position;
    }
    return 0;
}

static struct ct_answer turn_carried(ct_coordinator *c, const ct_node *nodes, uint8_t parameter2, enum ct_stage stage,
                                     enum nadrelgos_exchange_number exchange, uint8_t *out, size_t room) {
    size_t board = c->stand.board;
    ct_refusal refusal = write_kept(c, nodes, board, parameter2, out, room);
    if (refusal) return refuse(refusal);
    stand(c, stage, board, exchange == NADRELGOS_FORWARD ? c->stand.requester : 0);
    return wait_for(board, exchange, CT_OVERHEAD + c->kept.length);
}

static struct ct_answer turn_list(ct_coordinator *c, ct_node *nodes, size_t board, uint8_t *out, size_t room) {
    uint8_t list[NADRELGOS_NODES + 1];
    size_t length = ct_list(c, nodes, board, list);
    struct ct_header header = own_header(c, nodes, board, TYPE_LIST, 0);
    ct_refusal refusal = ct_write(&header, list, length, out, room);
    if (refusal) return refuse(refusal);
    nodes[board - 1].owed = 0;
    stand(c, CT_STAGE_WAIT_LIST, board, 0);
    return wait_for(board, NADRELGOS_LIST, CT_OVERHEAD + length);
}

static struct ct_answer turn_offer(ct_coordinator *c, const ct_node *nodes, uint8_t *out, size_t room) {
    size_t board = next_listed(c, nodes);
    ct_refusal refusal = write_signed(c, nodes, board, CODE_OFFER, out, room);
    if (refusal) return refuse(refusal);
    c->last = board;
    c->held = 0;
    c->searched = 0;
    stand(c, CT_STAGE_WAIT_OFFER, board, 0);
    return wait_for(board, NADRELGOS_OFFER, CT_OVERHEAD + SIGNED);
}

static bool is_waiting(const ct_coordinator *c) {
    return c->stand.stage >= CT_STAGE_WAIT_OFFER && c->stand.stage <= CT_STAGE_WAIT_RETURN;
}

struct ct_answer ct_turn(ct_coordinator *c, ct_node *nodes, size_t nodes_count, uint8_t *out, size_t room) {
    if (!is_fit(c, nodes, nodes_count)) return refuse(NADRELGOS_STATE_UNFIT);
    if (is_waiting(c)) return refuse(NADRELGOS_AWAITING_REPLY);
    if (!anyone_listed(nodes)) return refuse(NADRELGOS_NOBODY_LISTED);
    if (c->stand.stage == CT_STAGE_RETURN_DUE)
        return turn_carried(c, nodes, 0, CT_STAGE_WAIT_RETURN, NADRELGOS_RETURN, out, room);
    if (c->stand.stage == CT_STAGE_FORWARD_DUE)
        return turn_carried(c, nodes, nodes[c->stand.requester - 1].index, CT_STAGE_WAIT_FORWARD, NADRELGOS_FORWARD,
                            out, room);
    size_t owed = lowest_owed(nodes, c->setup.k);
    if (owed) return turn_list(c, nodes, owed, out, room);
    return turn_offer(c, nodes, out, room);
}

/* ---- routing (000, 6.3) ---- */

enum { IFC = 2, AH = 3, AC = 4, HP = 5, XOVER = 9, ZC = 21 };

static const uint8_t priorities[6][5] = {
    {ZC, HP, IFC, XOVER, AH}, /* 100 heat */
    {ZC, HP, AC, XOVER, IFC}, /* 101 cool */
    {ZC, AH, IFC, XOVER},     /* 102 fan */
    {ZC, AH, IFC, XOVER},     /* 103 emergency */
    {ZC, AH, IFC, XOVER},     /* 104 defrost */
    {ZC, AH, IFC, XOVER},     /* 105 aux heat */
};

static size_t route(const ct_coordinator *c, const ct_node *nodes, uint8_t method, uint8_t parameter) {
    size_t k = c->setup.k;
    switch (method) {
    case 1:
        if (parameter >= 100 && parameter <= 105)
            for (size_t i = 0; i < 5; i++) {
                size_t to = lowest_of_kind(nodes, k, priorities[parameter - 100][i]);
                if (to) return to;
            }
        return 0;
    case 2: return lowest_of_kind(nodes, k, parameter);
    case 3: return parameter >= 1 && parameter <= k && nodes[parameter - 1].kind != 0 ? parameter : 0;
    default: return 0;
    }
}

/* ---- frame ---- */

static void keep(struct nadrelgos_kept *m, const struct ct_frame *f) {
    m->message = f->header.message;
    m->packet = f->header.packet;
    m->kind = f->header.kind;
    m->method = f->header.method;
    m->parameter = f->header.parameter1;
    m->length = f->length;
    memcpy(m->payload, f->payload, f->length);
    memset(m->payload + f->length, 0, CT_PAYLOAD - f->length);
}

static bool is_ack(const struct ct_frame *f, const ct_node *n) {
    return f->length == SIGNED && f->payload[0] == CODE_ACK && word_at(f->payload + 1) == n->mac;
}

static void hear_ack(ct_node *nodes, ct_node *n, const struct ct_frame *f) {
    uint64_t session = word_at(f->payload + 9);
    n->misses = 0;
    if (session != n->session) {
        n->session = session;
        owe_all(nodes);
    }
}

/* Writes the ACK due to the sender; from there on the frame is accepted. */
static ct_refusal acknowledge(const ct_coordinator *c, ct_node *nodes, size_t board, uint8_t *out, size_t room) {
    ct_refusal refusal = write_signed(c, nodes, board, CODE_ACK, out, room);
    if (!refusal) nodes[board - 1].misses = 0;
    return refusal;
}

static struct ct_answer hear_after_offer(ct_coordinator *c, ct_node *nodes, const struct ct_frame *f, uint8_t *out,
                                         size_t room) {
    size_t board = c->stand.board;
    uint8_t message = f->header.message, method = f->header.method;
    if (message == TYPE_R2R) {
        if (!is_ack(f, &nodes[board - 1])) return refuse(NADRELGOS_UNEXPECTED_TYPE);
        hear_ack(nodes, &nodes[board - 1], f);
        stand(c, CT_STAGE_RESTING, 0, 0);
        return does(NADRELGOS_REST, 0);
    }
    if (message >= RESPONSE) return refuse(NADRELGOS_UNEXPECTED_TYPE);
    if (method > 3) return refuse(NADRELGOS_BAD_METHOD);
    ct_refusal refusal = acknowledge(c, nodes, board, out, room);
    if (refusal) return refuse(refusal);
    stand(c, CT_STAGE_RESTING, 0, 0);
    if (method == 0) return does(NADRELGOS_DELIVER, CT_OVERHEAD + SIGNED);
    size_t to = route(c, nodes, method, f->header.parameter1);
    if (to != 0 && to != board) {
        keep(&c->kept, f);
        stand(c, CT_STAGE_FORWARD_DUE, to, board);
    }
    return does(NADRELGOS_TRANSMIT, CT_OVERHEAD + SIGNED);
}

static struct ct_answer hear_after_list(ct_coordinator *c, ct_node *nodes, const struct ct_frame *f, uint8_t *out,
                                        size_t room) {
    if (f->header.message != TYPE_ECHO) return refuse(NADRELGOS_UNEXPECTED_TYPE);
    uint8_t list[NADRELGOS_NODES + 1];
    size_t length = ct_list(c, nodes, c->stand.board, list);
    if (f->length != length || memcmp(f->payload, list, length) != 0) return refuse(NADRELGOS_BAD_ECHO);
    ct_refusal refusal = acknowledge(c, nodes, c->stand.board, out, room);
    if (refusal) return refuse(refusal);
    stand(c, CT_STAGE_RESTING, 0, 0);
    return does(NADRELGOS_TRANSMIT, CT_OVERHEAD + SIGNED);
}

static struct ct_answer hear_after_forward(ct_coordinator *c, ct_node *nodes, const struct ct_frame *f, uint8_t *out,
                                           size_t room) {
    size_t board = c->stand.board, requester = c->stand.requester;
    uint8_t message = f->header.message;
    if (message == TYPE_R2R) {
        if (c->stand.stage == CT_STAGE_WAIT_FORWARD_ACKED || !is_ack(f, &nodes[board - 1]))
            return refuse(NADRELGOS_UNEXPECTED_TYPE);
        hear_ack(nodes, &nodes[board - 1], f);
        stand(c, CT_STAGE_WAIT_FORWARD_ACKED, board, requester);
        return wait_for(board, NADRELGOS_FORWARD, 0);
    }
    if (message != c->kept.message + RESPONSE) return refuse(NADRELGOS_UNEXPECTED_TYPE);
    ct_refusal refusal = acknowledge(c, nodes, board, out, room);
    if (refusal) return refuse(refusal);
    keep(&c->kept, f);
    stand(c, CT_STAGE_RETURN_DUE, requester, 0);
    return does(NADRELGOS_TRANSMIT, CT_OVERHEAD + SIGNED);
}

static struct ct_answer hear_after_return(ct_coordinator *c, ct_node *nodes, const struct ct_frame *f) {
    ct_node *n = &nodes[c->stand.board - 1];
    if (f->header.message != TYPE_R2R || !is_ack(f, n)) return refuse(NADRELGOS_UNEXPECTED_TYPE);
    hear_ack(nodes, n, f);
    stand(c, CT_STAGE_RESTING, 0, 0);
    return does(NADRELGOS_REST, 0);
}

/* A response of the exchange by which a board joins, unless the forward now awaited is of the request it answers. */
static bool is_stray(const ct_coordinator *c, uint8_t message) {
    if (message < TYPE_FIRST_REPLY || message > TYPE_LAST_REPLY) return false;
    bool forward = c->stand.stage == CT_STAGE_WAIT_FORWARD || c->stand.stage == CT_STAGE_WAIT_FORWARD_ACKED;
    return !(forward && message == c->kept.message + RESPONSE);
}

/* The subnet in which bytes are read: a 1.0 board's, where they have it and such a board is awaited. */
static uint8_t read_in(const ct_coordinator *c, const ct_node *nodes, const uint8_t *bytes, size_t count) {
    bool has_old = count >= CT_OVERHEAD && bytes[2] == NADRELGOS_OLD_SUBNET;
    return has_old && is_waiting(c) ? subnet_of(c, &nodes[c->stand.board - 1]) : c->setup.subnet;
}

struct ct_answer ct_hear(ct_coordinator *c, ct_node *nodes, size_t nodes_count, const uint8_t *bytes, size_t count,
                         uint8_t *out, size_t room) {
    if (!is_fit(c, nodes, nodes_count)) return refuse(NADRELGOS_STATE_UNFIT);
    struct ct_frame f;
    ct_refusal refusal = ct_read(read_in(c, nodes, bytes, count), bytes, count, &f);
    if (refusal) return refuse(refusal);
    if (f.header.destination != COORDINATOR) return refuse(NADRELGOS_NOT_FOR_US);
    if (is_stray(c, f.header.message)) return refuse(NADRELGOS_NOT_DISCOVERING);
    if (!is_waiting(c) || f.header.source != address_of(c, c->stand.board)) return refuse(NADRELGOS_NOT_AWAITED);
    switch (c->stand.stage) {
    case CT_STAGE_WAIT_OFFER: return hear_after_offer(c, nodes, &f, out, room);
    case CT_STAGE_WAIT_LIST: return hear_after_list(c, nodes, &f, out, room);
    case CT_STAGE_WAIT_RETURN: return hear_after_return(c, nodes, &f);
    default: return hear_after_forward(c, nodes, &f, out, room);
    }
}

/* ---- quiet ---- */

struct ct_answer ct_quiet(ct_coordinator *c, ct_node *nodes, size_t nodes_count) {
    if (!is_fit(c, nodes, nodes_count)) return refuse(NADRELGOS_STATE_UNFIT);
    if (!is_waiting(c)) return refuse(NADRELGOS_NOT_WAITING);
    struct ct_answer answer = does(NADRELGOS_REST, 0);
    if (c->stand.stage != CT_STAGE_WAIT_FORWARD_ACKED) {
        size_t board = c->stand.board;
        ct_node *n = &nodes[board - 1];
        if (n->misses < 2) {
            n->misses++;
        } else {
            memset(n, 0, sizeof *n);
            count_indexes(nodes);
            owe_all(nodes);
            if (!anyone_listed(nodes)) c->held = 0;
            answer.dropped = (uint8_t)board;
        }
    }
    stand(c, CT_STAGE_RESTING, 0, 0);
    return answer;
}

/* ---- shared data (C-16) ---- */

enum { SLOT_SECTOR, SLOT_LENGTH, SLOT_RECORD }; /* where they stand in a slot */

static bool is_record_length(size_t length) {
    return length >= NADRELGOS_RECORD_MIN && length <= NADRELGOS_RECORD_MAX;
}

/* The lowest slot with a record of the sector, from 1. */
static size_t slot_with(const uint8_t *image, uint8_t sector) {
    for (size_t i = 0; i < NADRELGOS_SLOTS; i++, image += NADRELGOS_SLOT)
        if (image[SLOT_SECTOR] == sector && is_record_length(image[SLOT_LENGTH])) return i + 1;
    return 0;
}

static size_t free_slot(const uint8_t *image) {
    for (size_t i = 0; i < NADRELGOS_SLOTS; i++, image += NADRELGOS_SLOT)
        if (!is_record_length(image[SLOT_LENGTH])) return i + 1;
    return 0;
}

static ct_holder held_in(enum nadrelgos_image_number number, const uint8_t *image, size_t slot) {
    size_t start = NADRELGOS_SLOT * (slot - 1);
    return (ct_holder){0, (uint8_t)number, (uint8_t)slot, start + SLOT_RECORD, image[start + SLOT_LENGTH]};
}

ct_holder ct_shared_holder(const uint8_t *network, size_t network_count, const uint8_t *factory, size_t factory_count,
                           uint8_t sector) {
    if (network_count != NADRELGOS_IMAGE || factory_count != NADRELGOS_IMAGE)
        return (ct_holder){.refusal = NADRELGOS_STATE_UNFIT};
    size_t slot = slot_with(network, sector);
    if (slot) return held_in(NADRELGOS_NETWORK, network, slot);
    slot = slot_with(factory, sector);
    if (slot) return held_in(NADRELGOS_FACTORY, factory, slot);
    return (ct_holder){0};
}

ct_storing ct_shared_store(uint8_t *network, size_t network_count, uint8_t sector, const uint8_t *record,
                           size_t record_count) {
    if (network_count != NADRELGOS_IMAGE) return (ct_storing){.refusal = NADRELGOS_STATE_UNFIT};
    if (!is_record_length(record_count)) return (ct_storing){.refusal = NADRELGOS_BAD_LENGTH};
    size_t slot = slot_with(network, sector);
    if (!slot) slot = free_slot(network);
    if (!slot) return (ct_storing){.refusal = NADRELGOS_NO_SLOT};
    size_t start = NADRELGOS_SLOT * (slot - 1);
    network[start + SLOT_SECTOR] = sector;
    network[start + SLOT_LENGTH] = (uint8_t)record_count;
    memcpy(network + start + SLOT_RECORD, record, record_count);
    return (ct_storing){0, (uint8_t)slot, start, SLOT_RECORD + record_count};
}
