#include "checks.h"

#include "../../hosts/c/wire.h"

#include <stdio.h>
#include <string.h>

struct lent lent, before;
uint8_t received[NADRELGOS_ROOM];

static struct {
    const char *name;
    unsigned long calls, wrong;
} check;
static bool failed;

void begin(const char *name) {
    check.name = name;
    check.calls = check.wrong = 0;
}

/* Holds one call of the check that is on. The first that is wrong is told. */
void hold(bool held, uint64_t answer) {
    check.calls++;
    if (held) return;
    if (check.wrong++ == 0)
        printf("odd: %s: call %lu is the first that is wrong, with the answer %#llx\n", check.name, check.calls,
               (unsigned long long)answer);
}

void end(void) {
    printf("odd: %s: %lu calls, %lu wrong\n", check.name, check.calls, check.wrong);
    if (check.wrong > 0) failed = true;
}

bool some_failed(void) {
    return failed;
}

/* xorshift */
uint64_t draw(void) {
    static uint64_t drawn = 1;
    drawn ^= drawn << 13;
    drawn ^= drawn >> 7;
    drawn ^= drawn << 17;
    return drawn;
}

void scatter(void *bytes, size_t count) {
    uint8_t *at = bytes;
    for (size_t i = 0; i < count; i++) at[i] = (uint8_t)(draw() >> 32);
}

void keep(void) {
    memcpy(&before, &lent, sizeof lent);
}

bool past_untouched(size_t count) {
    return memcmp(lent.nodes + count, before.nodes + count, (RECORDS - count) * sizeof *lent.nodes) == 0;
}

bool others_untouched(size_t count) {
    return past_untouched(count) && memcmp(lent.out, before.out, sizeof lent.out) == 0;
}

bool unchanged(size_t count) {
    return same_coordinator(&lent.coordinator, &before.coordinator) && same_nodes(lent.nodes, before.nodes, count) &&
           others_untouched(count);
}

void hold_refused(uint64_t answer, uint64_t refusal, size_t count) {
    hold(answer == refusal && unchanged(count), answer);
}

uint64_t step(uint8_t event, size_t count) {
    return nadrelgos_step(&lent.coordinator, lent.nodes, count, event, 2, 7, 1, 2, received, sizeof received, lent.out,
                          sizeof lent.out);
}

void hold_unfit(void) {
    keep();
    for (uint8_t event = NADRELGOS_EVENT_JOIN; event <= NADRELGOS_EVENT_DISCOVER; event++)
        hold_refused(step(event, NADRELGOS_NODES), NADRELGOS_STATE_UNFIT, NADRELGOS_NODES);
}

void hold_fit(void) {
    keep();
    for (uint8_t event = NADRELGOS_EVENT_JOIN; event <= NADRELGOS_EVENT_DISCOVER; event++) {
        uint64_t answer = step(event, NADRELGOS_NODES);
        hold(answer != NADRELGOS_STATE_UNFIT && past_untouched(NADRELGOS_NODES), answer);
        memcpy(&lent, &before, sizeof lent);
    }
}

void hold_left(uint64_t answer, uint64_t expected, size_t position, struct nadrelgos_node node) {
    size_t written = nadrelgos_written(expected);
    before.nodes[position - 1] = node;
    for (size_t i = 0; i < NADRELGOS_NODES; i++)
        if (before.nodes[i].kind != 0) before.nodes[i].owed = 1;
    count_indexes(before.nodes);
    hold(answer == expected && same_nodes(lent.nodes, before.nodes, NADRELGOS_NODES) &&
             past_untouched(NADRELGOS_NODES) &&
             memcmp(lent.out + written, before.out + written, sizeof lent.out - written) == 0 &&
             (written == 0 || lent.out[AT_PARAMETER_2] == before.nodes[position - 1].index),
         answer);
}

const uint8_t pool[K] = {16, 17, 18, 19, 20};

uint8_t subnet_of(uint8_t version) {
    return version == NADRELGOS_VERSION_1_0 ? OLD_SUBNET : SUBNET;
}

size_t write_joining(uint8_t stage, size_t position, struct nadrelgos_found who) {
    uint8_t payload[ASSIGN_LENGTH] = {0};
    struct sender from = {lent.coordinator.setup.pool[position - 1], subnet_of(who.version), who.kind};
    if (stage == IDENTIFY) {
        wire_put_id(payload, who.kind, who.mac, who.session);
        return wire_frame(received, from, TYPE_IDENTIFY + TYPE_RESPONSE, 0, 0, 0, payload, ID_LENGTH);
    }
    payload[ASSIGN_ADDRESS] = from.address;
    payload[ASSIGN_SUBNET] = from.subnet;
    wire_put_word(payload + ASSIGN_MAC, who.mac);
    wire_put_word(payload + ASSIGN_SESSION, who.session);
    payload[ASSIGN_WRITE] = 1;
    return wire_frame(received, from, TYPE_ASSIGN + TYPE_RESPONSE, 0, 0, 0, payload, ASSIGN_LENGTH);
}

uint64_t set_up(size_t count) {
    return nadrelgos_setup(&lent.coordinator, lent.nodes, count, pool, sizeof pool, SUBNET, INTERNAL, OWN_MAC,
                           OWN_SESSION);
}

void make_fit(uint8_t stage) {
    scatter(&lent, sizeof lent);
    set_up(NADRELGOS_NODES);
    for (size_t i = 0; i < BOARDS; i++)
        lent.nodes[i] = (struct nadrelgos_node){5, 100 + i, 1, 2, 0, (uint8_t)i, i == 1 ? 1 : 2};
    lent.coordinator.stand = (struct nadrelgos_stand){stage, stage < SEARCH ? 1 : FREE, 2};
    lent.coordinator.kept.message = stage == 7 ? 131 : 3;
    lent.coordinator.kept.method = 2;
    lent.coordinator.kept.length = 240;
    if (stage > SEARCH) lent.coordinator.found = (struct nadrelgos_found){6, 2, 200, 50};
}

uint64_t mac_at(size_t position) {
    return 100 + position;
}

/* The lowest listed position above this one. */
static size_t next_listed(size_t position) {
    while (position < NADRELGOS_NODES && lent.nodes[position].kind == 0) position++;
    return position + 1;
}

void make_forty(uint8_t stage, const uint8_t kinds[NADRELGOS_NODES], const uint8_t versions[NADRELGOS_NODES]) {
    make_fit(stage);
    for (size_t p = 1; p <= NADRELGOS_NODES; p++) {
        struct nadrelgos_node *node = &lent.nodes[p - 1];
        lent.coordinator.setup.pool[p - 1] = (uint8_t)(15 + p);
        memset(node, 0, sizeof *node);
        if (kinds[p - 1]) *node = (struct nadrelgos_node){kinds[p - 1], mac_at(p), 1, 2, 0, 0, versions[p - 1]};
    }
    count_indexes(lent.nodes);
    lent.coordinator.setup.k = NADRELGOS_NODES;
    lent.coordinator.stand.board = next_listed(0);
    lent.coordinator.stand.requester = next_listed(lent.coordinator.stand.board);
}
