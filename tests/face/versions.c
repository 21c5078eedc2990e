/*
 * Boards that speak 1.0, on tables of forty addresses. What each call has to answer and to leave follows from the
 * request C-15: a record's version is 1 or 2, and 0 where nobody is listed; in a join, and in a record that is listed
 * by itself, 1 is 1.0 and every other byte counts as 2; a 1.0 board is in subnet 2, and frames to it have that.
 */
#include "versions.h"

#include "../../hosts/c/wire.h"
#include "checks.h"

#include <string.h>

enum { ACK_BYTES = 29, NEW_MAC = 7, SESSION = 9 };

/* ---- tables: every third position is free, and versions change from one board to the next */

static bool is_free(size_t position, unsigned shift) {
    return (position + shift) % 3 == 0;
}

static uint8_t version_at(size_t position) {
    return position % 2 ? 1 : 2;
}

/* With boards of four types; the free positions are others with each shift, 0 to 2. */
static void make_table(uint8_t stage, unsigned shift) {
    uint8_t kinds[NADRELGOS_NODES], versions[NADRELGOS_NODES];
    for (size_t p = 1; p <= NADRELGOS_NODES; p++) {
        kinds[p - 1] = is_free(p, shift) ? 0 : (uint8_t)(2 + p % 4);
        versions[p - 1] = version_at(p);
    }
    make_forty(stage, kinds, versions);
}

static bool is_version(unsigned number) {
    return number == 1 || number == 2;
}

/* ---- every byte as a record's version: 22, or not */

static void hold_each_version(uint8_t *version, bool (*is_right)(unsigned)) {
    uint8_t kept = *version;
    for (unsigned number = 0; number <= UINT8_MAX; number++) {
        *version = (uint8_t)number;
        if (is_right(number))
            hold_fit();
        else
            hold_unfit();
    }
    *version = kept;
}

static bool is_none(unsigned number) {
    return number == 0;
}

void refuses_wrong_versions(void) {
    begin("steps with every version byte at every position, listed or free");
    for (unsigned shift = 0; shift < 3; shift++) {
        for (size_t p = 1; p <= NADRELGOS_NODES; p++) {
            make_table((uint8_t)(p % STAGES), shift);
            hold_each_version(&lent.nodes[p - 1].version, is_free(p, shift) ? is_none : is_version);
        }
    }
    end();
}

/* In the stages that have a board found; in the others it is not looked at. */
static bool is_any(unsigned number) {
    (void)number;
    return true;
}

void refuses_wrong_versions_found(void) {
    begin("steps with every version byte in the board found");
    for (uint8_t stage = 0; stage < STAGES; stage++) {
        make_table(stage, 0);
        hold_each_version(&lent.coordinator.found.version, stage > SEARCH ? is_version : is_any);
    }
    end();
}

/* ---- every byte in a join: of a board that is new, and of one that is listed as either */

static void hold_join(size_t position, uint64_t mac, uint8_t version) {
    make_table(0, 0);
    keep();
    uint64_t answer = nadrelgos_join(&lent.coordinator, lent.nodes, 2, mac, SESSION, version);
    hold_left(answer, (uint64_t)NADRELGOS_REST << 8 | (uint64_t)position << 32, position,
              (struct nadrelgos_node){2, mac, SESSION, 0, 1, 0, version == 1 ? 1 : 2});
}

void joins_every_version(void) {
    begin("joins with every version byte: of a new board, and of listed ones of either version");
    for (unsigned version = 0; version <= UINT8_MAX; version++) {
        hold_join(3, NEW_MAC, (uint8_t)version); /* the lowest that is free */
        hold_join(1, mac_at(1), (uint8_t)version);
        hold_join(2, mac_at(2), (uint8_t)version);
        hold_join(40, mac_at(40), (uint8_t)version);
    }
    end();
}

/* The other steps do not look at it: they answer and leave the same with every byte. */
static void hold_not_asked(uint8_t stage, uint8_t event) {
    static struct lent plain;
    make_table(stage, 1);
    keep();
    uint64_t expected = step(event, NADRELGOS_NODES);
    memcpy(&plain, &lent, sizeof lent);
    for (unsigned version = 0; version <= UINT8_MAX; version++) {
        memcpy(&lent, &before, sizeof lent);
        uint64_t answer =
            nadrelgos_step(&lent.coordinator, lent.nodes, NADRELGOS_NODES, event, 2, NEW_MAC, 1, (uint8_t)version,
                           received, sizeof received, lent.out, sizeof lent.out);
        hold(answer == expected && same_coordinator(&lent.coordinator, &plain.coordinator) &&
                 same_nodes(lent.nodes, plain.nodes, NADRELGOS_NODES) &&
                 memcmp(lent.out, plain.out, sizeof lent.out) == 0,
             answer);
    }
}

void asks_a_join_alone(void) {
    begin("turns, frames, quiets and discoveries with every version byte");
    for (uint8_t stage = 0; stage < STAGES; stage++)
        for (uint8_t event = NADRELGOS_EVENT_TURN; event <= NADRELGOS_EVENT_DISCOVER; event++)
            hold_not_asked(stage, event);
    end();
}

/* ---- every byte in a single record that is listed */

void lists_every_version(void) {
    begin("list with every version byte at every position");
    for (size_t p = 1; p <= NADRELGOS_NODES; p++) {
        for (unsigned version = 0; version <= UINT8_MAX; version++) {
            make_table(0, (unsigned)p % 3);
            keep();
            uint64_t answer = nadrelgos_list(lent.nodes, NADRELGOS_NODES, p, 2, NEW_MAC, 1, (uint8_t)version);
            before.nodes[p - 1] = (struct nadrelgos_node){2, NEW_MAC, 1, 0, 0, 0, version == 1 ? 1 : 2};
            count_indexes(before.nodes);
            hold(answer == (uint64_t)NADRELGOS_REST << 8 && unchanged(NADRELGOS_NODES), answer);
        }
    }
    end();
}

/* ---- what is sent, and in which subnet */

static void hold_sent(unsigned exchange, uint8_t subnet) {
    uint64_t answer = step(NADRELGOS_EVENT_TURN, NADRELGOS_NODES);
    hold(nadrelgos_exchange(answer) == exchange && wire_good(lent.out, nadrelgos_written(answer)) &&
             lent.out[AT_SUBNET] == subnet,
         answer);
}

/* An offer, a list, a forward and a return to the board at the position: in its own subnet, whoever has asked. */
static void hold_all_sent(size_t position) {
    uint8_t subnet = subnet_of(version_at(position));
    make_table(0, 0);
    lent.coordinator.last = position - 1;
    hold_sent(NADRELGOS_OFFER, subnet);
    make_table(0, 0);
    lent.nodes[position - 1].owed = 1;
    hold_sent(NADRELGOS_LIST, subnet);
    for (size_t requester = 1; requester <= 2; requester++) {
        make_table(6, 0);
        lent.coordinator.stand.board = position;
        lent.coordinator.stand.requester = requester;
        hold_sent(NADRELGOS_FORWARD, subnet);
    }
    make_table(7, 0);
    lent.coordinator.stand.board = position;
    hold_sent(NADRELGOS_RETURN, subnet);
}

/* The ACK to a request of the board, which it may send in its subnet or in everybody's. */
static void hold_acknowledged(size_t position) {
    for (unsigned every = 0; every < 2; every++) {
        make_table(1, 0);
        lent.coordinator.stand.board = position;
        uint8_t subnet = subnet_of(version_at(position));
        struct sender from = {lent.coordinator.setup.pool[position - 1], every ? WIRE_ALL : subnet, 2};
        size_t count = wire_frame(received, from, TYPE_DISPLAY, 0, 0, 0, received, 0);
        uint64_t answer = nadrelgos_frame(&lent.coordinator, lent.nodes, received, count, lent.out, sizeof lent.out);
        hold(answer == ((uint64_t)NADRELGOS_DELIVER << 8 | (uint64_t)ACK_BYTES << 48) &&
                 wire_good(lent.out, ACK_BYTES) && lent.out[AT_SUBNET] == subnet,
             answer);
    }
}

/* Get Node ID and Set Address for a board that was found: they go by its version, whatever is listed at the position.
   Set Address goes to all and assigns its subnet. */
static void hold_joining_sent(size_t position, uint8_t version) {
    make_table(IDENTIFY_DUE, 0);
    lent.coordinator.stand.board = position;
    lent.coordinator.found.version = version;
    hold_sent(NADRELGOS_IDENTIFY, subnet_of(version));
    make_table(ASSIGN_DUE, 0);
    lent.coordinator.stand.board = position;
    lent.coordinator.found.version = version;
    hold_sent(NADRELGOS_ASSIGN, WIRE_ALL);
    hold(lent.out[AT_PAYLOAD + ASSIGN_SUBNET] == subnet_of(version), lent.out[AT_PAYLOAD + ASSIGN_SUBNET]);
}

void sends_in_each_subnet(void) {
    begin("the subnet of what is sent to boards and finds of either version at every position");
    for (size_t p = 1; p <= NADRELGOS_NODES; p++) {
        for (uint8_t version = 1; version <= 2; version++) hold_joining_sent(p, version);
        if (is_free(p, 0)) continue;
        hold_all_sent(p);
        hold_acknowledged(p);
    }
    end();
}
