/*
 * The index in each record, on tables of forty addresses: every wrong one is refused, and joins, retypings and drops
 * leave the right one in every record. The right one is counted here (records.c), at every position by itself.
 */
#include "indexes.h"

#include "../../hosts/c/wire.h"
#include "checks.h"

#include <string.h>

/* ---- fit tables: where boards are listed, bit p - 1 for position p, and how many types they have by turns */

#define ALL ((UINT64_C(1) << NADRELGOS_NODES) - 1)
#define ODD (ALL / 3)
#define EVEN (ALL - ODD)

struct table {
    uint64_t listed;
    unsigned kinds;
};

/* each position is free in one of them, and listed in two */
static const struct table tables[] = {{ODD, 3}, {EVEN, 3}, {ALL, 1}};
enum { TABLES = sizeof tables / sizeof *tables };

static bool is_listed(struct table table, size_t position) {
    return table.listed >> (position - 1) & 1;
}

/* Fit records in a stage, which names listed boards where it names any; of either version. */
static void make_table(struct table table, uint8_t stage) {
    uint8_t types[NADRELGOS_NODES], versions[NADRELGOS_NODES];
    for (size_t p = 1; p <= NADRELGOS_NODES; p++) {
        types[p - 1] = is_listed(table, p) ? (uint8_t)(2 + p % table.kinds) : 0;
        versions[p - 1] = p % 4 < 2 ? 1 : 2;
    }
    make_forty(stage, types, versions);
}

/* ---- every wrong index: 22, and nothing is changed */

/* Every number but the right one, at one position. */
static void spoil_index(size_t position) {
    uint8_t *index = &lent.nodes[position - 1].index, right = *index;
    for (unsigned number = 0; number <= UINT8_MAX; number++) {
        if (number == right) continue;
        *index = (uint8_t)number;
        hold_unfit();
    }
    *index = right;
}

/* All that are listed moved by the same number: from one board of a type to the next they still rise by one. */
static void shift_indexes(void) {
    for (unsigned by = 1; by <= UINT8_MAX; by++) {
        count_indexes(lent.nodes);
        for (size_t i = 0; i < NADRELGOS_NODES; i++)
            if (lent.nodes[i].kind != 0) lent.nodes[i].index += (uint8_t)by;
        hold_unfit();
    }
}

/* Two boards of a type with each other's: the indexes are the right ones, and in the wrong places. */
static void exchange_indexes(size_t one, size_t other) {
    count_indexes(lent.nodes);
    uint8_t kept = lent.nodes[one - 1].index;
    lent.nodes[one - 1].index = lent.nodes[other - 1].index;
    lent.nodes[other - 1].index = kept;
    hold_unfit();
}

void refuses_wrong_indexes(void) {
    begin("steps with every wrong index at every position, listed or free; with all moved, and with two exchanged");
    for (size_t t = 0; t < TABLES; t++) {
        for (size_t p = 1; p <= NADRELGOS_NODES; p++) {
            make_table(tables[t], (uint8_t)(p % STAGES));
            spoil_index(p);
        }
        shift_indexes();
    }
    make_table((struct table){ALL, 1}, 0);
    for (size_t one = 1; one <= NADRELGOS_NODES; one++)
        for (size_t other = one + 1; other <= NADRELGOS_NODES; other++) exchange_indexes(one, other);
    end();
}

/* So that the refusals above are for the index: without it none is 22. */
void takes_right_indexes(void) {
    begin("steps on the same tables with the right ones");
    for (size_t t = 0; t < TABLES; t++) {
        for (uint8_t stage = 0; stage < STAGES; stage++) {
            for (uint8_t event = NADRELGOS_EVENT_JOIN; event <= NADRELGOS_EVENT_DISCOVER; event++) {
                make_table(tables[t], stage);
                uint64_t answer = step(event, NADRELGOS_NODES);
                hold(answer != NADRELGOS_STATE_UNFIT && are_indexes_right(lent.nodes), answer);
            }
        }
    }
    end();
}

/* ---- joins, retypings and drops: every record is right afterwards, those not named by the step included */

static const uint8_t kinds[] = {2, 3, 4, 9};
enum { KINDS = sizeof kinds, SESSION = 9, ACK_BYTES = 29 };

/* How a board joins: told by the host, identified at the address, or assigned to it; and the stage in which it does. */
enum way { TOLD, IDENTIFIED, ASSIGNED, WAYS };
static const uint8_t stages[WAYS] = {0, IDENTIFY, ASSIGN};

static void hold_join(struct table table, enum way way, size_t position, struct nadrelgos_found who) {
    struct nadrelgos_coordinator *c = &lent.coordinator;
    uint64_t answer, expected = (uint64_t)position << 32;
    make_table(table, stages[way]);
    if (way == TOLD) {
        keep();
        answer = nadrelgos_join(c, lent.nodes, who.kind, who.mac, who.session, who.version);
        expected |= (uint64_t)NADRELGOS_REST << 8;
    } else {
        c->stand.board = position;
        c->found = who;
        size_t count = write_joining(stages[way], position, who);
        keep();
        answer = nadrelgos_frame(c, lent.nodes, received, count, lent.out, sizeof lent.out);
        expected |= (uint64_t)NADRELGOS_TRANSMIT << 8 | (uint64_t)ACK_BYTES << 48;
    }
    hold_left(answer, expected, position,
              (struct nadrelgos_node){who.kind, who.mac, who.session, 0, 1, 0, who.version});
}

/* In every way and as every type, by turns of either version. */
static void hold_joins(struct table table, size_t position, uint64_t mac) {
    for (enum way way = TOLD; way < WAYS; way++)
        for (size_t i = 0; i < KINDS; i++)
            hold_join(table, way, position, (struct nadrelgos_found){kinds[i], i % 2 ? 1 : 2, mac, SESSION});
}

static void hold_drop(struct table table, size_t position) {
    make_table(table, 1);
    lent.coordinator.stand.board = position;
    keep();
    uint64_t answer = nadrelgos_quiet(&lent.coordinator, lent.nodes);
    hold_left(answer, (uint64_t)NADRELGOS_REST << 8 | (uint64_t)position << 40, position,
              (struct nadrelgos_node){0, 0, 0, 0, 0, 0, 0});
}

void keeps_indexes(void) {
    begin("joins, retypings and drops at every position, with boards of the same types below and above");
    for (size_t p = 1; p <= NADRELGOS_NODES; p++) {
        uint64_t bit = UINT64_C(1) << (p - 1);
        hold_joins((struct table){((bit - 1) | ODD) & ~bit, 3}, p, 7); /* a new board: the lowest free position is p */
        for (size_t t = 0; t < TABLES; t++) {
            if (!is_listed(tables[t], p)) continue;
            hold_joins(tables[t], p, mac_at(p));
            hold_drop(tables[t], p);
        }
    }
    end();
}

/* ---- what is sent has the index as parameter 2 */

static void hold_sent(size_t position, unsigned exchange) {
    uint8_t index = lent.nodes[position - 1].index;
    uint64_t answer = step(NADRELGOS_EVENT_TURN, NADRELGOS_NODES);
    hold(nadrelgos_exchange(answer) == exchange && lent.out[AT_PARAMETER_2] == index, answer);
}

/* An offer and a list to the board at the position, and a request of its own that is forwarded. */
static void hold_all_sent(struct table table, size_t position) {
    make_table(table, 0);
    lent.coordinator.last = position - 1;
    hold_sent(position, NADRELGOS_OFFER);
    make_table(table, 0);
    lent.nodes[position - 1].owed = 1;
    hold_sent(position, NADRELGOS_LIST);
    make_table(table, 6);
    lent.coordinator.stand.requester = position;
    hold_sent(position, NADRELGOS_FORWARD);
}

void sends_indexes(void) {
    begin("the index in what is sent: offers, lists, forwards, and Get Node ID also to free positions");
    for (size_t t = 0; t < TABLES; t++) {
        for (size_t p = 1; p <= NADRELGOS_NODES; p++) {
            if (is_listed(tables[t], p)) hold_all_sent(tables[t], p);
            make_table(tables[t], IDENTIFY_DUE);
            lent.coordinator.stand.board = p;
            hold_sent(p, NADRELGOS_IDENTIFY);
        }
    }
    end();
}

/* ---- a table that was stored without indexes: list and clear at a position that names nobody make it fit */

static void hold_counted(struct table table, size_t position, bool lists) {
    make_table(table, 0);
    keep();
    for (size_t i = 0; i < NADRELGOS_NODES; i++) scatter(&lent.nodes[i].index, 1);
    uint64_t answer = lists ? nadrelgos_list(lent.nodes, NADRELGOS_NODES, position, 2, 7, 1, 2)
                            : nadrelgos_clear(lent.nodes, NADRELGOS_NODES, position);
    hold(answer == (uint64_t)NADRELGOS_REST << 8 && unchanged(NADRELGOS_NODES), answer);
}

void counts_indexes(void) {
    static const size_t positions[] = {0, NADRELGOS_NODES + 1, SIZE_MAX};
    begin("tables without indexes, counted by list and clear at positions that name nobody");
    for (size_t t = 0; t < TABLES; t++) {
        for (size_t i = 0; i < sizeof positions / sizeof *positions; i++) {
            hold_counted(tables[t], positions[i], true);
            hold_counted(tables[t], positions[i], false);
        }
    }
    end();
}
