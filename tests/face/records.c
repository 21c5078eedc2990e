#include "records.h"

#include <string.h>

static bool same_node(const struct nadrelgos_node *one, const struct nadrelgos_node *other) {
    return one->kind == other->kind && one->mac == other->mac && one->session == other->session &&
           one->misses == other->misses && one->owed == other->owed && one->index == other->index &&
           one->version == other->version;
}

bool same_nodes(const struct nadrelgos_node *some, const struct nadrelgos_node *others, size_t count) {
    for (size_t i = 0; i < count; i++)
        if (!same_node(&some[i], &others[i])) return false;
    return true;
}

uint8_t counted_index(const struct nadrelgos_node *nodes, size_t position) {
    uint8_t kind = nodes[position - 1].kind, count = 0;
    for (size_t p = 1; p < position; p++) count += kind != 0 && nodes[p - 1].kind == kind;
    return count;
}

bool are_indexes_right(const struct nadrelgos_node *nodes) {
    for (size_t p = 1; p <= NADRELGOS_NODES; p++)
        if (nodes[p - 1].index != counted_index(nodes, p)) return false;
    return true;
}

void count_indexes(struct nadrelgos_node *nodes) {
    for (size_t p = 1; p <= NADRELGOS_NODES; p++) nodes[p - 1].index = counted_index(nodes, p);
}

bool are_versions_right(const struct nadrelgos_node *nodes) {
    for (size_t i = 0; i < NADRELGOS_NODES; i++) {
        bool is_one = nodes[i].version == 1 || nodes[i].version == 2;
        if (nodes[i].kind == 0 ? nodes[i].version != 0 : !is_one) return false;
    }
    return true;
}

bool are_types_too_many(const struct nadrelgos_node *nodes, size_t count) {
    bool is_old = false;
    unsigned types = 0;
    for (size_t p = 1; p <= count; p++) {
        if (nodes[p - 1].kind == 0) continue;
        types += counted_index(nodes, p) == 0; /* the first of its type */
        is_old = is_old || nodes[p - 1].version == 1;
    }
    return is_old && types > 15;
}

static bool same_settings(const struct nadrelgos_settings *one, const struct nadrelgos_settings *other) {
    return memcmp(one->pool, other->pool, sizeof one->pool) == 0 && one->k == other->k &&
           one->subnet == other->subnet && one->internal == other->internal && one->mac == other->mac &&
           one->session == other->session;
}

static bool same_stand(const struct nadrelgos_stand *one, const struct nadrelgos_stand *other) {
    return one->stage == other->stage && one->board == other->board && one->requester == other->requester;
}

bool same_kept(const struct nadrelgos_kept *one, const struct nadrelgos_kept *other) {
    return one->message == other->message && one->packet == other->packet && one->kind == other->kind &&
           one->method == other->method && one->parameter == other->parameter && one->length == other->length &&
           memcmp(one->payload, other->payload, sizeof one->payload) == 0;
}

bool same_found(const struct nadrelgos_found *one, const struct nadrelgos_found *other) {
    return one->kind == other->kind && one->version == other->version && one->mac == other->mac &&
           one->session == other->session;
}

bool same_coordinator(const struct nadrelgos_coordinator *one, const struct nadrelgos_coordinator *other) {
    return same_settings(&one->setup, &other->setup) && one->last == other->last && one->held == other->held &&
           one->searched == other->searched && same_stand(&one->stand, &other->stand) &&
           same_kept(&one->kept, &other->kept) && same_found(&one->found, &other->found);
}
