/* The same job in C: checksum, frame, finder, coordinator and shared data, as one would write them for a small panel.
 * Records and numbers are those of the panel's header, so that one state can be handed to both. What is not timed is
 * left out: the response with shared data, and the exchange by which a board joins, whose stages are known to the test
 * of fit alone: no step here leads to them. */
#ifndef COUNTERPART_H
#define COUNTERPART_H

#include "nadrelgos.h"

#include <stdbool.h>

enum {
    CT_PAYLOAD = 240, /* most payload bytes of a frame */
    CT_OVERHEAD = 12, /* header, length byte, check bytes */
    CT_FRAME = CT_PAYLOAD + CT_OVERHEAD
};

struct ct_header {
    uint8_t destination, source, subnet, method, parameter1, parameter2, kind, message, packet;
};

struct ct_frame {
    struct ct_header header;
    const uint8_t *payload; /* a part of the bytes read */
    size_t length;
};

/* The stages of a panel, by their numbers in its record. */
enum ct_stage {
    CT_STAGE_RESTING,
    CT_STAGE_WAIT_OFFER,
    CT_STAGE_WAIT_LIST,
    CT_STAGE_WAIT_FORWARD,
    CT_STAGE_WAIT_FORWARD_ACKED,
    CT_STAGE_WAIT_RETURN,
    CT_STAGE_FORWARD_DUE,
    CT_STAGE_RETURN_DUE,
    CT_STAGE_WAIT_SEARCH,
    CT_STAGE_IDENTIFY_DUE,
    CT_STAGE_WAIT_IDENTIFY,
    CT_STAGE_WAIT_IDENTIFY_ACKED,
    CT_STAGE_ASSIGN_DUE,
    CT_STAGE_WAIT_ASSIGN
};

/* A panel's answer, in the order of the packed one. */
struct ct_answer {
    uint8_t refusal, does, board, exchange, joined, dropped;
    uint16_t written;
};

typedef enum nadrelgos_refusal_number ct_refusal;
typedef struct nadrelgos_coordinator ct_coordinator;
typedef struct nadrelgos_node ct_node;
typedef struct nadrelgos_finding ct_finding;
typedef struct nadrelgos_holder ct_holder;
typedef struct nadrelgos_storing ct_storing;

bool ct_good(const uint8_t *bytes, size_t count);
ct_refusal ct_read(uint8_t ours, const uint8_t *bytes, size_t count, struct ct_frame *frame);
ct_refusal ct_write(const struct ct_header *header, const uint8_t *payload, size_t length, uint8_t *out, size_t room);
ct_finding ct_find(uint8_t ours, const uint8_t *bytes, size_t count, size_t budget);

struct ct_answer ct_setup(ct_coordinator *c, ct_node *nodes, size_t nodes_count, const uint8_t *addresses, size_t k,
                          uint8_t subnet, uint8_t internal, uint64_t mac, uint64_t session);
struct ct_answer ct_join(ct_coordinator *c, ct_node *nodes, size_t nodes_count, uint8_t kind, uint64_t mac,
                         uint64_t session, uint8_t version);
struct ct_answer ct_turn(ct_coordinator *c, ct_node *nodes, size_t nodes_count, uint8_t *out, size_t room);
struct ct_answer ct_hear(ct_coordinator *c, ct_node *nodes, size_t nodes_count, const uint8_t *bytes, size_t count,
                         uint8_t *out, size_t room);
struct ct_answer ct_quiet(ct_coordinator *c, ct_node *nodes, size_t nodes_count);

/* The payload of the node list to a board, in the form of its version; its length. */
size_t ct_list(const ct_coordinator *c, const ct_node *nodes, size_t board, uint8_t list[NADRELGOS_NODES + 1]);

ct_holder ct_shared_holder(const uint8_t *network, size_t network_count, const uint8_t *factory, size_t factory_count,
                           uint8_t sector);
ct_storing ct_shared_store(uint8_t *network, size_t network_count, uint8_t sector, const uint8_t *record,
                           size_t record_count);

#endif
