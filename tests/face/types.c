/*
 * The types that are listed beside a 1.0 board, on tables of forty addresses. What each call has to answer and to leave
 * is worked out here from the request C-15 and the Networking Specification, 8.1.2.4: at most 15 different types are
 * listed while a 1.0 board is; a join that would bring more gets 25, after 15 and before 16, and where a discovery has
 * found the board the exchange breaks off; the list to a 1.0 board has 16 bytes.
 */
#include "types.h"

#include "../../hosts/c/wire.h"
#include "checks.h"

#include <string.h>

enum { ACK_BYTES = 29, MOST_TYPES = 15, NEW_MAC = 7, SESSION = 9, PANEL_TYPE = 165 };

static unsigned draw_below(unsigned limit) {
    return (unsigned)(draw() >> 32) % limit;
}

/* ---- tables */

static uint8_t kinds[NADRELGOS_NODES], versions[NADRELGOS_NODES];

/* The n-th type, from 0 on: never 0 or 165, and in no order. */
static uint8_t type_of(unsigned n) {
    return (uint8_t)(1 + n * 35 % 163);
}

/* Exactly so many types on all positions, every board of a later version. */
static void draft(unsigned types) {
    for (unsigned i = 0; i < NADRELGOS_NODES; i++) {
        kinds[i] = type_of(i % types);
        versions[i] = 2;
    }
}

/* About so many types on most positions, in no order; 1.0 boards where there may be any, none in a third of the
   tables. */
static void draw_table(uint8_t stage, unsigned types) {
    unsigned gaps = draw_below(3) ? draw_below(30) : 0, old = draw_below(3);
    draft(types);
    for (unsigned i = 0; i < NADRELGOS_NODES; i++) {
        unsigned other = draw_below(NADRELGOS_NODES);
        uint8_t kind = kinds[i];
        kinds[i] = kinds[other];
        kinds[other] = kind;
        versions[i] = draw_below(8) < 3 * old ? 1 : 2;
    }
    while (gaps-- > 0) kinds[draw_below(NADRELGOS_NODES)] = 0;
    make_forty(stage, kinds, versions);
    if (!are_types_too_many(lent.nodes, NADRELGOS_NODES)) return;
    memset(versions, 2, sizeof versions);
    make_forty(stage, kinds, versions);
}

/* ---- how many types are fit */

static void hold_types(void) {
    if (are_types_too_many(lent.nodes, NADRELGOS_NODES))
        hold_unfit();
    else
        hold_fit();
}

/* So many types: with no 1.0 board; with one at each position, and then with the two positions behind it free, so that
   there may be fewer types. */
static void hold_types_at(unsigned types) {
    draft(types);
    make_forty(0, kinds, versions);
    hold_fit();
    for (unsigned i = 0; i < NADRELGOS_NODES; i++) {
        draft(types);
        versions[i] = 1;
        make_forty((uint8_t)(i % STAGES), kinds, versions);
        if (types <= MOST_TYPES)
            hold_fit();
        else
            hold_unfit();
        kinds[(i + 1) % NADRELGOS_NODES] = kinds[(i + 2) % NADRELGOS_NODES] = 0;
        make_forty((uint8_t)(i % STAGES), kinds, versions);
        hold_types();
    }
}

void refuses_too_many_types(void) {
    static const unsigned some[] = {1, 2, 14, 15, 16, 17, 39, 40};
    begin("steps on tables of 1 to 40 types without a 1.0 board, and with one at every position");
    for (size_t i = 0; i < sizeof some / sizeof *some; i++) hold_types_at(some[i]);
    for (unsigned types = 13; types <= 18; types++) {
        for (unsigned round = 0; round < 500; round++) {
            draw_table((uint8_t)(round % STAGES), types);
            if (draw_below(2)) lent.nodes[lent.coordinator.stand.board - 1].version = 1;
            hold_types();
        }
    }
    end();
}

/* ---- joins */

/* Where the board would be listed; 0 where nobody has the MAC and no position is free. */
static size_t place_for(uint64_t mac) {
    size_t place = 0;
    for (size_t p = NADRELGOS_NODES; p >= 1; p--) {
        if (lent.nodes[p - 1].mac == mac) return p;
        if (lent.nodes[p - 1].kind == 0) place = p;
    }
    return place;
}

/* Whether the records with the joiner among them have too many types; where there is no room for it, it counts all the
   same. */
static bool brings_too_many(struct nadrelgos_node node, size_t place) {
    struct nadrelgos_node with[NADRELGOS_NODES + 1] = {{0}};
    memcpy(with, lent.nodes, NADRELGOS_NODES * sizeof *with);
    with[place ? place - 1 : NADRELGOS_NODES] = node;
    return are_types_too_many(with, NADRELGOS_NODES + 1);
}

/* A joiner: new, or one that is listed; of a type that is there, or of another; of any version. */
static struct nadrelgos_node draw_joiner(void) {
    uint64_t mac = draw_below(2) ? NEW_MAC : mac_at(1 + draw_below(NADRELGOS_NODES));
    uint8_t kind = type_of(draw_below(2) ? draw_below(MOST_TYPES) : draw_below(NADRELGOS_NODES));
    return (struct nadrelgos_node){kind, mac, SESSION, 0, 1, 0, (uint8_t)(1 + draw_below(2))};
}

/* What a join is refused with before its types are counted, in the order of the numbers; seldom anything. */
static uint64_t draw_hindrance(struct nadrelgos_node *joiner) {
    uint64_t refusal = 0;
    if (!draw_below(16)) lent.coordinator.held = 1, refusal = NADRELGOS_HELD;
    if (!draw_below(16)) lent.nodes[lent.coordinator.stand.board - 1].owed = 1, refusal = NADRELGOS_BUSY;
    if (!draw_below(16)) joiner->mac = 0, refusal = NADRELGOS_BAD_MAC;
    if (!draw_below(16)) joiner->kind = PANEL_TYPE, refusal = NADRELGOS_BAD_TYPE;
    return refusal;
}

static void hold_a_join(unsigned types) {
    draw_table(0, types);
    lent.coordinator.stand = (struct nadrelgos_stand){0, lent.coordinator.stand.board, 0};
    struct nadrelgos_node joiner = draw_joiner();
    uint64_t refusal = draw_hindrance(&joiner);
    size_t place = place_for(joiner.mac);
    if (!refusal && brings_too_many(joiner, place)) refusal = NADRELGOS_TOO_MANY_TYPES;
    if (!refusal && !place) refusal = NADRELGOS_FULL;
    keep();
    uint64_t answer = nadrelgos_join(&lent.coordinator, lent.nodes, joiner.kind, joiner.mac, SESSION, joiner.version);
    if (refusal)
        hold_refused(answer, refusal, NADRELGOS_NODES);
    else
        hold_left(answer, (uint64_t)NADRELGOS_REST << 8 | (uint64_t)place << 32, place, joiner);
}

void joins_up_to_fifteen_types(void) {
    enum { ROUNDS = 4000 };
    begin("joins of any board on tables of 13 to 17 types, full or not");
    for (unsigned round = 0; round < ROUNDS; round++)
        for (unsigned types = 13; types <= 17; types++) hold_a_join(types);
    end();
}

/* ---- boards that a discovery has found */

/* The answer to Node Discovery: Get Node ID is due, or the exchange breaks off, and no record is another. */
static void hold_found(struct nadrelgos_node who, size_t place, bool joins) {
    const struct sender nobody = {0, 0, who.kind};
    uint8_t payload[FOUND_LENGTH];
    wire_put_found(payload, who.kind, who.mac, who.session);
    size_t count = wire_frame(received, nobody, TYPE_DISCOVER + TYPE_RESPONSE, 0, 0, 0, payload, sizeof payload);
    if (who.version == 1) wire_make_old(received, count);
    keep();
    uint64_t answer = nadrelgos_frame(&lent.coordinator, lent.nodes, received, count, lent.out, sizeof lent.out);
    before.coordinator.stand = (struct nadrelgos_stand){joins ? IDENTIFY_DUE : 0, joins ? place : 0, 0};
    before.coordinator.found = (struct nadrelgos_found){0, 0, 0, 0};
    if (joins) before.coordinator.found = (struct nadrelgos_found){who.kind, who.version, who.mac, who.session};
    hold(answer == (uint64_t)NADRELGOS_REST << 8 && unchanged(NADRELGOS_NODES), answer);
}

/* It joins, or the exchange breaks off; the ACK goes out either way, in its subnet. A listed board was heard. */
static void hold_response(uint8_t stage, struct nadrelgos_node who, size_t place, bool joins) {
    uint64_t expected = (uint64_t)NADRELGOS_TRANSMIT << 8 | (uint64_t)ACK_BYTES << 48;
    size_t count = write_joining(stage, place, lent.coordinator.found);
    keep();
    uint64_t answer = nadrelgos_frame(&lent.coordinator, lent.nodes, received, count, lent.out, sizeof lent.out);
    hold(lent.out[AT_SUBNET] == subnet_of(who.version) && lent.coordinator.stand.stage == 0, answer);
    if (joins) {
        hold_left(answer, expected | (uint64_t)place << 32, place, who);
        return;
    }
    if (before.nodes[place - 1].mac == who.mac) before.nodes[place - 1].misses = 0;
    hold(answer == expected && same_nodes(lent.nodes, before.nodes, NADRELGOS_NODES), answer);
}

static void hold_a_find(uint8_t stage, unsigned types) {
    draw_table(stage, types);
    while (!place_for(NEW_MAC)) draw_table(stage, types); /* a discovery is made only where a position is free */
    struct nadrelgos_node who = draw_joiner();
    size_t place = place_for(who.mac);
    bool joins = !brings_too_many(who, place);
    lent.coordinator.stand = (struct nadrelgos_stand){stage, stage == SEARCH ? place_for(NEW_MAC) : place, 0};
    if (stage == SEARCH) {
        hold_found(who, place, joins);
        return;
    }
    lent.coordinator.found = (struct nadrelgos_found){who.kind, who.version, who.mac, who.session};
    hold_response(stage, who, place, joins);
}

void finds_up_to_fifteen_types(void) {
    enum { ROUNDS = 1500 };
    begin("boards found, identified and assigned on tables of 13 to 17 types");
    for (unsigned round = 0; round < ROUNDS; round++) {
        for (unsigned types = 13; types <= 17; types++) {
            hold_a_find(SEARCH, types);
            hold_a_find(IDENTIFY, types);
            hold_a_find(ASSIGN, types);
        }
    }
    end();
}

/* ---- the lists */

static bool has_type(const uint8_t *list, size_t length, uint8_t kind) {
    for (size_t i = 1; i < length; i++)
        if (list[i] == kind) return true;
    return false;
}

/* The condensed list: of 1.0 boards up to position 15 the first of each type at its position; then each other type, by
   its lowest position, in the lowest byte that is open. Without a 1.0 board there may be more types than bytes. */
static size_t condense(uint8_t list[OLD_LIST]) {
    memset(list, 0, OLD_LIST);
    list[0] = INTERNAL;
    for (size_t p = 1; p < OLD_LIST; p++) {
        const struct nadrelgos_node *node = &lent.nodes[p - 1];
        if (node->kind != 0 && node->version == 1 && !has_type(list, p, node->kind)) list[p] = node->kind;
    }
    for (size_t p = 1; p <= NADRELGOS_NODES; p++) {
        uint8_t kind = lent.nodes[p - 1].kind;
        size_t open = 1;
        if (kind == 0 || has_type(list, OLD_LIST, kind)) continue;
        while (open < OLD_LIST && list[open] != 0) open++;
        if (open < OLD_LIST) list[open] = kind;
    }
    return OLD_LIST;
}

/* The list by positions, up to the highest that is listed. */
static size_t write_full(uint8_t list[1 + NADRELGOS_NODES]) {
    size_t length = 1;
    list[0] = INTERNAL;
    for (size_t p = 1; p <= NADRELGOS_NODES; p++) {
        list[p] = lent.nodes[p - 1].kind;
        if (list[p] != 0) length = p + 1;
    }
    return length;
}

/* The list for the board at the position, in the form of its version. */
static size_t write_list(uint8_t list[1 + NADRELGOS_NODES], size_t position) {
    return lent.nodes[position - 1].version == 1 ? condense(list) : write_full(list);
}

/* A table on which a turn sends the list to a board: to which. */
static size_t draw_owed(void) {
    draw_table(0, 1 + draw_below(17));
    lent.coordinator.stand.stage = 0;
    size_t position = 1 + draw_below(NADRELGOS_NODES);
    while (lent.nodes[position - 1].kind == 0) position = 1 + position % NADRELGOS_NODES;
    lent.nodes[position - 1].owed = 1;
    return position;
}

/* One byte too few room: 11. Then it is what it has to be, in the board's subnet. */
static void hold_list_sent(size_t position) {
    uint8_t list[1 + NADRELGOS_NODES];
    size_t length = write_list(list, position), count = WIRE_AROUND + length;
    keep();
    hold_refused(nadrelgos_turn(&lent.coordinator, lent.nodes, lent.out, count - 1), NADRELGOS_NO_ROOM,
                 NADRELGOS_NODES);
    uint64_t answer = nadrelgos_turn(&lent.coordinator, lent.nodes, lent.out, count);
    hold(nadrelgos_exchange(answer) == NADRELGOS_LIST && nadrelgos_board(answer) == position &&
             nadrelgos_written(answer) == count && wire_good(lent.out, count) && lent.out[AT_TYPE] == TYPE_LIST &&
             lent.out[AT_SUBNET] == subnet_of(lent.nodes[position - 1].version) &&
             memcmp(lent.out + AT_PAYLOAD, list, length) == 0 &&
             memcmp(lent.out + count, before.out + count, sizeof lent.out - count) == 0,
         answer);
}

void lists_types_condensed(void) {
    enum { ROUNDS = 20000 };
    begin("lists to boards of either version on tables of 1 to 17 types");
    for (unsigned round = 0; round < ROUNDS; round++) hold_list_sent(draw_owed());
    end();
}

static uint64_t echo(size_t position, const uint8_t *list, size_t length) {
    struct sender from = {lent.coordinator.setup.pool[position - 1], subnet_of(lent.nodes[position - 1].version), 2};
    size_t count = wire_frame(received, from, TYPE_LIST + TYPE_RESPONSE, 0, 0, 0, list, length);
    return nadrelgos_frame(&lent.coordinator, lent.nodes, received, count, lent.out, sizeof lent.out);
}

/* The list with one byte another, cut, lengthened, and in the form of the other version where that is another: 8. */
static void hold_other_lists(size_t position, uint8_t *list, size_t length) {
    uint8_t form[1 + NADRELGOS_NODES];
    bool is_old = lent.nodes[position - 1].version == 1;
    size_t other = is_old ? write_full(form) : condense(form);
    keep();
    for (size_t i = 0; i < length; i++) {
        list[i] ^= 1;
        hold_refused(echo(position, list, length), NADRELGOS_BAD_ECHO, NADRELGOS_NODES);
        list[i] ^= 1;
    }
    list[length] = 0;
    hold_refused(echo(position, list, length - 1), NADRELGOS_BAD_ECHO, NADRELGOS_NODES);
    hold_refused(echo(position, list, length + 1), NADRELGOS_BAD_ECHO, NADRELGOS_NODES);
    if (other != length || memcmp(form, list, length) != 0)
        hold_refused(echo(position, form, other), NADRELGOS_BAD_ECHO, NADRELGOS_NODES);
}

void takes_no_other_list(void) {
    enum { ROUNDS = 2000 };
    begin("echoes of lists: right, with any byte another, of another length, and in the other version's form");
    for (unsigned round = 0; round < ROUNDS; round++) {
        uint8_t list[2 + NADRELGOS_NODES];
        size_t position = draw_owed(), length = write_list(list, position);
        step(NADRELGOS_EVENT_TURN, NADRELGOS_NODES);
        hold_other_lists(position, list, length);
        uint64_t answer = echo(position, list, length);
        hold(answer == ((uint64_t)NADRELGOS_TRANSMIT << 8 | (uint64_t)ACK_BYTES << 48), answer);
    }
    end();
}
