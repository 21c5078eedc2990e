/*
 * Frames of any kind in the exchange by which a board joins. What each is answered, and what it leaves, is foretold
 * here from the rules (the requests C-11, C-14 and C-15; API Reference, 6.6 to 6.8), and the call is held to it.
 */
#include "frames.h"

#include "../../hosts/c/wire.h"
#include "checks.h"

#include <string.h>

enum { FOUND = TYPE_DISCOVER + TYPE_RESPONSE, ASSIGNED = TYPE_ASSIGN + TYPE_RESPONSE,
       IDENTIFIED = TYPE_IDENTIFY + TYPE_RESPONSE };
enum { ACK_BYTES = 29, PANEL_TYPE = 165 };

/* The frame that comes in, and the room for the answer to it. */
static size_t count, room;

static unsigned draw_below(unsigned limit) {
    return (unsigned)(draw() >> 32) % limit;
}

/* ---- what is foretold */

/* What should be left, and the answer. A refusal leaves everything. */
static struct lent then;

static uint64_t rests(void) {
    return (uint64_t)NADRELGOS_REST << 8;
}

static uint64_t transmits(size_t joined) {
    return (uint64_t)NADRELGOS_TRANSMIT << 8 | (uint64_t)joined << 32 | (uint64_t)ACK_BYTES << 48;
}

static uint64_t waits_on(size_t position) {
    return (uint64_t)NADRELGOS_WAIT << 8 | (uint64_t)position << 16 | (uint64_t)NADRELGOS_IDENTIFY << 24;
}

/* The position that a join of this board would get; 0 where it would be refused. */
static size_t place_for(struct nadrelgos_found who) {
    if (who.kind == 0 || who.kind == PANEL_TYPE || who.mac == 0 || who.mac > NADRELGOS_MAC_MAX) return 0;
    for (size_t p = 1; p <= BOARDS; p++)
        if (then.nodes[p - 1].mac == who.mac) return p;
    return FREE;
}

static void end_exchange(void) {
    then.coordinator.stand = (struct nadrelgos_stand){0, 0, 0};
    then.coordinator.found = (struct nadrelgos_found){0, 0, 0, 0};
}

/* A listed board is heard where the MAC is its own. */
static void hear(size_t position, uint64_t mac) {
    struct nadrelgos_node *node = &then.nodes[position - 1];
    if (node->kind != 0 && node->mac == mac) node->misses = 0;
}

/* The board joins, listed before or not, as what it says it is; the list is owed to all, the indexes are those of the
   new types, and joins are held. */
static void join(size_t position, struct nadrelgos_found who) {
    then.nodes[position - 1] = (struct nadrelgos_node){who.kind, who.mac, who.session, 0, 1, 0, who.version};
    for (size_t p = 1; p <= K; p++)
        if (then.nodes[p - 1].kind != 0) then.nodes[p - 1].owed = 1;
    count_indexes(then.nodes);
    then.coordinator.held = 1;
}

/* A response ends the exchange: with the join of its sender, where that would get the position at stake. */
static uint64_t finish(size_t stake, struct nadrelgos_found who) {
    if (room < ACK_BYTES) return NADRELGOS_NO_ROOM;
    bool joins = place_for(who) == stake;
    end_exchange();
    if (joins)
        join(stake, who);
    else
        hear(stake, who.mac);
    return transmits(joins ? stake : 0);
}

/* Search takes a Node Discovery Response: Get Node ID is due, or the exchange breaks off. A 1.0 board says so by a bit
   of its packet number. */
static uint64_t in_search(uint8_t type, const uint8_t *payload, size_t length) {
    if (type != FOUND || length != FOUND_LENGTH) return NADRELGOS_UNEXPECTED_TYPE;
    uint8_t version = received[AT_PACKET] & OLD_BIT ? 1 : 2;
    struct nadrelgos_found who = {payload[0], version, wire_word(payload + 2), wire_word(payload + 10)};
    size_t place = place_for(who);
    end_exchange();
    if (place == 0) return rests();
    then.coordinator.stand = (struct nadrelgos_stand){IDENTIFY_DUE, place, 0};
    then.coordinator.found = who;
    return rests();
}

/* Identify takes an ACK, once, and the ID: of the version of the board found, whose subnet was asked. */
static uint64_t in_identify(uint8_t type, const uint8_t *payload, size_t length, size_t stake, bool acked) {
    if (!acked && type == TYPE_R2R && length == R2R_LENGTH && payload[0] == CODE_ACK) {
        then.coordinator.stand = (struct nadrelgos_stand){PRESENT, stake, 0};
        hear(stake, wire_word(payload + 1));
        return waits_on(stake);
    }
    if (type != IDENTIFIED || length != ID_LENGTH) return NADRELGOS_UNEXPECTED_TYPE;
    uint8_t version = lent.coordinator.found.version;
    struct nadrelgos_found who = {payload[0], version, wire_word(payload + 1), wire_word(payload + 9)};
    return finish(stake, who);
}

/* The payload of Set Address, which its response has to echo. */
static void write_assignment(uint8_t *payload) {
    const struct nadrelgos_coordinator *c = &lent.coordinator;
    payload[0] = pool[c->stand.board - 1];
    payload[1] = subnet_of(c->found.version);
    wire_put_word(payload + 2, c->found.mac);
    wire_put_word(payload + 10, c->found.session);
    payload[18] = 1;
}

/* Assign takes the echo. */
static uint64_t in_assign(uint8_t type, const uint8_t *payload, size_t length, size_t stake) {
    uint8_t assignment[ASSIGN_LENGTH];
    if (type != ASSIGNED) return NADRELGOS_UNEXPECTED_TYPE;
    write_assignment(assignment);
    if (length != ASSIGN_LENGTH || memcmp(payload, assignment, ASSIGN_LENGTH) != 0) return NADRELGOS_BAD_ECHO;
    return finish(stake, lent.coordinator.found);
}

/* The numbers 1 to 4 of bytes that are no good frame; 0 where they are one. */
static uint64_t unreadable(void) {
    if (count < WIRE_AROUND) return NADRELGOS_SHORT;
    if (received[AT_LENGTH] > WIRE_MOST - WIRE_AROUND) return NADRELGOS_OVER_LONG;
    if (count != WIRE_AROUND + (size_t)received[AT_LENGTH]) return NADRELGOS_LENGTH_MISMATCH;
    return wire_good(received, count) ? 0 : NADRELGOS_BAD_CHECKSUM;
}

/* The source that is awaited: 0 in search, else the address at stake. */
static uint8_t awaited(uint8_t stage, size_t stake) {
    return stage == SEARCH ? 0 : pool[stake - 1];
}

/* Whether the panel waits for a listed board in this stage. */
static bool awaits_board(uint8_t stage) {
    return 1 <= stage && stage <= 5;
}

/* Whether a frame of this subnet is read in this stage: ours and 0 always; that of 1.0 boards in a wait for one, in
   search, and from then on where the board found is one. */
static bool is_read(uint8_t stage, uint8_t subnet) {
    const struct nadrelgos_coordinator *c = &lent.coordinator;
    if (subnet == SUBNET || subnet == WIRE_ALL) return true;
    if (subnet != OLD_SUBNET) return false;
    if (stage >= SEARCH) return stage == SEARCH || c->found.version == 1;
    return awaits_board(stage) && lent.nodes[c->stand.board - 1].version == 1;
}

/* The answer to the frame in the exchange; what it leaves is then in `then`. */
static uint64_t foretell(uint8_t stage, size_t stake) {
    uint64_t refusal = unreadable();
    const uint8_t *payload = received + AT_PAYLOAD;
    uint8_t type = received[AT_TYPE];
    size_t length = received[AT_LENGTH];
    memcpy(&then, &lent, sizeof then);
    if (refusal) return refusal;
    if (!is_read(stage, received[AT_SUBNET])) return NADRELGOS_OTHER_SUBNET;
    if (received[AT_DESTINATION] != WIRE_PANEL) return NADRELGOS_NOT_FOR_US;
    if (received[AT_SOURCE] != awaited(stage, stake)) return NADRELGOS_NOT_AWAITED;
    switch (stage) {
    case SEARCH: return in_search(type, payload, length);
    case IDENTIFY: return in_identify(type, payload, length, stake, false);
    case PRESENT: return in_identify(type, payload, length, stake, true);
    case ASSIGN: return in_assign(type, payload, length, stake);
    default: return NADRELGOS_NOT_AWAITED; /* Get Node ID or Set Address is due: no wait is on */
    }
}

/* ---- what comes in */

/* A MAC: of a listed board, of nobody's, at the ends of the range and past them, or any. */
static uint64_t draw_mac(void) {
    static const uint64_t some[] = {
        100, 101, 102, 200, 300, 1, 0, NADRELGOS_MAC_MAX, NADRELGOS_MAC_MAX + 1, UINT64_MAX,
    };
    unsigned which = draw_below(sizeof some / sizeof *some + 1);
    return which < sizeof some / sizeof *some ? some[which] : draw();
}

static uint8_t draw_kind(void) {
    static const uint8_t some[] = {0, PANEL_TYPE, 2, 5, 255};
    return draw_below(8) ? some[draw_below(sizeof some)] : (uint8_t)draw_below(256);
}

/* A payload of the form that a response or an ACK has, its length, and the type that goes with it. */
static size_t draw_formed(uint8_t *payload, uint8_t *type) {
    static const uint8_t types[] = {TYPE_R2R, FOUND, ASSIGNED, IDENTIFIED};
    *type = types[draw_below(sizeof types)];
    switch (*type) {
    case FOUND:
        payload[0] = draw_kind();
        wire_put_word(payload + 2, draw_mac());
        return FOUND_LENGTH;
    case ASSIGNED:
        write_assignment(payload);
        if (!draw_below(3)) payload[draw_below(ASSIGN_LENGTH)] ^= (uint8_t)(1 << draw_below(8));
        return ASSIGN_LENGTH;
    default:
        payload[0] = *type == TYPE_R2R ? (draw_below(8) ? CODE_ACK : CODE_OFFER) : draw_kind();
        wire_put_word(payload + 1, draw_mac());
        return *type == TYPE_R2R ? R2R_LENGTH : ID_LENGTH;
    }
}

/* Mostly our subnet, that of 1.0 boards, or everybody's; else any. */
static uint8_t draw_subnet(void) {
    static const uint8_t some[] = {SUBNET, OLD_SUBNET, WIRE_ALL};
    return draw_below(8) ? some[draw_below(sizeof some)] : (uint8_t)draw_below(256);
}

static uint8_t draw_version(void) {
    return (uint8_t)(1 + draw_below(2));
}

/* A good frame to the panel, mostly one that the exchange knows, from mostly the source that is awaited. */
static void draw_frame(uint8_t stage, size_t stake) {
    uint8_t payload[WIRE_MOST], type;
    struct sender from = {awaited(stage, stake), draw_subnet(), (uint8_t)draw_below(256)};
    scatter(payload, sizeof payload);
    size_t length = draw_formed(payload, &type);
    if (!draw_below(8)) from.address = draw_below(2) ? 0 : (uint8_t)draw_below(256);
    if (!draw_below(8)) type = (uint8_t)draw_below(256);
    if (!draw_below(8)) length = draw_below(2) ? length + draw_below(3) - 1 : draw_below(241);
    count = wire_frame(received, from, type, (uint8_t)draw_below(256), (uint8_t)draw_below(256),
                       (uint8_t)draw_below(256), payload, length);
    if (!draw_below(16)) received[draw_below((unsigned)count)] ^= (uint8_t)(1 << draw_below(8));
    if (!draw_below(16)) count = draw_below((unsigned)count + 1);
}

/* Any bytes. */
static void draw_bytes(void) {
    count = draw_below(sizeof received + 1);
    scatter(received, sizeof received);
    if (draw_below(2)) received[AT_DESTINATION] = WIRE_PANEL;
    if (draw_below(2)) received[AT_LENGTH] = (uint8_t)(count - WIRE_AROUND);
}

static void draw_room(void) {
    static const size_t rooms[] = {NADRELGOS_ROOM, NADRELGOS_ROOM, ACK_BYTES, ACK_BYTES - 1, 0};
    room = rooms[draw_below(sizeof rooms / sizeof *rooms)];
}

/* ---- the calls */

static uint64_t call(void) {
    return nadrelgos_frame(&lent.coordinator, lent.nodes, received, count, lent.out, room);
}

/* What is written is an ACK to the position at stake, with the index that its record then has, in the subnet of the
   board that was found: whoever answered was asked there. */
static bool is_ack_written(size_t stake) {
    return wire_good(lent.out, ACK_BYTES) && lent.out[AT_PARAMETER_2] == then.nodes[stake - 1].index &&
           lent.out[AT_SUBNET] == subnet_of(before.coordinator.found.version);
}

static void hold_as_foretold(uint64_t foretold, size_t stake) {
    keep();
    uint64_t answer = call();
    size_t written = nadrelgos_written(foretold);
    hold(answer == foretold && same_coordinator(&lent.coordinator, &then.coordinator) &&
             same_nodes(lent.nodes, then.nodes, NADRELGOS_NODES) && past_untouched(NADRELGOS_NODES) &&
             memcmp(lent.out + written, before.out + written, sizeof lent.out - written) == 0 &&
             (written == 0 || is_ack_written(stake)),
         answer);
}

void frames_in_the_exchange(void) {
    enum { ROUNDS = 4000 };
    begin("frames and any bytes in each stage of the exchange by which a board joins");
    for (unsigned round = 0; round < ROUNDS; round++) {
        for (uint8_t stage = SEARCH; stage <= ASSIGN; stage++) {
            make_fit(stage);
            size_t stake = draw_below(2) ? FREE : 1 + draw_below(K); /* listed or not */
            lent.coordinator.stand.board = stake;
            for (size_t i = 0; i < BOARDS; i++) lent.nodes[i].version = draw_version();
            if (stage == SEARCH) scatter(&lent.coordinator.found, sizeof lent.coordinator.found);
            if (stage > SEARCH) lent.coordinator.found.version = draw_version();
            if (stage > SEARCH && draw_below(2)) lent.coordinator.found.mac = 100 + draw_below(BOARDS);
            draw_room();
            if (draw_below(8))
                draw_frame(stage, stake);
            else
                draw_bytes();
            hold_as_foretold(foretell(stage, stake), stake);
        }
    }
    end();
}

/* The three responses where the exchange is not running: 23, unless the request that the response answers was forwarded
   and is awaited. */
void frames_out_of_the_exchange(void) {
    begin("responses of that exchange where it is not running");
    for (uint8_t stage = 0; stage < SEARCH; stage++) {
        for (uint8_t type = FOUND; type <= IDENTIFIED; type++) {
            for (uint8_t asked = TYPE_DISCOVER - 1; asked <= TYPE_IDENTIFY + 1; asked++) {
                struct sender from = {pool[0], SUBNET, 5};
                make_fit(stage);
                if (stage != 7) lent.coordinator.kept.message = asked;
                count = wire_frame(received, from, type, 0, 0, 0, lent.out, ID_LENGTH);
                room = NADRELGOS_ROOM;
                keep();
                uint64_t answer = call();
                bool answers = (stage == 3 || stage == 4) && type == asked + TYPE_RESPONSE;
                if (answers)
                    hold(answer == transmits(0), answer);
                else
                    hold_refused(answer, NADRELGOS_NOT_DISCOVERING, NADRELGOS_NODES);
            }
        }
    }
    end();
}

/* The list that the board at position 1 was sent: boards of type 5 at positions 1 to 3, or, for a 1.0 board, that type
   once in 16 bytes. Its length. */
static size_t write_list(uint8_t *payload) {
    bool is_old = lent.nodes[0].version == 1;
    const uint8_t list[OLD_LIST] = {INTERNAL, 5, is_old ? 0 : 5, is_old ? 0 : 5};
    memcpy(payload, list, sizeof list);
    return is_old ? OLD_LIST : 1 + BOARDS;
}

/* A frame that a stage which waits takes, in this subnet: mostly the ACK of the board awaited, after a list its echo, in
   the exchange the response. */
static void make_taken(uint8_t stage, uint8_t subnet) {
    uint8_t payload[WIRE_MOST] = {CODE_ACK}, type = TYPE_R2R;
    size_t length = R2R_LENGTH, stake = lent.coordinator.stand.board;
    struct sender from = {awaited(stage, stake), subnet, 5};
    wire_put_word(payload + 1, 100);
    wire_put_word(payload + 9, 1);
    if (stage == 2) {
        type = TYPE_LIST + TYPE_RESPONSE, length = write_list(payload);
    } else if (stage == SEARCH) {
        payload[0] = 6;
        type = FOUND, length = FOUND_LENGTH;
    } else if (stage == PRESENT) {
        type = IDENTIFIED, length = ID_LENGTH;
    } else if (stage == ASSIGN) {
        write_assignment(payload);
        type = ASSIGNED, length = ASSIGN_LENGTH;
    } else if (stage == 4) {
        type = 3 + TYPE_RESPONSE; /* what make_fit has kept is of type 3 */
    }
    count = wire_frame(received, from, type, 0, 0, 0, payload, length);
    room = NADRELGOS_ROOM;
}

/* Whether the panel waits in this stage; in the others it rests, or something is due. */
static bool waits_in(uint8_t stage) {
    return awaits_board(stage) || (stage >= SEARCH && stage != IDENTIFY_DUE && stage != ASSIGN_DUE);
}

/* The stage, where the board awaited, or the one found, is of this version, and the frame. */
static void make_in_subnet(uint8_t stage, uint8_t version, uint8_t subnet) {
    make_fit(stage);
    lent.nodes[0].version = version;
    if (stage > SEARCH) lent.coordinator.found.version = version;
    make_taken(stage, subnet);
}

/* The frame in one subnet: where that is read it has this answer; else it gets 24 and leaves all as it was, and 4 where
   it is damaged too. */
static void hold_in_subnet(uint8_t stage, uint8_t version, uint8_t subnet, uint64_t taken) {
    make_in_subnet(stage, version, subnet);
    bool is_taken = is_read(stage, subnet);
    keep();
    uint64_t answer = call();
    if (is_taken)
        hold(answer == taken, answer);
    else
        hold_refused(answer, NADRELGOS_OTHER_SUBNET, NADRELGOS_NODES);
    make_in_subnet(stage, version, subnet);
    received[AT_TYPE] ^= 1;
    keep();
    hold_refused(call(), NADRELGOS_BAD_CHECKSUM, NADRELGOS_NODES);
}

/* The same frame in every subnet: in those that are read it gets one answer, no refusal where the stage waits. */
void frames_of_every_subnet(void) {
    begin("a frame in every subnet and every stage, of boards and finds of either version");
    for (uint8_t stage = 0; stage < STAGES; stage++) {
        for (uint8_t version = 1; version <= 2; version++) {
            make_in_subnet(stage, version, SUBNET);
            uint64_t taken = call();
            hold((nadrelgos_refusal(taken) == NADRELGOS_ACCEPTED) == waits_in(stage), taken);
            for (unsigned subnet = 0; subnet < 256; subnet++) hold_in_subnet(stage, version, (uint8_t)subnet, taken);
        }
    }
    end();
}
