/*
 * Measures the stack that one call takes: its arguments and return address there, and all below. Each call runs on a
 * stack of its own, an array painted with a pattern, and afterwards the lowest byte that is no longer the pattern tells
 * how deep it went. A call that does nothing is measured first and taken off. x86-64, as the archive is.
 *
 * The steps are those of a full table, forty boards, every other one a 1.0 board, with the longest payloads that a
 * frame can carry: accepted and refused joins and discoveries, lists of both forms, offers, requests by each method with
 * their forwards and returns, misses, drops.
 * What is wrapped and unwrapped is the longest message in four levels. Shared data is looked up in two full images that
 * have none of the sector, and the longest record is stored in the last slot and written as a response.
 */
#include "nadrelgos.h"
#include "wire.h"

#include <stdio.h>
#include <string.h>

enum { STACK = 256 * 1024, PATTERN = 0xA5, SUBNET = 3, LONGEST = 240, FIRST_ADDRESS = 16 };

/* the longest payload in four levels, of seven bytes each */
enum { INNERMOST = LONGEST - 7 * NADRELGOS_LEVELS };

/* the node types of the boards in turn: a thermostat, a furnace, an air handler, an air conditioner */
enum { KINDS = 4, FURNACE = 2 };

static struct nadrelgos_coordinator coordinator;
static struct nadrelgos_node nodes[NADRELGOS_NODES];
static uint8_t pool[NADRELGOS_NODES];
static uint8_t out[NADRELGOS_ROOM];
static uint8_t received[WIRE_MOST];
static size_t received_count;
static uint8_t capture[4096]; /* no good frame, and room for the longest at every start */
static uint8_t network[NADRELGOS_IMAGE], factory[NADRELGOS_IMAGE];
static bool astray; /* something came out otherwise than this program means it to */

/* ---- a call on a painted stack */

static _Alignas(64) uint8_t stack[STACK];

/* what is called: a step by its event's number, or one of these */
enum { SETUP = 0, MARK = 6, CLEAR = 7, FIND = 8, WRAP = 9, UNWRAP = 10, HOLDER = 11, STORE = 12, ANSWER = 13,
       CALLS = 14, NOTHING = 255 };

struct call {
    uint8_t event;
    uint8_t kind;
    uint64_t mac;
    uint8_t version;
    uint64_t answer;
};

/* Every other board speaks 1.0, the last one too. Its MAC is its position. */
static uint8_t version_of(uint64_t mac) {
    return mac % 2 ? NADRELGOS_VERSION_LATER : NADRELGOS_VERSION_1_0;
}

/* By itself, so that the room for what it finds is not counted with the other calls. */
__attribute__((noinline)) static void find(void) {
    if (nadrelgos_find(LONGEST, capture, sizeof capture, sizeof capture).number != NADRELGOS_NOTHING) astray = true;
}

/* The longest message in four levels, written into out; and what is there, read. By themselves too. */
__attribute__((noinline)) static void wrap(void) {
    static const struct nadrelgos_header header = {.subnet = SUBNET, .message = TYPE_CONTROL};
    static const struct nadrelgos_levels levels;
    if (nadrelgos_wrap(header, levels, NADRELGOS_LEVELS, capture, INNERMOST, out, sizeof out).refusal) astray = true;
}

__attribute__((noinline)) static void unwrap(void) {
    if (nadrelgos_unwrap(SUBNET, out, sizeof out).depth != NADRELGOS_LEVELS) astray = true;
}

/* Shared data in full images: a sector that neither has, and the one in the last slot of the network's copy. By
   themselves too. */
enum { SECTOR_NONE = 0, SECTOR_LAST = NADRELGOS_SLOTS };

__attribute__((noinline)) static void hold_none(void) {
    struct nadrelgos_holder found =
        nadrelgos_shared_holder(network, sizeof network, factory, sizeof factory, SECTOR_NONE);
    if (found.refusal || found.image != NADRELGOS_NEITHER) astray = true;
}

__attribute__((noinline)) static void store_longest(void) {
    if (nadrelgos_shared_store(network, sizeof network, SECTOR_LAST, capture, NADRELGOS_RECORD_MAX).slot !=
        NADRELGOS_SLOTS)
        astray = true;
}

__attribute__((noinline)) static void answer_longest(void) {
    if (nadrelgos_shared_answer(network, sizeof network, factory, sizeof factory, SECTOR_LAST, out, sizeof out)
            .written != NADRELGOS_SHARED_ROOM)
        astray = true;
}

static void make(struct call *call) {
    switch (call->event) {
    case NOTHING: break;
    case SETUP:
        call->answer = nadrelgos_setup(&coordinator, nodes, NADRELGOS_NODES, pool, sizeof pool, SUBNET, 21, 9, 1);
        break;
    case MARK:
        call->answer = nadrelgos_mark(nodes, NADRELGOS_NODES, NADRELGOS_NODES);
        break;
    case CLEAR:
        call->answer = nadrelgos_clear(nodes, NADRELGOS_NODES, NADRELGOS_NODES);
        break;
    case FIND: find(); break;
    case WRAP: wrap(); break;
    case UNWRAP: unwrap(); break;
    case HOLDER: hold_none(); break;
    case STORE: store_longest(); break;
    case ANSWER: answer_longest(); break;
    default:
        call->answer = nadrelgos_step(&coordinator, nodes, NADRELGOS_NODES, call->event, call->kind, call->mac, 1,
                                      call->version, received, received_count, out, sizeof out);
    }
}

/* Calls make(call) with the stack pointer at the end of the array, and says how many of its bytes were written. */
static size_t depth(struct call *call) {
    void (*function)(struct call *) = make;
    uint8_t *top = stack + sizeof stack;
    size_t untouched = 0;
    memset(stack, PATTERN, sizeof stack);
    __asm__ volatile("movq %%rsp, %%rbx\n\t"
                     "movq %[top], %%rsp\n\t"
                     "callq *%[function]\n\t"
                     "movq %%rbx, %%rsp"
                     : "+D"(call)
                     : [top] "r"(top), [function] "r"(function)
                     : "rax", "rbx", "rcx", "rdx", "rsi", "r8", "r9", "r10", "r11", "xmm0", "xmm1", "xmm2", "xmm3",
                       "xmm4", "xmm5", "xmm6", "xmm7", "xmm8", "xmm9", "xmm10", "xmm11", "xmm12", "xmm13", "xmm14",
                       "xmm15", "memory", "cc");
    while (untouched < sizeof stack && stack[untouched] == PATTERN) untouched++;
    return sizeof stack - untouched;
}

/* ---- the deepest call of each kind */

static size_t nothing, deepest[CALLS];
static unsigned calls, refused;

static uint64_t measure(uint8_t event, uint8_t kind, uint64_t mac) {
    struct call call = {event, kind, mac, version_of(mac), 0};
    size_t bytes = depth(&call) - nothing;
    if (bytes > deepest[event]) deepest[event] = bytes;
    calls++;
    if (nadrelgos_refusal(call.answer)) refused++;
    return call.answer;
}

/* ---- the boards: MAC p at position p, session 1 */

static struct sender sender_at(unsigned p) {
    struct sender sender = {0, SUBNET, 0};
    if (p == 0) {
        astray = true;
        return sender;
    }
    sender.address = coordinator.setup.pool[p - 1];
    sender.kind = nodes[p - 1].kind;
    if (version_of(p) == NADRELGOS_VERSION_1_0) sender.subnet = OLD_SUBNET;
    return sender;
}

static uint64_t acks(unsigned p) {
    received_count = wire_ack(received, sender_at(p), p, 1);
    return measure(NADRELGOS_EVENT_FRAME, 0, 0);
}

static uint64_t says(unsigned p, uint8_t type, uint8_t method, uint8_t parameter, const uint8_t *payload,
                     size_t count) {
    received_count = wire_frame(received, sender_at(p), type, 0, method, parameter, payload, count);
    return measure(NADRELGOS_EVENT_FRAME, 0, 0);
}

/* A turn, and the board's answer: the list for a list, and an ACK for all else. */
static void one_turn(void) {
    uint64_t answer = measure(NADRELGOS_EVENT_TURN, 0, 0);
    unsigned p = nadrelgos_board(answer);
    if (p == 0) return;
    if (nadrelgos_exchange(answer) == NADRELGOS_LIST)
        says(p, TYPE_LIST + TYPE_RESPONSE, 0, 0, out + AT_PAYLOAD, out[AT_LENGTH]);
    else
        acks(p);
}

/* The lists that are owed, forty at most, then one offer. */
static void until_offered(void) {
    size_t last = coordinator.last;
    for (unsigned i = 0; i <= NADRELGOS_NODES; i++) {
        one_turn();
        if (coordinator.last != last) return;
    }
    astray = true;
}

/* The exchange by which a board joins: it has the address at stake already and gives its ID, or is given the address. */
static void join_by_discovery(unsigned p, bool has_address) {
    const struct sender nobody = {0, 0, 0};
    uint8_t who[18] = {FURNACE}; /* type, a byte of no meaning, MAC, session: the answer to Node Discovery */
    wire_put_word(who + 2, p);
    wire_put_word(who + 10, 1);
    if (nadrelgos_board(measure(NADRELGOS_EVENT_DISCOVER, 0, 0)) != p) astray = true;
    received_count = wire_frame(received, nobody, TYPE_DISCOVER + TYPE_RESPONSE, 0, 0, 0, who, sizeof who);
    if (version_of(p) == NADRELGOS_VERSION_1_0) wire_make_old(received, received_count);
    measure(NADRELGOS_EVENT_FRAME, 0, 0);
    measure(NADRELGOS_EVENT_TURN, 0, 0);
    uint64_t answer;
    if (has_address) {
        acks(p);
        who[1] = FURNACE; /* its ID has no such byte */
        answer = says(p, TYPE_IDENTIFY + TYPE_RESPONSE, 0, 0, who + 1, sizeof who - 1);
    } else {
        measure(NADRELGOS_EVENT_QUIET, 0, 0);
        measure(NADRELGOS_EVENT_TURN, 0, 0);
        answer = says(p, TYPE_ASSIGN + TYPE_RESPONSE, 0, 0, out + AT_PAYLOAD, out[AT_LENGTH]);
    }
    if (nadrelgos_joined(answer) != p || nodes[p - 1].version != version_of(p)) astray = true;
}

/* A request with the longest payload, by each method; the board that it is for answers, or is silent. */
static void carry(uint8_t method, uint8_t parameter, bool acknowledges, bool answers) {
    uint8_t payload[LONGEST];
    memset(payload, 0x5A, sizeof payload);
    unsigned p = nadrelgos_board(measure(NADRELGOS_EVENT_TURN, 0, 0));
    says(p, TYPE_CONTROL, method, parameter, payload, sizeof payload);
    if (method == 0) return;
    uint64_t forward = measure(NADRELGOS_EVENT_TURN, 0, 0);
    unsigned to = nadrelgos_board(forward);
    if (nadrelgos_exchange(forward) != NADRELGOS_FORWARD || nadrelgos_written(forward) != NADRELGOS_ROOM) astray = true;
    if (acknowledges) acks(to);
    if (answers) {
        says(to, TYPE_CONTROL + TYPE_RESPONSE, method, parameter, payload, sizeof payload);
        one_turn(); /* the return */
    } else {
        measure(NADRELGOS_EVENT_QUIET, 0, 0);
    }
}

/* An image without a free slot: sector `first` in slot 1, and so on. */
static void fill(uint8_t image[NADRELGOS_IMAGE], unsigned first) {
    for (unsigned i = 0; i < NADRELGOS_SLOTS; i++) {
        image[NADRELGOS_SLOT * i] = (uint8_t)(first + i);
        image[NADRELGOS_SLOT * i + 1] = NADRELGOS_RECORD_MAX;
    }
}

static void share(void) {
    fill(network, 1);
    fill(factory, 1 + NADRELGOS_SLOTS);
    measure(HOLDER, 0, 0);
    measure(STORE, 0, 0);
    measure(ANSWER, 0, 0);
}

int main(void) {
    struct call empty = {.event = NOTHING};
    nothing = depth(&empty);

    for (unsigned i = 0; i < sizeof pool; i++) pool[i] = (uint8_t)(FIRST_ADDRESS + i);
    measure(SETUP, 0, 0);
    for (unsigned p = 1; p <= NADRELGOS_NODES - 2; p++) {
        if (nadrelgos_joined(measure(NADRELGOS_EVENT_JOIN, (uint8_t)(1 + p % KINDS), p)) != p) astray = true;
        measure(NADRELGOS_EVENT_JOIN, 1, 99); /* busy */
        until_offered();
    }
    join_by_discovery(NADRELGOS_NODES - 1, true);
    measure(NADRELGOS_EVENT_DISCOVER, 0, 0); /* busy */
    until_offered();
    join_by_discovery(NADRELGOS_NODES, false);
    until_offered();
    measure(NADRELGOS_EVENT_DISCOVER, 0, 0);           /* full */
    measure(NADRELGOS_EVENT_JOIN, 1, 99);              /* full */
    measure(NADRELGOS_EVENT_JOIN, 1, NADRELGOS_NODES); /* a board that comes back */
    until_offered();

    carry(0, 0, false, false);
    carry(1, 102, true, true); /* fan, heat */
    carry(1, 100, false, true);
    carry(2, FURNACE, true, false);
    carry(3, NADRELGOS_NODES, false, true);

    received_count = wire_ack(received, sender_at(1), 1, 1); /* no wait is on, then damaged bytes */
    measure(NADRELGOS_EVENT_FRAME, 0, 0);
    received[AT_PAYLOAD] ^= 1;
    measure(NADRELGOS_EVENT_FRAME, 0, 0);

    for (unsigned i = 0; i < 3 * NADRELGOS_NODES * NADRELGOS_NODES && nodes[0].kind != 0; i++) {
        measure(NADRELGOS_EVENT_TURN, 0, 0); /* nobody answers any more, until the first is dropped */
        measure(NADRELGOS_EVENT_QUIET, 0, 0);
    }
    if (nodes[0].kind != 0) astray = true;
    measure(MARK, 0, 0);
    measure(CLEAR, 0, 0);
    memset(capture, LONGEST, sizeof capture);
    measure(FIND, 0, 0);
    measure(WRAP, 0, 0);
    measure(UNWRAP, 0, 0);
    share();
    if (astray) {
        printf("stack: the panel did not do what this program means to measure\n");
        return 1;
    }

    printf("stack of one call, in bytes, over %u calls on a full table (%u refused):\n", calls, refused);
    printf("  setup %u, join %u, turn %u, frame %u, quiet %u, discover %u, mark %u, clear %u, find %u, unwrap %u, "
           "wrap %u, shared holder %u, store %u, answer %u\n",
           (unsigned)deepest[SETUP], (unsigned)deepest[NADRELGOS_EVENT_JOIN], (unsigned)deepest[NADRELGOS_EVENT_TURN],
           (unsigned)deepest[NADRELGOS_EVENT_FRAME], (unsigned)deepest[NADRELGOS_EVENT_QUIET],
           (unsigned)deepest[NADRELGOS_EVENT_DISCOVER], (unsigned)deepest[MARK], (unsigned)deepest[CLEAR],
           (unsigned)deepest[FIND], (unsigned)deepest[UNWRAP], (unsigned)deepest[WRAP], (unsigned)deepest[HOLDER],
           (unsigned)deepest[STORE], (unsigned)deepest[ANSWER]);
    return 0;
}
