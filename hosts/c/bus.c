#include "bus.h"

#include "client.h"

#include <string.h>

enum { SUBNET = 3 };

/*
 * In seconds: what a message and its answer take here, so long that minutes pass in a run of a hundred messages; what
 * the reply timer takes; and after how long a board to which nothing is sent gives up its address (Networking
 * Specification, 9.1.2).
 */
enum { MESSAGE_SECONDS = 10, REPLY_SECONDS = 3, FORGOTTEN_SECONDS = 120 };

static void set_address(const struct bus *bus, struct board *board, uint8_t address) {
    uint8_t subnet = board->is_old ? OLD_SUBNET : SUBNET;
    board->address = address;
    board->subnet = address ? subnet : 0;
    board->heard = bus->seconds;
}

/* What time does to a board: power comes and goes, and a board to which nothing is sent gives up its address. */
static void age(const struct bus *bus, struct board *board) {
    const struct outage *outage = scene_outage(board->part, bus->messages);
    board->powered = !outage || outage->on == bus->messages;
    if (outage)
        set_address(bus, board, board->powered ? outage->address : 0);
    else if (bus->seconds - board->heard > FORGOTTEN_SECONDS)
        set_address(bus, board, 0);
}

/* Node Discovery: of the boards without an address the one whose slot delay is over first answers. The others hear it
   and hold back. */
static void discover(struct bus *bus) {
    const struct board *first = NULL;
    unsigned shortest = 0;
    for (unsigned i = 0; i < PARTS; i++) {
        struct board *board = &bus->boards[i];
        if (board->address != 0 || !board->powered) continue;
        unsigned delay = client_delay(board);
        if (first && shortest <= delay) continue;
        first = board;
        shortest = delay;
    }
    if (first) client_answer(first, &bus->line);
}

/* Set Address: the board that it is for takes the address. */
static void assign(struct bus *bus, const uint8_t *frame) {
    for (unsigned i = 0; i < PARTS; i++) {
        struct board *board = &bus->boards[i];
        if (!board->powered || !wire_assigns(frame, board->mac, board->session)) continue;
        board->messages++;
        board->heard = bus->seconds;
        if (scene_lapse(board->part, board->messages) != MISSES) client_take(board, &bus->line, frame);
    }
}

/* A message to one address: the board that has it in this subnet answers. */
static void hand_over(struct bus *bus, const uint8_t *frame) {
    for (unsigned i = 0; i < PARTS; i++) {
        struct board *board = &bus->boards[i];
        if (board->address == 0 || board->address != frame[AT_DESTINATION]) continue;
        if (frame[AT_SUBNET] != board->subnet && frame[AT_SUBNET] != WIRE_ALL) continue;
        board->messages++;
        board->heard = bus->seconds;
        board_answer(board, &bus->line, frame);
    }
}

/* The panel's frame goes to all boards, or to the one that has its address. Nobody answers an ACK: it is no message. */
static void bus_send(void *line, const uint8_t *bytes, size_t count) {
    struct bus *bus = line;
    if (!wire_good(bytes, count)) return;
    if (bytes[AT_TYPE] == TYPE_R2R && bytes[AT_PAYLOAD] == CODE_ACK) return;
    bus->messages++;
    bus->seconds += MESSAGE_SECONDS;
    for (unsigned i = 0; i < PARTS; i++) age(bus, &bus->boards[i]);
    if (bytes[AT_DESTINATION] != WIRE_ALL)
        hand_over(bus, bytes);
    else if (bytes[AT_TYPE] == TYPE_DISCOVER)
        discover(bus);
    else if (bytes[AT_TYPE] == TYPE_ASSIGN)
        assign(bus, bytes);
}

static size_t bus_receive(void *line, uint8_t *bytes, size_t room) {
    struct bus *bus = line;
    return line_take(&bus->line, bytes, room);
}

/* The timer has nothing to count: its time passes where nothing is on its way, and then all of it. */
static void bus_start_timer(void *line) {
    (void)line;
}

static bool bus_quiet(void *line) {
    struct bus *bus = line;
    if (!line_is_empty(&bus->line)) return false;
    bus->seconds += REPLY_SECONDS;
    return true;
}

static uint32_t bus_seconds(void *line) {
    const struct bus *bus = line;
    return bus->seconds;
}

static void bus_pause(void *line, uint32_t seconds) {
    struct bus *bus = line;
    bus->seconds += seconds;
}

void bus_start(struct bus *bus) {
    static const struct board boards[PARTS] = {
        {.part = THERMOSTAT, .kind = KIND_THERMOSTAT, .mac = 0x1A2B00000101},
        {.part = FURNACE, .kind = KIND_FURNACE, .mac = 0x1A2B00000202, .is_old = true},
        {.part = AIR_CONDITIONER, .kind = KIND_AIR_CONDITIONER, .mac = 0x1A2B00000303},
        {.part = AIR_HANDLER, .kind = KIND_AIR_HANDLER, .mac = 0x1A2B00000404, .session = 44},
        {.part = CROSSOVER, .kind = KIND_CROSSOVER, .mac = 0x1A2B00000505, .session = 55},
        {.part = NEW_FURNACE, .kind = KIND_FURNACE, .mac = 0x1A2B00000606},
    };
    memset(bus, 0, sizeof *bus);
    memcpy(bus->boards, boards, sizeof boards);
}

struct port bus_port(struct bus *bus) {
    struct port port = {bus, bus_send, bus_receive, bus_start_timer, bus_quiet, bus_seconds, bus_pause};
    return port;
}
