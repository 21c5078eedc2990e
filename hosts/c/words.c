#include "words.h"

#include "wire.h"

#include <stdarg.h>
#include <stdio.h>

#define COUNT(table) (sizeof(table) / sizeof *(table))

/* ---- names */

/* The node types that our papers name (Networking Specification, 6.3.2 and Table 3). */
const char *words_kind(unsigned kind) {
    switch (kind) {
    case 1: return "thermostat";
    case 2: return "furnace";
    case 3: return "air handler";
    case 4: return "air conditioner";
    case 5: return "heat pump";
    case 9: return "crossover";
    case 21: return "zone controller";
    default: return "board";
    }
}

const char *words_version(unsigned version) {
    return version == NADRELGOS_VERSION_1_0 ? "1.0" : "2.0";
}

const char *words_refusal(unsigned refusal) {
    static const char *const names[] = {
        "accepted", "short", "over-long", "length mismatch", "bad checksum", "not for us", "not awaited",
        "unexpected type", "bad echo", "bad method", "payload too long", "no room", "bad type", "bad MAC", "busy",
        "held", "full", "retired", "awaiting reply", "nobody listed", "not waiting", "bad pool", "state unfit",
        "not discovering", "other subnet", "too many types", "bad length", "no slot",
        [NADRELGOS_BAD_INNER] = "bad inner", [NADRELGOS_TOO_DEEP] = "too deep",
        [NADRELGOS_BAD_TEXT_LENGTH] = "bad text length", [NADRELGOS_BAD_TEXT] = "bad text",
    };
    return refusal < COUNT(names) && names[refusal] ? names[refusal] : "unknown";
}

const char *words_exchange(unsigned exchange) {
    static const char *const names[] = {"none", "offer", "list", "forward", "return", "search", "identify", "assign"};
    return exchange < COUNT(names) ? names[exchange] : "unknown";
}

unsigned words_address(const struct panel *panel, unsigned position) {
    return panel->coordinator.setup.pool[position - 1];
}

static const char *board_name(const struct panel *panel, unsigned position) {
    return words_kind(panel->nodes[position - 1].kind);
}

/* ---- sentences */

/* Sets the words, as printf would print them. */
static void say(struct words *words, const char *format, ...) {
    va_list values;
    va_start(values, format);
    vsnprintf(words->text, sizeof words->text, format, values);
    va_end(values);
}

void words_sent(struct words *words, const struct panel *panel, uint64_t wait) {
    static const char *const sent[] = {"", "offer", "list", "request forwarded", "response returned"};
    unsigned position = nadrelgos_board(wait), exchange = nadrelgos_exchange(wait);
    unsigned address = words_address(panel, position), count = (unsigned)nadrelgos_written(wait);
    const uint8_t *payload = panel->out + AT_PAYLOAD;
    switch (exchange) {
    case NADRELGOS_SEARCH: say(words, "Node Discovery, position %u is free, %u bytes", position, count); break;
    case NADRELGOS_IDENTIFY:
        say(words, "Get Node ID to address %u in subnet %u, %u bytes", address, panel->out[AT_SUBNET], count);
        break;
    case NADRELGOS_ASSIGN:
        say(words, "Set Address %u in subnet %u to the %s, %u bytes", address, payload[ASSIGN_SUBNET],
            words_kind(panel->coordinator.found.kind), count);
        break;
    default: say(words, "%s to the %s, %u bytes", sent[exchange], board_name(panel, position), count); break;
    }
}

/* A frame that the exchange by which a board joins has taken. */
static void say_joining(struct words *words, const struct panel *panel, uint64_t wait, uint64_t answer) {
    unsigned position = nadrelgos_board(wait), address = words_address(panel, position);
    const char *name = words_kind(panel->received[AT_PAYLOAD]); /* of who gives its type first */
    if (nadrelgos_joined(answer))
        say(words, "the %s %s address %u; ACK sent. Joined, position %u", board_name(panel, position),
            nadrelgos_exchange(wait) == NADRELGOS_ASSIGN ? "takes" : "has", address, position);
    else if (nadrelgos_answer(answer) == NADRELGOS_WAIT)
        say(words, "ACK from address %u, its ID to come", address);
    else if (nadrelgos_answer(answer) == NADRELGOS_TRANSMIT)
        say(words, "the %s has address %u and cannot join there; ACK sent", name, address);
    else if (panel->coordinator.stand.stage == IDENTIFY_DUE)
        say(words, "the %s, version %s, has no address; position %u for it", name,
            words_version(panel->coordinator.found.version), (unsigned)panel->coordinator.stand.board);
    else
        say(words, "the %s has no address, and cannot join", name);
}

/* What the frame of a listed board was, and what became of it. */
static const char *taken(const struct panel *panel, unsigned exchange, uint64_t answer) {
    bool is_kept = panel->coordinator.stand.stage == FORWARD_DUE;
    switch (nadrelgos_answer(answer)) {
    case NADRELGOS_WAIT: return "ACK, response to come";
    case NADRELGOS_REST: return exchange == NADRELGOS_RETURN ? "ACK, response received" : "ACK";
    case NADRELGOS_DELIVER: return "request to us; ACK sent";
    default: break;
    }
    if (exchange == NADRELGOS_LIST) return "list echoed; ACK sent";
    if (exchange == NADRELGOS_FORWARD) return "response; ACK sent";
    return is_kept ? "request for another board; ACK sent" : "request that no board is there for: discarded; ACK sent";
}

void words_taken(struct words *words, const struct panel *panel, uint64_t wait, uint64_t answer) {
    unsigned exchange = nadrelgos_exchange(wait);
    if (exchange >= NADRELGOS_SEARCH)
        say_joining(words, panel, wait, answer);
    else
        say(words, "from the %s, %s", board_name(panel, nadrelgos_board(wait)), taken(panel, exchange, answer));
}

/* No answer in the exchange by which a board joins. */
static void say_nobody(struct words *words, const struct panel *panel, uint64_t wait) {
    unsigned address = words_address(panel, nadrelgos_board(wait));
    bool is_free = panel->coordinator.stand.stage == ASSIGN_DUE;
    if (nadrelgos_exchange(wait) == NADRELGOS_SEARCH)
        say(words, "no board is without an address");
    else if (nadrelgos_exchange(wait) == NADRELGOS_ASSIGN)
        say(words, "address %u is not taken: broken off", address);
    else
        say(words, "address %u %s", address, is_free ? "is free" : "is somebody's who gives no ID: broken off");
}

void words_quiet(struct words *words, const struct panel *panel, uint64_t wait, struct nadrelgos_node before,
                 uint64_t answer) {
    unsigned position = nadrelgos_board(wait);
    const struct nadrelgos_node *after = &panel->nodes[position - 1];
    const char *name = words_kind(before.kind);
    if (nadrelgos_exchange(wait) >= NADRELGOS_SEARCH)
        say_nobody(words, panel, wait);
    else if (nadrelgos_dropped(answer))
        say(words, "no answer from the %s, the third in a row: dropped from position %u", name, position);
    else if (after->misses == before.misses)
        say(words, "no response from the %s after its ACK: no miss", name);
    else
        say(words, "no answer from the %s: %u in a row", name, after->misses);
}

/* What a request for the host wants shown: a text, which is text alone where the reader does not refuse it. */
static void say_display(struct words *words, const uint8_t *payload, size_t count) {
    struct nadrelgos_text read = nadrelgos_read_display(payload, count);
    const char *text = (const char *)payload + read.start;
    if (read.refusal)
        say(words, "for the host: nothing that can be displayed, %s", words_refusal(read.refusal));
    else
        say(words, "for the host: to be displayed, \"%.*s\"", (int)read.length, text);
}

/* Or a fault; codes 0 and no text take it back. Whose it is its sender tells, and not the type in the payload. */
static void say_fault(struct words *words, const char *name, const uint8_t *payload, size_t count) {
    struct nadrelgos_text read = nadrelgos_read_diagnostics(payload, count);
    const char *text = (const char *)payload + read.start;
    if (read.refusal)
        say(words, "for the host: no fault that can be displayed, %s", words_refusal(read.refusal));
    else if (!read.major && !read.minor && !read.length)
        say(words, "for the host: the fault of the %s is gone", name);
    else
        say(words, "for the host: fault of the %s, major %u, minor %u, \"%.*s\"", name, read.major, read.minor,
            (int)read.length, text);
}

/* Bytes in hex behind a colon, or nothing where there are none. Of more than a sentence has room for: the first. */
enum { SHOWN = 16 };
struct digits {
    char text[sizeof ": ..." + 3 * SHOWN];
};
static struct digits digits_of(const uint8_t *bytes, size_t count) {
    struct digits digits = {""};
    size_t used = 0;
    for (size_t i = 0; i < count && i < SHOWN; i++)
        used += (size_t)snprintf(digits.text + used, sizeof digits.text - used, i ? " %02X" : ": %02X", bytes[i]);
    if (count > SHOWN) snprintf(digits.text + used, sizeof digits.text - used, " ...");
    return digits;
}

/* Or it holds a message inside messages. Of one that is refused nothing is shown, the outer levels neither. Its subnet
   is its sender's, and taken by the step. */
static void say_inside(struct words *words, const struct panel *panel) {
    const uint8_t *received = panel->received;
    size_t count = WIRE_AROUND + (size_t)received[AT_LENGTH];
    struct nadrelgos_unwrapping read = nadrelgos_unwrap(received[AT_SUBNET], received, count);
    if (read.refusal)
        say(words, "for the host: no message that can be unwrapped, %s", words_refusal(read.refusal));
    else
        say(words, "for the host: message of type %u in %u level%s, %u bytes%s", read.message, read.depth,
            read.depth == 1 ? "" : "s", (unsigned)read.length, digits_of(received + read.start, read.length).text);
}

/* Or it has a record kept for its sector. */
void words_stored(struct words *words, const struct panel *panel, struct nadrelgos_storing stored) {
    unsigned sector = panel->received[AT_PAYLOAD], count = panel->received[AT_LENGTH] - 1u;
    const uint8_t *record = panel->received + AT_PAYLOAD + 1;
    if (stored.refusal)
        say(words, "for the host: no record of sector %u that can be stored, %s", sector,
            words_refusal(stored.refusal));
    else
        say(words, "for the host: sector %u stored in slot %u, %u bytes%s", sector, stored.slot, count,
            digits_of(record, count).text);
}

/* Or it wants the record back. The bytes are those of the response's payload. */
void words_served(struct words *words, const struct panel *panel, const struct served *served) {
    unsigned sector = panel->received[AT_PAYLOAD], count = (unsigned)served->writing.written;
    const struct nadrelgos_holder *holder = &served->holder;
    const char *image = holder->image == NADRELGOS_NETWORK ? "the network's copy" : "the factory image";
    if (served->writing.refusal)
        say(words, "for the host: sector %u cannot be served, %s", sector, words_refusal(served->writing.refusal));
    else if (holder->image == NADRELGOS_NEITHER)
        say(words, "for the host: sector %u has no record in either image: an empty payload", sector);
    else
        say(words, "for the host: sector %u served from %s, slot %u, %u bytes%s", sector, image, holder->slot, count,
            digits_of(served->payload, count).text);
}

void words_request(struct words *words, const struct panel *panel, uint64_t wait) {
    unsigned type = panel->received[AT_TYPE], count = panel->received[AT_LENGTH];
    const uint8_t *payload = panel->received + AT_PAYLOAD;
    switch (type) {
    case NADRELGOS_SET_DISPLAY: say_display(words, payload, count); break;
    case NADRELGOS_SET_DIAGNOSTICS:
        say_fault(words, board_name(panel, nadrelgos_board(wait)), payload, count);
        break;
    case NADRELGOS_ENCAPSULATION: say_inside(words, panel); break;
    default: say(words, "for the host: request %u with %u bytes", type, count); break;
    }
}
