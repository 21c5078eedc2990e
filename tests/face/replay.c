/*
 * Plays a script, from standard input, through include/nadrelgos.h, and answers each line as `replay` does:
 * docs/REPLAY.md has the words. Beside that it holds every call to what the header says of it:
 *   - a refusal has no other part, and changed no field of the records and no byte of out;
 *   - an accepted answer has the parts that its number allows, and none besides;
 *   - the bytes of out past what was written are as they were, those past its end too;
 *   - after an accepted call every record has the index that is counted, those included that the call does not name,
 *     and a version that it may have; and beside a 1.0 board no more than 15 types are listed.
 * What does not hold is told on standard error, with the line of the script, and the exit status is then 1. The last
 * line there counts the calls and the refusals.
 */
#include "records.h"

#include <stdio.h>
#include <string.h>

/* the longest script, the longest frame and output of a line, and what is kept past the output to be looked at */
enum { SCRIPT = 1048576, BYTES = 1024, PAST = 64 };

/* All that the calls may change. In static storage, so that it starts as zeros. */
struct lent {
    struct nadrelgos_coordinator coordinator;
    struct nadrelgos_node nodes[NADRELGOS_NODES];
    uint8_t out[BYTES + PAST];
};

static struct lent lent, before;
static uint8_t script[SCRIPT];
static unsigned long line_number, calls, refusals, broken;

/* ---- each call, held to the header */

static void hold(bool held, const char *what) {
    if (held) return;
    fprintf(stderr, "line %lu: %s\n", line_number, what);
    broken++;
}

static bool is_position(unsigned number) {
    return 1 <= number && number <= lent.coordinator.setup.k;
}

/* Whether an accepted answer has the parts that its number allows, and none besides. */
static bool parts_fit(uint64_t answer) {
    unsigned board = nadrelgos_board(answer), exchange = nadrelgos_exchange(answer);
    unsigned joined = nadrelgos_joined(answer), dropped = nadrelgos_dropped(answer);
    bool waits = board || exchange, moves = joined || dropped;
    switch (nadrelgos_answer(answer)) {
    case NADRELGOS_WAIT:
        return is_position(board) && NADRELGOS_OFFER <= exchange && exchange <= NADRELGOS_ASSIGN && !moves;
    case NADRELGOS_DELIVER: return nadrelgos_written(answer) > 0 && !waits && !moves;
    case NADRELGOS_TRANSMIT:
        return nadrelgos_written(answer) > 0 && !waits && !dropped && (!joined || is_position(joined));
    case NADRELGOS_REST:
        return nadrelgos_written(answer) == 0 && !waits && !(joined && dropped) &&
               (!moves || is_position(joined + dropped));
    default: return false;
    }
}

static void hold_refused(uint64_t answer) {
    refusals++;
    hold(answer == nadrelgos_refusal(answer), "a refusal has another part");
    hold(same_coordinator(&lent.coordinator, &before.coordinator), "a refusal changed the coordinator");
    hold(same_nodes(lent.nodes, before.nodes, NADRELGOS_NODES), "a refusal changed a node record");
    hold(memcmp(lent.out, before.out, sizeof lent.out) == 0, "a refusal changed out");
}

static void hold_accepted(uint64_t answer, size_t room) {
    size_t written = nadrelgos_written(answer);
    hold(parts_fit(answer), "the parts of the answer do not go together");
    hold(are_indexes_right(lent.nodes), "a record has another index than the one that is counted");
    hold(are_versions_right(lent.nodes), "a record has a version that it cannot have");
    hold(!are_types_too_many(lent.nodes, NADRELGOS_NODES), "more than 15 types are listed beside a 1.0 board");
    hold(written <= room && written <= NADRELGOS_ROOM, "more was written than there is room for");
    if (written > room) return;
    hold(memcmp(lent.out + written, before.out + written, sizeof lent.out - written) == 0,
         "bytes of out past the frame changed");
}

/* Before a call: other bytes in out each time, so that a byte written is not there by chance, and a copy of it all. */
static void prepare(void) {
    calls++;
    for (size_t i = 0; i < sizeof lent.out; i++) lent.out[i] = (uint8_t)(7 * i + calls);
    before = lent;
}

/* After a call that had this much room: its refusal is written. Whether it was accepted. */
static bool accepted(uint64_t answer, size_t room) {
    if (!nadrelgos_refusal(answer)) {
        hold_accepted(answer, room);
        return true;
    }
    hold_refused(answer);
    printf("refuse %u\n", nadrelgos_refusal(answer));
    return false;
}

/* ---- the words of a line */

struct line {
    const uint8_t *bytes;
    size_t count;
    size_t next; /* where the next word begins: past count where there is none */
    bool good;   /* each word that was read is what it had to be */
};

struct word {
    const uint8_t *bytes;
    size_t count;
};

static bool at_end(const struct line *line) {
    return line->next > line->count;
}

/* Words are separated by one space, so that two in a row have an empty word between them, which is never good. */
static struct word next_word(struct line *line) {
    struct word word = {line->bytes, 0};
    if (at_end(line)) return word;
    word.bytes += line->next;
    while (line->next + word.count < line->count && word.bytes[word.count] != ' ') word.count++;
    line->next += word.count + 1;
    return word;
}

static bool is_word(struct word word, const char *text) {
    return word.count == strlen(text) && memcmp(word.bytes, text, word.count) == 0;
}

/* The next word as a number of at most this much. */
static uint64_t next_number(struct line *line, uint64_t most) {
    struct word word = next_word(line);
    uint64_t number = 0;
    bool good = word.count > 0;
    for (size_t i = 0; good && i < word.count; i++) {
        unsigned digit = word.bytes[i] - (unsigned)'0';
        good = digit <= 9 && number <= (most - digit) / 10;
        number = number * 10 + digit;
    }
    if (!good) line->good = false;
    return good ? number : 0;
}

static uint8_t next_byte(struct line *line) {
    return (uint8_t)next_number(line, UINT8_MAX);
}

/* What a hex digit is worth; 16 where it is none. */
static unsigned hex_digit(uint8_t glyph) {
    if ('0' <= glyph && glyph <= '9') return glyph - (unsigned)'0';
    if ('A' <= glyph && glyph <= 'F') return glyph - (unsigned)'A' + 10;
    if ('a' <= glyph && glyph <= 'f') return glyph - (unsigned)'a' + 10;
    return 16;
}

/* The next word as bytes in hex, one to BYTES of them. Their count. */
static size_t next_hex(struct line *line, uint8_t *bytes) {
    struct word word = next_word(line);
    bool good = word.count > 0 && word.count % 2 == 0 && word.count <= 2 * BYTES;
    for (size_t i = 0; good && i < word.count / 2; i++) {
        unsigned high = hex_digit(word.bytes[2 * i]), low = hex_digit(word.bytes[2 * i + 1]);
        good = high < 16 && low < 16;
        bytes[i] = (uint8_t)(high * 16 + low);
    }
    if (!good) line->good = false;
    return good ? word.count / 2 : 0;
}

/* The rest of the line as addresses. Their count; those past BYTES are read and left out. */
static size_t next_addresses(struct line *line, uint8_t *addresses) {
    size_t count = 0;
    while (!at_end(line)) {
        uint8_t address = next_byte(line);
        if (count < BYTES) addresses[count++] = address;
    }
    return count;
}

/* Whether the line was read to its end and each word was good. */
static bool is_whole(const struct line *line) {
    return line->good && at_end(line);
}

/* ---- the answers */

static void write_bytes(const char *words, uint64_t answer) {
    size_t written = nadrelgos_written(answer);
    printf("%s %zu", words, written);
    if (written > 0) putchar(' ');
    for (size_t i = 0; i < written && i < sizeof lent.out; i++) printf("%02X", lent.out[i]);
}

static void write_wait(uint64_t answer) {
    static const char *const exchanges[] = {"none",   "offer",  "list",     "forward",
                                            "return", "search", "identify", "assign"};
    unsigned exchange = nadrelgos_exchange(answer);
    printf("wait %u ", nadrelgos_board(answer));
    write_bytes(exchange <= NADRELGOS_ASSIGN ? exchanges[exchange] : "unknown", answer);
}

static void write_moves(uint64_t answer) {
    if (nadrelgos_joined(answer)) printf(" joined %u", nadrelgos_joined(answer));
    if (nadrelgos_dropped(answer)) printf(" dropped %u", nadrelgos_dropped(answer));
}

/* The answer to a step that had this much room. */
static void answer_step(uint64_t answer, size_t room) {
    if (!accepted(answer, room)) return;
    switch (nadrelgos_answer(answer)) {
    case NADRELGOS_WAIT: write_wait(answer); break;
    case NADRELGOS_DELIVER: write_bytes("deliver", answer); break;
    case NADRELGOS_TRANSMIT: write_bytes("transmit", answer); break;
    case NADRELGOS_REST: printf("rest"); break;
    default: printf("unknown"); break;
    }
    write_moves(answer);
    putchar('\n');
}

/* ---- the lines: each says whether it was good, and is played only then */

static bool play_setup(struct line *line) {
    uint8_t addresses[BYTES] = {0};
    uint8_t subnet = next_byte(line), internal = next_byte(line);
    uint64_t mac = next_number(line, UINT64_MAX), session = next_number(line, UINT64_MAX);
    size_t count = next_addresses(line, addresses);
    if (!is_whole(line)) return false;
    prepare();
    uint64_t answer = nadrelgos_setup(&lent.coordinator, lent.nodes, NADRELGOS_NODES, addresses, count, subnet,
                                      internal, mac, session);
    if (accepted(answer, 0)) {
        hold(answer == (uint64_t)NADRELGOS_REST << 8, "a setup has another part");
        printf("ready %zu\n", lent.coordinator.setup.k);
    }
    return true;
}

static bool play_join(struct line *line) {
    uint8_t kind = next_byte(line);
    uint64_t mac = next_number(line, UINT64_MAX), session = next_number(line, UINT64_MAX);
    uint8_t version = next_byte(line);
    if (!is_whole(line)) return false;
    prepare();
    answer_step(nadrelgos_join(&lent.coordinator, lent.nodes, kind, mac, session, version), 0);
    return true;
}

static bool play_turn(struct line *line) {
    size_t room = next_number(line, BYTES);
    if (!is_whole(line)) return false;
    prepare();
    answer_step(nadrelgos_turn(&lent.coordinator, lent.nodes, lent.out, room), room);
    return true;
}

static bool play_discover(struct line *line) {
    size_t room = next_number(line, BYTES);
    if (!is_whole(line)) return false;
    prepare();
    answer_step(nadrelgos_discover(&lent.coordinator, lent.nodes, lent.out, room), room);
    return true;
}

static bool play_frame(struct line *line) {
    uint8_t received[BYTES] = {0};
    size_t room = next_number(line, BYTES);
    size_t count = at_end(line) ? 0 : next_hex(line, received);
    if (!is_whole(line)) return false;
    prepare();
    answer_step(nadrelgos_frame(&lent.coordinator, lent.nodes, received, count, lent.out, room), room);
    return true;
}

static bool play_quiet(struct line *line) {
    if (!is_whole(line)) return false;
    prepare();
    answer_step(nadrelgos_quiet(&lent.coordinator, lent.nodes), 0);
    return true;
}

static void write_record(size_t position) {
    const struct nadrelgos_node *node = &lent.nodes[position - 1];
    printf("%zu %u %u %llu %llu %u %u %u %u\n", position, lent.coordinator.setup.pool[position - 1], node->kind,
           (unsigned long long)node->mac, (unsigned long long)node->session, node->misses, node->owed, node->index,
           node->version);
}

static bool play_table(struct line *line) {
    unsigned listed = 0;
    if (!is_whole(line)) return false;
    for (size_t i = 0; i < NADRELGOS_NODES; i++) listed += lent.nodes[i].kind != 0;
    printf("listed %u\n", listed);
    for (size_t i = 0; i < NADRELGOS_NODES; i++)
        if (lent.nodes[i].kind != 0) write_record(i + 1);
    return true;
}

static bool play(struct line *line) {
    static const struct {
        const char *text;
        bool (*play)(struct line *line);
    } orders[] = {{"setup", play_setup}, {"join", play_join},   {"discover", play_discover}, {"turn", play_turn},
                  {"frame", play_frame}, {"quiet", play_quiet}, {"table", play_table}};
    struct word first = next_word(line);
    for (size_t i = 0; i < sizeof orders / sizeof *orders; i++)
        if (is_word(first, orders[i].text)) return orders[i].play(line);
    return false;
}

/* A line that is empty or begins with # is passed over. */
static void play_line(const uint8_t *bytes, size_t count) {
    struct line line = {bytes, count, 0, true};
    line_number++;
    if (count == 0 || bytes[0] == '#') return;
    if (!play(&line)) printf("bad line %lu\n", line_number);
}

int main(void) {
    size_t count = fread(script, 1, sizeof script, stdin);
    for (size_t at = 0, end; at < count; at = end + 1) {
        for (end = at; end < count && script[end] != '\n';) end++;
        play_line(script + at, end - at);
    }
    fprintf(stderr, "%lu calls, %lu refused\n", calls, refusals);
    return broken > 0;
}
