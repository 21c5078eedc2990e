/*
 * What each call has to say is worked out here from the papers' words (API Reference, tables 8 and 10): a message has
 * so many bytes of its own, a length byte, and a text of that length, at most `most` bytes, each 0x20 to 0x7E.
 */
#include "texts.h"

#include "checks.h"

#include <string.h>

enum { LONGEST = 240, ROOM = 64, OWN_MOST = 3 };

struct message {
    size_t own, most;
};
static const struct message display = {1, 30}, diagnostics = {3, 15};
static const struct message *const messages[] = {&display, &diagnostics};
enum { MESSAGES = sizeof messages / sizeof *messages };

static uint8_t payload[LONGEST];

/* ---- what has to come out */

static bool is_text(const uint8_t *text, size_t length) {
    for (size_t i = 0; i < length; i++)
        if (text[i] < 0x20 || text[i] > 0x7E) return false;
    return true;
}

static struct nadrelgos_text expected(const struct message *message, size_t count) {
    size_t own = message->own, start = own + 1;
    bool fits = count >= start && payload[own] == count - start && payload[own] <= message->most;
    if (!fits) return (struct nadrelgos_text){.refusal = NADRELGOS_BAD_TEXT_LENGTH};
    if (!is_text(payload + start, count - start)) return (struct nadrelgos_text){.refusal = NADRELGOS_BAD_TEXT};
    bool has_codes = own == OWN_MOST;
    return (struct nadrelgos_text){0, payload[0], has_codes ? payload[1] : 0, has_codes ? payload[2] : 0, start,
                                   count - start};
}

static bool same_text(struct nadrelgos_text a, struct nadrelgos_text b) {
    return a.refusal == b.refusal && a.kind == b.kind && a.major == b.major && a.minor == b.minor &&
           a.start == b.start && a.length == b.length;
}

/* ---- calls, held to it */

static struct nadrelgos_text read_as(const struct message *message, const uint8_t *bytes, size_t count) {
    return message == &display ? nadrelgos_read_display(bytes, count) : nadrelgos_read_diagnostics(bytes, count);
}

static void hold_read(const struct message *message, size_t count) {
    struct nadrelgos_text read = read_as(message, payload, count);
    hold(same_text(read, expected(message, count)), read.refusal);
}

static struct nadrelgos_writing write_as(const struct message *message, const uint8_t *own, const uint8_t *text,
                                         size_t length, size_t room) {
    return message == &display ? nadrelgos_write_display(own[0], text, length, lent.out, room)
                               : nadrelgos_write_diagnostics(own[0], own[1], own[2], text, length, lent.out, room);
}

static uint8_t refusal_of(const struct message *message, const uint8_t *text, size_t length, size_t room) {
    if (length > message->most) return NADRELGOS_BAD_TEXT_LENGTH;
    if (!is_text(text, length)) return NADRELGOS_BAD_TEXT;
    return room < message->own + 1 + length ? NADRELGOS_NO_ROOM : NADRELGOS_ACCEPTED;
}

/* What was written is the payload, and all past it is as it was; it reads back. */
static void hold_write(const struct message *message, const uint8_t *text, size_t length, size_t room) {
    uint8_t own[OWN_MOST], refusal = refusal_of(message, text, length, room);
    size_t start = message->own + 1, count = refusal ? 0 : start + length;
    scatter(own, sizeof own);
    scatter(lent.out, sizeof lent.out);
    keep();
    struct nadrelgos_writing written = write_as(message, own, text, length, room);
    bool held = written.refusal == refusal && written.written == count;
    held = held && memcmp(lent.out + count, before.out + count, sizeof lent.out - count) == 0;
    if (!refusal) {
        struct nadrelgos_text read = read_as(message, lent.out, count);
        held = held && memcmp(lent.out, own, message->own) == 0 && lent.out[message->own] == length;
        held = held && memcmp(lent.out + start, text, length) == 0;
        held = held && read.refusal == 0 && read.kind == own[0] && read.start == start && read.length == length;
    }
    hold(held, written.refusal);
}

/* ---- checks */

static void fill(uint8_t byte) {
    memset(payload, byte, sizeof payload);
}

void reads_every_length(void) {
    begin("payloads of every length to 240 with every length byte");
    fill('A');
    for (size_t m = 0; m < MESSAGES; m++)
        for (size_t count = 0; count <= LONGEST; count++)
            for (unsigned length = 0; length <= UINT8_MAX; length++) {
                payload[messages[m]->own] = (uint8_t)length;
                hold_read(messages[m], count);
                payload[messages[m]->own] = 'A';
            }
    end();
}

/* A payload of the right length with this byte at a place of its text. */
static void hold_byte(const struct message *message, size_t length, size_t place, uint8_t byte) {
    size_t start = message->own + 1;
    fill('~');
    payload[message->own] = (uint8_t)length;
    payload[start + place] = byte;
    hold_read(message, start + length);
    hold_write(message, payload + start, length, ROOM);
}

static void hold_bytes(const struct message *message, size_t length) {
    for (size_t place = 0; place < length; place++)
        for (unsigned byte = 0; byte <= UINT8_MAX; byte++) hold_byte(message, length, place, (uint8_t)byte);
}

void reads_every_byte(void) {
    begin("texts of every length with every byte at every place, read and written");
    for (size_t m = 0; m < MESSAGES; m++)
        for (size_t length = 1; length <= messages[m]->most; length++) hold_bytes(messages[m], length);
    end();
}

void reads_any_bytes(void) {
    enum { ROUNDS = 200000 };
    begin("payloads of any bytes, most of them of a length that can be");
    for (unsigned round = 0; round < ROUNDS; round++) {
        const struct message *message = messages[round % MESSAGES];
        size_t count = draw() % (round % 3 ? message->own + message->most + 3 : LONGEST + 1);
        scatter(payload, sizeof payload);
        if (round % 4 && count > message->own) payload[message->own] = (uint8_t)(count - message->own - 1);
        if (round % 5) memset(payload + message->own + 1, 'A' + round % 26, LONGEST - message->own - 1);
        hold_read(message, count);
    }
    end();
}

void writes_every_length(void) {
    begin("texts of every length to 240 to be written, good and with a last byte that is no text");
    for (size_t m = 0; m < MESSAGES; m++)
        for (size_t length = 0; length <= LONGEST; length++) {
            fill(' ');
            hold_write(messages[m], payload, length, ROOM);
            if (length > 0) payload[length - 1] = 0x7F;
            hold_write(messages[m], payload, length, ROOM);
            hold_write(messages[m], payload, length, 0);
        }
    end();
}

void writes_into_every_room(void) {
    begin("texts of every length into rooms of every size");
    fill('z');
    for (size_t m = 0; m < MESSAGES; m++)
        for (size_t length = 0; length <= messages[m]->most + 1; length++)
            for (size_t room = 0; room <= ROOM; room++) hold_write(messages[m], payload, length, room);
    end();
}

void knows_the_reply(void) {
    static const uint8_t reply[] = NADRELGOS_REPLY;
    begin("the reply, and every two bytes that are not");
    for (size_t count = 0; count <= LONGEST; count++) {
        fill(0);
        memcpy(payload, reply, sizeof reply);
        hold(nadrelgos_is_reply(payload, count) == (count == sizeof reply), count);
    }
    for (unsigned pair = 0; pair <= UINT16_MAX; pair++) {
        uint8_t bytes[] = {(uint8_t)(pair >> 8), (uint8_t)pair};
        hold(nadrelgos_is_reply(bytes, sizeof bytes) == (pair == 0xAC06), pair);
    }
    end();
}
