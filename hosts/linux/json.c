#include "json.h"

#include "pace.h"
#include "words.h"

#include <stdio.h>

static void put_number(const char *name, unsigned long long value) {
    printf(",\"%s\":%llu", name, value);
}

/* What is no printable character of ASCII is escaped: a name or a note can have any bytes. */
static void put_string(const char *name, const char *text) {
    printf(",\"%s\":\"", name);
    for (; *text; text++) {
        unsigned char c = (unsigned char)*text;
        if (c == '"' || c == '\\')
            printf("\\%c", c);
        else if (c < ' ' || c > '~')
            printf("\\u%04x", c);
        else
            putchar(c);
    }
    putchar('"');
}

static void put_bytes(const char *name, struct bytes bytes) {
    printf(",\"%s\":\"", name);
    for (size_t i = 0; i < bytes.count; i++) printf("%02X", bytes.bytes[i]);
    putchar('"');
}

/* MACs and sessions: as digits, since a number of JSON may not have 64 bits. */
static void put_word(const char *name, uint64_t word) {
    printf(",\"%s\":\"%016llx\"", name, (unsigned long long)word);
}

static void put_begin(const char *name, uint64_t at) {
    printf("{\"at\":%.3f,\"event\":\"%s\"", (double)at / SECOND, name);
}

static void put_place(const struct event *event) {
    put_number("position", event->position);
    put_number("address", event->address);
}

static void put_board(const struct event *event) {
    put_number("type", event->kind);
    put_string("name", words_kind(event->kind));
    put_number("version", event->version);
    put_word("mac", event->mac);
    put_word("session", event->session);
}

static void put_refusal(const struct event *event) {
    put_number("number", event->refusal);
    put_string("name", words_refusal(event->refusal));
}

static void put_answer(const struct event *event) {
    put_string("answer", event->answer);
    if (*event->due) put_string("due", event->due);
}

void json_event(const struct event *event) {
    unsigned has = event->has;
    put_begin(event->name, event->at);
    if (has & HAS_CALL) put_string("call", event->call);
    if (has & HAS_EXCHANGE) put_string("exchange", words_exchange(event->exchange));
    if (has & (HAS_EXCHANGE | HAS_PLACE)) put_place(event);
    if (has & HAS_BOARD) put_board(event);
    if (has & HAS_MISSES) put_number("misses", event->misses);
    if (has & HAS_REFUSAL) put_refusal(event);
    if (has & HAS_ANSWER) put_answer(event);
    if (has & HAS_REQUEST) put_number("message", event->message);
    if (has & HAS_REQUEST) put_bytes("payload", event->frame);
    if (has & HAS_FRAME) put_bytes("frame", event->frame);
    if (has & HAS_ACK && event->ack.count) put_bytes("ack", event->ack);
    if (has & HAS_COUNT) put_number("count", event->count);
    if (has & HAS_TEXT) put_string("text", event->text);
    puts("}");
}

void json_counts(uint64_t at, const struct counts *counts) {
    put_begin("stopped", at);
    put_number("offers", counts->offers);
    put_number("carried", counts->carried);
    put_number("misses", counts->misses);
    put_number("joins", counts->joins);
    put_number("drops", counts->drops);
    put_number("noise", counts->noise);
    printf(",\"refused\":{");
    const char *between = "";
    for (unsigned i = 0; i < REFUSALS; i++) {
        if (counts->refused[i] == 0) continue;
        printf("%s\"%u\":%lu", between, i, counts->refused[i]);
        between = ",";
    }
    puts("}}");
}
