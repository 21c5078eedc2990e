/* Something that has happened: what it was, in words and in values. */
#ifndef EVENT_H
#define EVENT_H

#include <stdbool.h>
#include <stddef.h>
#include <stdint.h>

/* Which of the values an event has. */
enum {
    HAS_CALL = 1,      /* call */
    HAS_EXCHANGE = 2,  /* exchange, position, address */
    HAS_PLACE = 4,     /* position, address */
    HAS_BOARD = 8,     /* kind, version, mac, session */
    HAS_MISSES = 16,   /* misses */
    HAS_REFUSAL = 32,  /* refusal */
    HAS_ANSWER = 64,   /* answer, due */
    HAS_FRAME = 128,   /* frame */
    HAS_ACK = 256,     /* ack */
    HAS_REQUEST = 512, /* message, frame: its payload */
    HAS_COUNT = 1024,  /* count */
    HAS_TEXT = 2048,   /* text */
};

struct bytes {
    const uint8_t *bytes;
    size_t count;
};

struct event {
    const char *name;
    uint64_t at;       /* on the line's clock */
    unsigned has;      /* which of the values below */
    bool is_common;    /* of the kind that comes with every offer: left out where there is little room */
    const char *words; /* in words */
    const char *call, *answer, *due, *text;
    unsigned exchange, position, address, kind, version, misses, refusal, message;
    uint64_t mac, session;
    struct bytes frame, ack;
    size_t count;
};

#endif
