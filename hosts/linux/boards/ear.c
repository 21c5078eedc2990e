#include "ear.h"

#include "pace.h"

#include <string.h>

/* The silence in milliseconds of this machine, and not of the line: a program that writes in two pieces may be held up
   between them. It is shorter than the bus delay, so that an answer is still in time. */
enum { SILENCE = 50 };

void ear_start(struct ear *ear, unsigned faster) {
    ear->count = 0;
    ear->silence = (uint64_t)SILENCE * faster * MILLISECOND;
}

void ear_take(struct ear *ear, uint8_t byte, uint64_t at) {
    ear->bytes[ear->count++] = byte;
    ear->last = at;
}

/* The first bytes leave. */
static void drop(struct ear *ear, size_t count) {
    ear->count -= count;
    memmove(ear->bytes, ear->bytes + count, ear->count);
}

/* The length of the frame that would begin with the first byte, 0 where none can. */
static size_t length_of(const struct ear *ear) {
    if (ear->count <= AT_LENGTH) return WIRE_AROUND;
    size_t length = WIRE_AROUND + (size_t)ear->bytes[AT_LENGTH];
    return length > WIRE_MOST ? 0 : length;
}

size_t ear_frame(struct ear *ear, bool silence, uint8_t *frame) {
    while (ear->count > 0) {
        size_t length = length_of(ear);
        if (ear->count < length && !silence) return 0;
        if (length > 0 && length <= ear->count && wire_good(ear->bytes, length)) {
            memcpy(frame, ear->bytes, length);
            drop(ear, length);
            return length;
        }
        drop(ear, 1); /* no frame begins here: perhaps one byte later */
    }
    return 0;
}

uint64_t ear_due(const struct ear *ear) {
    return ear->count > 0 ? ear->last + ear->silence : NEVER;
}
