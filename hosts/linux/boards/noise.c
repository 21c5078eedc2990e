#include "noise.h"

#include "chance.h"

#include <string.h>

/* Whether a good frame stands anywhere in these bytes. */
static bool holds_frame(const uint8_t *bytes, size_t count) {
    for (size_t i = 0; i + WIRE_AROUND <= count; i++) {
        size_t length = WIRE_AROUND + (size_t)bytes[i + AT_LENGTH];
        if (length <= WIRE_MOST && length <= count - i && wire_good(bytes + i, length)) return true;
    }
    return false;
}

/* Other values in so many of the bytes, no byte twice: of those that are left each is as likely as the others. */
static void change(uint8_t *bytes, size_t count, size_t changes, uint64_t *chance) {
    for (size_t i = 0; i < count; i++) {
        if (chance_draw(chance) % (count - i) >= changes) continue;
        bytes[i] ^= (uint8_t)(1 + chance_draw(chance) % 255);
        changes--;
    }
}

/* Damages a frame. 00 and FF are the same for the sums, and changes may cancel out: so it is done anew until no good
   frame is left. */
static void damage(uint8_t *bytes, const struct answer *answer, size_t changes, uint64_t *chance) {
    if (changes > answer->count) changes = answer->count;
    do {
        memcpy(bytes, answer->frame, answer->count);
        change(bytes, answer->count, changes, chance);
    } while (holds_frame(bytes, answer->count));
}

size_t noise_around(struct faults *faults, uint64_t *chance, const struct answer *answer, uint8_t *bytes) {
    size_t before = faults->before, after = faults->after;
    memcpy(bytes + before, answer->frame, answer->count);
    if (faults->inside > 0) damage(bytes + before, answer, faults->inside, chance);
    chance_fill(chance, bytes, before);
    chance_fill(chance, bytes + before + answer->count, after);
    faults->before = faults->after = faults->inside = 0;
    return before + answer->count + after;
}
