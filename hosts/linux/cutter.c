#include "cutter.h"

#include "nadrelgos.h"

#include <string.h>

static size_t least(size_t a, size_t b) {
    return a < b ? a : b;
}

void cutter_add(struct cutter *cutter, const uint8_t *bytes, size_t count) {
    size_t taken = least(count, CUTTER_ROOM - cutter->count);
    memcpy(cutter->bytes + cutter->count, bytes, taken);
    cutter->count += taken;
    cutter->lost += count - taken;
    if (cutter->cut == 0 && cutter->count >= CUTTER_MOST) {
        cutter_cut(cutter);
        cutter->goes_on = true;
    }
}

void cutter_cut(struct cutter *cutter) {
    if (cutter->cut == 0) cutter->cut = cutter->count;
}

bool cutter_has_stretch(const struct cutter *cutter) {
    return cutter->cut > 0;
}

bool cutter_is_filling(const struct cutter *cutter) {
    return cutter->count > cutter->cut;
}

/* The stretch is looked through; the bytes from `from` on are the beginning of the next one, or its own where it goes
   on. */
static void forget(struct cutter *cutter, size_t from) {
    memmove(cutter->bytes, cutter->bytes + from, cutter->count - from);
    cutter->count -= from;
    cutter->cut = 0;
    cutter->at = 0;
    memset(cutter->sought, 0, sizeof cutter->sought); /* with more bytes another frame may be the first */
    cutter->any = cutter->any && cutter->goes_on;
    cutter->goes_on = false;
}

/* No frame is left in the stretch. */
static size_t finish(struct cutter *cutter, uint8_t *frame, size_t room) {
    size_t left = cutter->cut - cutter->at;
    size_t kept = cutter->goes_on ? least(left, NADRELGOS_ROOM - 1) : 0;
    size_t handed = cutter->any || cutter->goes_on ? 0 : least(left, room);
    memcpy(frame, cutter->bytes + cutter->at, handed);
    cutter->lost += left - kept - handed;
    forget(cutter, cutter->cut - kept);
    return handed;
}

/* The first frame of a subnet from `at` on. What was found holds until that place is passed, and that there is none for
   the whole stretch: so each start is tried once, however many frames there are. */
static const struct sought *seek(struct cutter *cutter, struct sought *sought, uint8_t subnet) {
    bool is_passed = sought->length > 0 && sought->start < cutter->at;
    if (sought->is_known && !is_passed) return sought;
    size_t left = cutter->cut - cutter->at;
    struct nadrelgos_finding finding = nadrelgos_find(subnet, cutter->bytes + cutter->at, left, left);
    *sought = (struct sought){true, cutter->at + finding.start, finding.length};
    return sought;
}

/*
 * The first frame of either subnet from `at` on: the one that begins earlier. A finder that took both would try the
 * starts in their order and stop at the same one; so nothing that looks like a frame of one subnet, in noise or in the
 * other's payload, costs a frame of the other that began before it. Two that begin at one place are one frame, of 0.
 * Whether the panel takes a frame of the 1.0 boards' subnet now is for its step to say, which knows who is awaited.
 */
static const struct sought *seek_either(struct cutter *cutter) {
    const struct sought *ours = seek(cutter, &cutter->sought[CUTTER_OURS], cutter->subnet);
    if (cutter->subnet == NADRELGOS_OLD_SUBNET) return ours;
    const struct sought *old = seek(cutter, &cutter->sought[CUTTER_OLD], NADRELGOS_OLD_SUBNET);
    bool is_old_first = old->length > 0 && (ours->length == 0 || old->start < ours->start);
    return is_old_first ? old : ours;
}

size_t cutter_next(struct cutter *cutter, uint8_t *frame, size_t room) {
    const struct sought *found = seek_either(cutter);
    if (found->length == 0) return finish(cutter, frame, room);
    size_t count = least(found->length, room);
    memcpy(frame, cutter->bytes + found->start, count);
    cutter->lost += found->start - cutter->at;
    cutter->at = found->start + found->length;
    cutter->any = true;
    return count;
}
