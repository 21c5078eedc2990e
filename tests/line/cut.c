/*
 * The cutter (hosts/linux/cutter.h) on frames with noise before, between and after them, in our subnet, in that of 1.0
 * boards and in everybody's, and another system's frames among them, in stretches that a silence ends and in ones that
 * are cut because they are too long: what a plain search finds in the whole stretch is handed over, once and in its
 * order, and a stretch without a frame as it came, up to the longest frame. Frames stand in payloads of every other
 * subnet. The bytes come in pieces of any size. They are the same each time. The searches are counted: for either subnet
 * each start is tried once, and those that are kept of a stretch which was cut, once more.
 */
#include "cutter.h"
#include "nadrelgos.h"
#include "wire.h"

#include <stdio.h>
#include <string.h>

enum { STRETCHES = 300, FRAMES = 120, MOST_BYTES = FRAMES * (WIRE_MOST + 40), SUBNET = 3, OTHER = 4 };

/* Our subnet: so many stretches with each of these. */
static const uint8_t subnets[] = {SUBNET, OLD_SUBNET, WIRE_ALL};
enum { SUBNETS = sizeof subnets };
static uint8_t ours;

static uint64_t drawn = 485;

static unsigned draw_below(unsigned limit) {
    drawn ^= drawn << 13;
    drawn ^= drawn >> 7;
    drawn ^= drawn << 17;
    return (unsigned)(drawn >> 32) % limit;
}

/* A stretch, and where the frames in it are. */
static uint8_t bytes[MOST_BYTES];
static size_t count, frames, starts[FRAMES], ends[FRAMES];

/* Noise of which no byte is the length of a payload, so that no frame begins in it by chance. */
static uint8_t noise(void) {
    return (uint8_t)(241 + draw_below(15));
}

static void put_noise(unsigned most) {
    for (unsigned i = draw_below(most + 1); i > 0; i--) bytes[count++] = noise();
}

/* A sender in our subnet, in that of 1.0 boards, in everybody's, or in another system's. */
static struct sender draw_sender(void) {
    static const uint8_t some[] = {SUBNET, SUBNET, OLD_SUBNET, OLD_SUBNET, WIRE_ALL, OTHER};
    return (struct sender){(uint8_t)draw_below(256), some[draw_below(sizeof some)], (uint8_t)draw_below(256)};
}

static bool is_taken(uint8_t subnet) {
    return subnet == ours || subnet == OLD_SUBNET || subnet == WIRE_ALL;
}

/* A frame; in another's payload there is none to be found, but where that one's end has not come yet, or where it is of
   another system. */
static void put_frame(bool has_inner) {
    uint8_t payload[WIRE_MOST];
    struct sender from = draw_sender();
    size_t length = has_inner ? WIRE_AROUND : draw_below(WIRE_MOST - WIRE_AROUND + 1);
    for (size_t i = 0; i < length; i++) payload[i] = noise();
    if (has_inner) wire_frame(payload, draw_sender(), 0, 0, 0, 0, payload, 0);
    count += wire_frame(bytes + count, from, (uint8_t)draw_below(256), 0, 0, 0, payload, length);
}

/* The frames are those that were put there, but for a few that stand across a beginning by chance. */
static void find_frames(void) {
    frames = 0;
    for (size_t at = 0; at + WIRE_AROUND <= count;) {
        size_t length = WIRE_AROUND + (size_t)bytes[at + AT_LENGTH];
        bool is_frame = is_taken(bytes[at + AT_SUBNET]) && length <= WIRE_MOST && length <= count - at &&
                        wire_good(bytes + at, length);
        if (is_frame) {
            starts[frames] = at;
            ends[frames++] = at + length;
        }
        at += is_frame ? length : 1;
    }
}

static void make_stretch(unsigned most_frames) {
    count = 0;
    put_noise(30);
    for (unsigned i = draw_below(most_frames + 1); i > 0; i--) {
        put_frame(most_frames < 10 && i % 2);
        put_noise(i % 3 == 1 ? 30 : 0);
    }
    find_frames();
}

/* The finder as the cutter calls it here (tests/line/run), and how many starts were tried so far. */
struct nadrelgos_finding counted_find(uint8_t subnet, const uint8_t *from, size_t length, size_t budget);

static size_t tried;

struct nadrelgos_finding counted_find(uint8_t subnet, const uint8_t *from, size_t length, size_t budget) {
    struct nadrelgos_finding finding = nadrelgos_find(subnet, from, length, budget);
    tried += finding.tried;
    return finding;
}

/* How many starts may be tried at most in the stretch. */
static size_t most_tried(void) {
    return CUTTER_SUBNETS * (count + count / CUTTER_MOST * WIRE_MOST);
}

/* What the cutter hands over: the frames of the stretch from `next` on. How many there are now; -1: another. */
static long take_all(struct cutter *cutter, long next) {
    uint8_t frame[WIRE_MOST];
    while (next >= 0 && cutter_has_stretch(cutter)) {
        size_t length = cutter_next(cutter, frame, sizeof frame);
        if (length == 0) continue;
        size_t whole = count < sizeof frame ? count : sizeof frame; /* where there is no frame in it */
        size_t start = frames ? starts[next] : 0, end = frames ? ends[next] : whole;
        bool is_next = (size_t)next < (frames ? frames : 1) && length == end - start;
        next = is_next && memcmp(frame, bytes + start, length) == 0 ? next + 1 : -1;
    }
    return next;
}

/* Whether the stretch is handed over as it must be. */
static bool hold(struct cutter *cutter) {
    long next = 0;
    tried = 0;
    for (size_t at = 0; at < count && next >= 0;) {
        size_t piece = 1 + draw_below(200);
        if (piece > count - at) piece = count - at;
        cutter_add(cutter, bytes + at, piece);
        next = take_all(cutter, next);
        at += piece;
    }
    cutter_cut(cutter);
    next = take_all(cutter, next);
    long wanted = frames ? (long)frames : count > 0;
    return next == wanted && !cutter_is_filling(cutter) && tried <= most_tried();
}

/* How many frames of the stretch are of 1.0 boards. */
static unsigned long old_ones(void) {
    unsigned long old = 0;
    for (size_t i = 0; i < frames; i++) old += bytes[starts[i] + AT_SUBNET] == OLD_SUBNET;
    return old;
}

int main(void) {
    static struct cutter cutter;
    unsigned long all = 0, old = 0, wrong = 0, long_ones = 0;
    for (unsigned i = 0; i < STRETCHES * SUBNETS; i++) {
        cutter.subnet = ours = subnets[i / STRETCHES];
        make_stretch(i % 2 ? FRAMES - 1 : 4);
        wrong += !hold(&cutter);
        all += frames;
        old += old_ones();
        long_ones += count > CUTTER_MOST;
    }
    printf("cut: %lu frames, %lu of them of 1.0 boards, in %u stretches, %lu of these cut without a silence; "
           "%lu stretches wrong\n",
           all, old, STRETCHES * SUBNETS, long_ones, wrong);
    return wrong != 0;
}
