/*
 * Frames out of the line's bytes. A silence ends a stretch of them, and the proved finder (nadrelgos_find) looks
 * through the stretch: noise before, between and after frames costs no frame, and neither do frames of another subnet.
 * Our boards have two subnets: ours, and that of those that speak 1.0.
 */
#ifndef CUTTER_H
#define CUTTER_H

#include <stdbool.h>
#include <stddef.h>
#include <stdint.h>

/* A stretch is cut at this length though the line is not silent. Behind one that is being looked through there is room
   for another. */
enum { CUTTER_MOST = 4096, CUTTER_ROOM = 2 * CUTTER_MOST };

/* What a search of the stretch for one subnet has come to. */
struct sought {
    bool is_known;        /* it was made */
    size_t start, length; /* the first frame from there on; a length of 0: there is none */
};

/* The subnets that are looked for: ours, and that of 1.0 boards. */
enum { CUTTER_OURS, CUTTER_OLD, CUTTER_SUBNETS };

struct cutter {
    uint8_t subnet; /* ours: frames of this one, of the 1.0 boards' and of 0 are found */
    struct sought sought[CUTTER_SUBNETS];
    uint8_t bytes[CUTTER_ROOM];
    size_t count;  /* how many bytes there are */
    size_t cut;    /* the first so many are a stretch to be looked through; 0 where none is */
    size_t at;     /* it is looked through up to here */
    bool any;      /* a frame was found in it */
    bool goes_on;  /* it was cut without a silence: a frame may begin in it and end after it */
    uint64_t lost; /* how many bytes so far were in nothing that was handed over */
};

/* More bytes have come in. */
void cutter_add(struct cutter *cutter, const uint8_t *bytes, size_t count);

/* The line is silent: what has come in is a stretch. */
void cutter_cut(struct cutter *cutter);

/* Whether a stretch is still to be looked through; whether bytes have come in since. */
bool cutter_has_stretch(const struct cutter *cutter);
bool cutter_is_filling(const struct cutter *cutter);

/*
 * The next frame of the stretch, where it has at most `room` bytes: its count, or 0 where there is none any more. A
 * stretch without any frame is handed over as it is, cut off at `room`, so that the panel's refusal says what it was.
 */
size_t cutter_next(struct cutter *cutter, uint8_t *frame, size_t room);

#endif
