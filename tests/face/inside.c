/*
 * What each call has to say is worked out here from the papers' words (API Reference, 4.1 and 6.10; request C-21): a
 * message is type, packet number, length and payload; the payload of one of type 0x7E is a code, three operands and
 * one whole message, to the very end, up to four levels deep. So each level takes seven bytes, and type, packet number
 * and length of the message in n levels stand 7 n bytes behind those of the frame.
 */
#include "inside.h"

#include "../../hosts/c/wire.h"
#include "checks.h"

#include <string.h>

/* A payload, a level; the levels of the deepest frame that is tried, more than there may be; more room than is due. */
enum { LONGEST = 240, LEVEL = 7, DEEPEST = 6, ROOM = 320 };

static uint8_t frame[ROOM];

/* ---- where the message in so many levels stands */

static uint8_t *type_in(size_t levels) {
    return frame + AT_TYPE + LEVEL * levels;
}

static uint8_t *length_in(size_t levels) {
    return frame + AT_LENGTH + LEVEL * levels;
}

static uint8_t *payload_in(size_t levels) {
    return frame + AT_PAYLOAD + LEVEL * levels;
}

/* ---- what the reader has to say */

static uint8_t refusal_of_frame(uint8_t ours, size_t count) {
    if (count < WIRE_AROUND) return NADRELGOS_SHORT;
    if (frame[AT_LENGTH] > LONGEST) return NADRELGOS_OVER_LONG;
    if (count != WIRE_AROUND + (size_t)frame[AT_LENGTH]) return NADRELGOS_LENGTH_MISMATCH;
    if (!wire_good(frame, count)) return NADRELGOS_BAD_CHECKSUM;
    return frame[AT_SUBNET] != ours && frame[AT_SUBNET] != 0 ? NADRELGOS_OTHER_SUBNET : NADRELGOS_ACCEPTED;
}

/* Why the message in so many levels is no encapsulation that can be opened. */
static uint8_t refusal_in(size_t levels, size_t length) {
    if (levels == NADRELGOS_LEVELS) return NADRELGOS_TOO_DEEP;
    bool is_whole = length >= LEVEL && *length_in(levels + 1) == length - LEVEL;
    return is_whole ? NADRELGOS_ACCEPTED : NADRELGOS_BAD_INNER;
}

static struct nadrelgos_unwrapping expected(uint8_t ours, size_t count) {
    struct nadrelgos_unwrapping all = {0};
    size_t depth = 0, length = count - WIRE_AROUND;
    uint8_t refusal = refusal_of_frame(ours, count);
    for (; !refusal && *type_in(depth) == NADRELGOS_ENCAPSULATION; depth++, length -= LEVEL) {
        const uint8_t *packet = type_in(depth) + 1, *own = payload_in(depth);
        refusal = refusal_in(depth, length);
        if (refusal) break;
        all.levels.level[depth] = (struct nadrelgos_level){own[0], own[1], own[2], own[3], *packet};
    }
    if (refusal) return (struct nadrelgos_unwrapping){.refusal = refusal};
    all.depth = (uint8_t)depth;
    all.message = type_in(depth)[0];
    all.packet = type_in(depth)[1];
    all.start = (size_t)(payload_in(depth) - frame);
    all.length = length;
    return all;
}

/* Levels are bytes alone, with none between them. */
static bool same_unwrapping(struct nadrelgos_unwrapping a, struct nadrelgos_unwrapping b) {
    return a.refusal == b.refusal && a.depth == b.depth && a.message == b.message && a.packet == b.packet &&
           a.start == b.start && a.length == b.length && memcmp(&a.levels, &b.levels, sizeof a.levels) == 0;
}

static void hold_read(uint8_t ours, size_t count) {
    struct nadrelgos_unwrapping read = nadrelgos_unwrap(ours, frame, count);
    hold(same_unwrapping(read, expected(ours, count)), read.refusal);
}

/* ---- frames to be read */

/* Writes the check bytes behind a payload of this length, and gives the frame's. */
static size_t seal(size_t length) {
    return wire_seal(frame, AT_PAYLOAD + length);
}

/* A frame with a message in so many levels, its payload so long; whatever is not settled by that is any byte. */
static size_t nest(size_t depth, size_t length) {
    scatter(frame, sizeof frame);
    frame[AT_SUBNET] = SUBNET;
    for (size_t i = 0; i <= depth; i++) {
        *type_in(i) = NADRELGOS_ENCAPSULATION;
        *length_in(i) = (uint8_t)(LEVEL * (depth - i) + length);
    }
    *type_in(depth) = TYPE_CONTROL;
    return seal(LEVEL * depth + length);
}

/* Payload lengths of the message in so many levels: none, a few bytes, as many as a level has, all that fit. */
enum { LENGTHS = 4 };
static size_t some_length(size_t depth, size_t i) {
    const size_t lengths[LENGTHS] = {0, 3, LEVEL, LONGEST - LEVEL * depth};
    return lengths[i];
}

/* ---- checks of the reader */

void unwraps_every_depth(void) {
    begin("frames in 0 to 6 levels, with payloads of every length that fits");
    for (size_t depth = 0; depth <= DEEPEST; depth++)
        for (size_t length = 0; LEVEL * depth + length <= LONGEST; length++) hold_read(SUBNET, nest(depth, length));
    end();
}

/* At level 0 it is the frame's own: refused 2 or 3. */
static void hold_every_length_byte(size_t depth, size_t level, size_t length) {
    size_t count = nest(depth, length);
    for (unsigned byte = 0; byte <= UINT8_MAX; byte++) {
        *length_in(level) = (uint8_t)byte;
        seal(LEVEL * depth + length);
        hold_read(SUBNET, count);
    }
}

void unwraps_every_length_byte(void) {
    begin("the same with every length byte at each level");
    for (size_t depth = 0; depth <= DEEPEST; depth++)
        for (size_t level = 0; level <= depth; level++)
            for (size_t i = 0; i < LENGTHS; i++) hold_every_length_byte(depth, level, some_length(depth, i));
    end();
}

/* The payload of the message in so many levels is cut, or lengthened. The lengths of this message and of all around it
   are right again; what is wrong is deeper. */
static void hold_cut(size_t depth, size_t level, size_t length) {
    enum { MORE = 9 };
    size_t whole = LEVEL * depth + length;
    for (size_t other = LEVEL * level; other <= whole + MORE && other <= LONGEST; other++) {
        nest(depth, length);
        for (size_t i = 0; i <= level; i++) *length_in(i) = (uint8_t)(other - LEVEL * i);
        hold_read(SUBNET, seal(other));
    }
}

void unwraps_cut_and_lengthened(void) {
    begin("the same cut and lengthened to every length at each level");
    for (size_t depth = 0; depth <= DEEPEST; depth++)
        for (size_t level = 0; level <= depth; level++)
            for (size_t i = 0; i < LENGTHS; i++) hold_cut(depth, level, some_length(depth, i));
    end();
}

/* A message is plain with every type but 0x7E. Where it was plain before, 0x7E makes a level of its payload. */
static void hold_every_type(size_t depth, size_t level, size_t length) {
    for (unsigned type = 0; type <= UINT8_MAX; type++) {
        size_t count = nest(depth, length);
        *type_in(level) = (uint8_t)type;
        seal(LEVEL * depth + length);
        hold_read(SUBNET, count);
    }
}

void unwraps_every_type(void) {
    begin("the same with every type, 0xFE among them, at each level");
    for (size_t depth = 0; depth <= DEEPEST; depth++)
        for (size_t level = 0; level <= depth; level++)
            for (size_t i = 0; i < LENGTHS; i++) hold_every_type(depth, level, some_length(depth, i));
    end();
}

/* Plain, in levels, and too deep, which is found only where the subnet is taken. */
void unwraps_every_subnet(void) {
    static const size_t depths[] = {0, 2, 5};
    begin("frames of every subnet against every subnet of ours");
    for (size_t i = 0; i < sizeof depths / sizeof *depths; i++)
        for (unsigned subnet = 0; subnet <= UINT8_MAX; subnet++) {
            size_t count = nest(depths[i], 0);
            frame[AT_SUBNET] = (uint8_t)subnet;
            seal(LEVEL * depths[i]);
            for (unsigned ours = 0; ours <= UINT8_MAX; ours++) hold_read((uint8_t)ours, count);
        }
    end();
}

static void hold_damaged(size_t count) {
    for (size_t bit = 0; bit < 8 * count; bit++) {
        frame[bit / 8] ^= (uint8_t)(1 << bit % 8);
        hold_read(SUBNET, count);
        frame[bit / 8] ^= (uint8_t)(1 << bit % 8);
    }
    for (unsigned pair = 0; pair <= UINT16_MAX; pair++) {
        frame[count - 2] = (uint8_t)(pair >> 8);
        frame[count - 1] = (uint8_t)pair;
        hold_read(SUBNET, count);
    }
}

void unwraps_damaged(void) {
    begin("frames with every bit turned, and with every two check bytes");
    for (size_t depth = 0; depth <= DEEPEST; depth++) hold_damaged(nest(depth, 3));
    end();
}

/* Any bytes; most often in some levels with the right lengths, but perhaps for one, around any message; and sealed. */
static void draw_frame(unsigned round, size_t count) {
    size_t levels = draw() % (DEEPEST + 1), length = count - WIRE_AROUND;
    scatter(frame, sizeof frame);
    if (round % 9) frame[AT_SUBNET] = SUBNET;
    for (size_t i = 0; round % 8 && i <= levels; i++) {
        if (i < levels) *type_in(i) = NADRELGOS_ENCAPSULATION;
        *length_in(i) = (uint8_t)(length - LEVEL * i);
    }
    if (round % 7 == 0) *length_in(draw() % (levels + 1)) = (uint8_t)draw();
    if (round % 5 && count >= WIRE_AROUND) seal(length);
}

void unwraps_any_bytes(void) {
    enum { ROUNDS = 200000, MOST = 260, FEW = WIRE_AROUND + LEVEL * DEEPEST };
    begin("any bytes, 0 to 260 of them, most often in some levels");
    for (unsigned round = 0; round < ROUNDS; round++) {
        size_t count = draw() % (round % 3 ? MOST + 1 : FEW);
        draw_frame(round, count);
        hold_read(SUBNET, count);
    }
    end();
}

/* ---- what the writer has to write and to say */

/* What it is given beside the room. */
struct wrapped {
    struct nadrelgos_header header;
    struct nadrelgos_levels levels;
    size_t depth, length;
};
static uint8_t payload[ROOM], out[ROOM];

static size_t due(const struct wrapped *w) {
    return WIRE_AROUND + LEVEL * w->depth + w->length;
}

static uint8_t refusal_of(const struct wrapped *w, size_t room) {
    if (w->depth > NADRELGOS_LEVELS || w->header.message == NADRELGOS_ENCAPSULATION) return NADRELGOS_TOO_DEEP;
    if (due(w) > WIRE_AROUND + LONGEST) return NADRELGOS_PAYLOAD_TOO_LONG;
    return room < due(w) ? NADRELGOS_NO_ROOM : NADRELGOS_ACCEPTED;
}

/* Writes the frame that is due, and gives its length. */
static size_t put_frame(const struct wrapped *w) {
    const struct nadrelgos_header h = w->header;
    const uint8_t front[] = {h.destination, h.source, h.subnet, h.method, h.parameter1, h.parameter2, h.kind};
    const uint8_t inside[] = {h.message, h.packet, (uint8_t)w->length};
    memcpy(frame, front, sizeof front);
    for (size_t i = 0; i < w->depth; i++) {
        const struct nadrelgos_level l = w->levels.level[i];
        uint8_t length = (uint8_t)(LEVEL * (w->depth - i) + w->length);
        const uint8_t level[] = {NADRELGOS_ENCAPSULATION, l.packet, length, l.code, l.operand1, l.operand2, l.operand3};
        memcpy(type_in(i), level, sizeof level);
    }
    memcpy(type_in(w->depth), inside, sizeof inside);
    memcpy(payload_in(w->depth), payload, w->length);
    return seal(LEVEL * w->depth + w->length);
}

/* What was written is unwrapped to what was wrapped. */
static bool unwraps_to(const struct wrapped *w, size_t count) {
    struct nadrelgos_unwrapping all = {0, (uint8_t)w->depth, w->header.message, w->header.packet, {{{0}}},
                                       AT_PAYLOAD + LEVEL * w->depth, w->length};
    memcpy(&all.levels, &w->levels, w->depth * sizeof *w->levels.level);
    return same_unwrapping(nadrelgos_unwrap(w->header.subnet, out, count), all);
}

/* The frame that is due is written, or nothing, and all past it is as it was. */
static void hold_write(const struct wrapped *w, size_t room) {
    static uint8_t was[ROOM];
    uint8_t refusal = refusal_of(w, room);
    size_t count = refusal ? 0 : put_frame(w);
    scatter(out, sizeof out);
    memcpy(was, out, sizeof out);
    struct nadrelgos_writing written =
        nadrelgos_wrap(w->header, w->levels, w->depth, payload, w->length, out, room);
    bool held = written.refusal == refusal && written.written == count;
    held = held && memcmp(out, frame, count) == 0 && memcmp(out + count, was + count, sizeof out - count) == 0;
    held = held && (refusal || unwraps_to(w, count));
    hold(held, written.refusal);
}

/* ---- checks of the writer */

/* Any header but for the type, any four levels whatever the depth, any payload. */
static struct wrapped draw_wrapped(uint8_t type, size_t depth, size_t length) {
    struct wrapped w = {.depth = depth, .length = length};
    scatter(&w.header, sizeof w.header);
    scatter(&w.levels, sizeof w.levels);
    scatter(payload, sizeof payload);
    w.header.message = type;
    return w;
}

/* Payloads of more bytes than one byte can count, too. What is wrong is wrong at once: depth or type, length, room. */
static void hold_depth(size_t depth) {
    static const uint8_t types[] = {TYPE_CONTROL, NADRELGOS_ENCAPSULATION, NADRELGOS_ENCAPSULATION + TYPE_RESPONSE};
    enum { MORE = 60 };
    for (size_t length = 0; length <= LONGEST + MORE; length++)
        for (size_t i = 0; i < sizeof types; i++) {
            struct wrapped w = draw_wrapped(types[i], depth, length);
            hold_write(&w, ROOM);
            hold_write(&w, 0);
        }
}

void wraps_every_depth(void) {
    static const size_t depths[] = {
        0, 1, 2, 3, 4, 5, 6, 255, 256, 256 + 1, ((size_t)1 << 32) + 1, (size_t)1 << 61,
        SIZE_MAX / LEVEL + 1, /* seven times it is 2^64 and 5 more, which would be 5 */
        SIZE_MAX / 2 + 2, SIZE_MAX - 1, SIZE_MAX,
    };
    begin("depths 0 to 6 and up to the highest number, with payloads of 0 to 300 bytes, of types 0x7E and 0xFE too");
    for (size_t i = 0; i < sizeof depths / sizeof *depths; i++) hold_depth(depths[i]);
    end();
}

/* From no room to two bytes more than are due, also where the outermost payload is 241 or 242 bytes long. */
static void hold_every_room(size_t depth, size_t length) {
    struct wrapped w = draw_wrapped(TYPE_CONTROL, depth, length);
    for (size_t room = 0; room <= due(&w) + 2; room++) hold_write(&w, room);
}

void wraps_into_every_room(void) {
    begin("messages of every length in 0 to 4 levels into rooms of every size");
    for (size_t depth = 0; depth <= NADRELGOS_LEVELS; depth++)
        for (size_t length = 0; LEVEL * depth + length <= LONGEST + 2; length++) hold_every_room(depth, length);
    end();
}

static void hold_every_byte(struct wrapped *w, uint8_t *place) {
    uint8_t was = *place;
    for (unsigned byte = 0; byte <= UINT8_MAX; byte++) {
        *place = (uint8_t)byte;
        hold_write(w, NADRELGOS_ROOM);
    }
    *place = was;
}

/* What is due is the same whatever stands in the levels past the depth. */
void wraps_every_byte(void) {
    begin("every byte at every place of the header, and of the levels, those past the depth too");
    for (size_t depth = 0; depth <= DEEPEST; depth++) {
        struct wrapped w = draw_wrapped(TYPE_CONTROL, depth, 3);
        for (size_t i = 0; i < sizeof w.header; i++) hold_every_byte(&w, (uint8_t *)&w.header + i);
        for (size_t i = 0; i < sizeof w.levels; i++) hold_every_byte(&w, (uint8_t *)&w.levels + i);
    }
    end();
}
