/*
 * What each call has to say and to leave is worked out here from the papers' words (API Reference, 5.10 and 5.11;
 * request C-16): an image is 40 slots of 202 bytes, each a sector, a length and a record; a length outside 6 to 200 is
 * a free slot; the lowest slot that fits is taken; a store replaces the record of its sector and no other; a request is
 * served from the network's copy, or else from the factory image; where there is no record the payload is empty. All
 * that is lent has other bytes around it, and after each call all of these are held to what has to stand there.
 */
#include "shared.h"

#include "checks.h"

#include <string.h>

enum { SLOTS = 40, SLOT = 202, IMAGE = SLOTS * SLOT, SHORTEST = 6, LONGEST = 200 };
_Static_assert(NADRELGOS_SLOTS == SLOTS && NADRELGOS_SLOT == SLOT && NADRELGOS_IMAGE == IMAGE, "another image");
_Static_assert(NADRELGOS_RECORD_MIN == SHORTEST && NADRELGOS_RECORD_MAX == LONGEST, "other records");
_Static_assert(NADRELGOS_SHARED_ROOM == 1 + LONGEST, "another room");

/* ---- what is lent, and what has to stand there after a call */

/* the largest image that is tried has an image's size, if that were held in two bytes */
enum { AROUND = 32, MOST = IMAGE + (1 << 16) };

/* Bytes that are lent, as many as `count`, and those around them. */
struct bytes {
    size_t count;
    uint8_t all[AROUND + MOST + AROUND];
};

static struct {
    struct bytes network, factory, record, out;
} now, due;

static uint8_t *at(struct bytes *bytes) {
    return bytes->all + AROUND;
}

/* So many bytes to be lent, any. */
static void lend(struct bytes *bytes, size_t count) {
    bytes->count = count;
    scatter(bytes->all, AROUND + count + AROUND);
}

static void copy(struct bytes *to, const struct bytes *from) {
    to->count = from->count;
    memcpy(to->all, from->all, AROUND + from->count + AROUND);
}

static bool same(const struct bytes *a, const struct bytes *b) {
    return a->count == b->count && memcmp(a->all, b->all, AROUND + a->count + AROUND) == 0;
}

/* After the call all is due as it is now. */
static void expect_no_change(void) {
    copy(&due.network, &now.network);
    copy(&due.factory, &now.factory);
    copy(&due.record, &now.record);
    copy(&due.out, &now.out);
}

static bool as_due(void) {
    return same(&now.network, &due.network) && same(&now.factory, &due.factory) && same(&now.record, &due.record) &&
           same(&now.out, &due.out);
}

/* ---- the rules. Slots are looked at from the highest down, so that of those that fit the lowest is the last */

static bool is_record(size_t length) {
    return SHORTEST <= length && length <= LONGEST;
}

static uint8_t *slot_in(struct bytes *image, size_t slot) {
    return at(image) + SLOT * (slot - 1);
}

/* The lowest slot with a record of the sector, 0 where there is none. */
static size_t slot_of(struct bytes *image, uint8_t sector) {
    size_t found = 0;
    for (size_t slot = SLOTS; slot > 0; slot--)
        if (slot_in(image, slot)[0] == sector && is_record(slot_in(image, slot)[1])) found = slot;
    return found;
}

static size_t free_slot_of(struct bytes *image) {
    size_t found = 0;
    for (size_t slot = SLOTS; slot > 0; slot--)
        if (!is_record(slot_in(image, slot)[1])) found = slot;
    return found;
}

static struct nadrelgos_holder holder_due(uint8_t sector) {
    struct nadrelgos_holder holder = {0};
    struct bytes *image = &due.network;
    if (due.network.count != IMAGE || due.factory.count != IMAGE) {
        holder.refusal = NADRELGOS_STATE_UNFIT;
        return holder;
    }
    if (slot_of(image, sector) == 0) image = &due.factory;
    size_t slot = slot_of(image, sector);
    if (slot == 0) return holder;
    holder.image = image == &due.network ? 1 : 2;
    holder.slot = (uint8_t)slot;
    holder.start = (size_t)(slot_in(image, slot) + 2 - at(image));
    holder.length = slot_in(image, slot)[1];
    return holder;
}

static uint8_t refusal_of_store(uint8_t sector) {
    if (due.network.count != IMAGE) return NADRELGOS_STATE_UNFIT;
    if (!is_record(due.record.count)) return NADRELGOS_BAD_LENGTH;
    return slot_of(&due.network, sector) || free_slot_of(&due.network) ? NADRELGOS_ACCEPTED : NADRELGOS_NO_SLOT;
}

/* Stores in the network's copy that is due. */
static struct nadrelgos_storing store_due(uint8_t sector) {
    struct nadrelgos_storing stored = {.refusal = refusal_of_store(sector)};
    if (stored.refusal) return stored;
    size_t own = slot_of(&due.network, sector), slot = own ? own : free_slot_of(&due.network);
    uint8_t *head = slot_in(&due.network, slot);
    head[0] = sector;
    head[1] = (uint8_t)due.record.count;
    memcpy(head + 2, at(&due.record), due.record.count);
    stored.slot = (uint8_t)slot;
    stored.start = (size_t)(head - at(&due.network));
    stored.length = 2 + due.record.count;
    return stored;
}

/* Writes the response's payload into the output that is due. */
static struct nadrelgos_writing answer_due(uint8_t sector) {
    struct nadrelgos_holder holder = holder_due(sector);
    struct nadrelgos_writing writing = {.refusal = holder.refusal};
    if (holder.image == 0) return writing;
    if (due.out.count < 1 + holder.length) {
        writing.refusal = NADRELGOS_NO_ROOM;
        return writing;
    }
    struct bytes *image = holder.image == 1 ? &due.network : &due.factory;
    writing.written = 1 + holder.length;
    at(&due.out)[0] = sector;
    memcpy(at(&due.out) + 1, at(image) + holder.start, holder.length);
    return writing;
}

/* ---- calls, held to it */

static void hold_holder(uint8_t sector) {
    expect_no_change();
    struct nadrelgos_holder a = nadrelgos_shared_holder(at(&now.network), now.network.count, at(&now.factory),
                                                        now.factory.count, sector);
    struct nadrelgos_holder b = holder_due(sector);
    bool held = a.refusal == b.refusal && a.image == b.image && a.slot == b.slot && a.start == b.start &&
                a.length == b.length;
    hold(held && as_due(), a.refusal);
}

static void hold_store(uint8_t sector) {
    expect_no_change();
    struct nadrelgos_storing a =
        nadrelgos_shared_store(at(&now.network), now.network.count, sector, at(&now.record), now.record.count);
    struct nadrelgos_storing b = store_due(sector);
    bool held = a.refusal == b.refusal && a.slot == b.slot && a.start == b.start && a.length == b.length;
    hold(held && as_due(), a.refusal);
}

static void hold_answer(uint8_t sector) {
    expect_no_change();
    struct nadrelgos_writing a = nadrelgos_shared_answer(at(&now.network), now.network.count, at(&now.factory),
                                                         now.factory.count, sector, at(&now.out), now.out.count);
    struct nadrelgos_writing b = answer_due(sector);
    hold(a.refusal == b.refusal && a.written == b.written && as_due(), a.refusal);
}

/* What a sector has, a store, and what it has then. The network's copy is afterwards as it was. */
static void hold_each(uint8_t sector) {
    static struct bytes was;
    hold_holder(sector);
    hold_answer(sector);
    copy(&was, &now.network);
    hold_store(sector);
    hold_holder(sector);
    hold_answer(sector);
    copy(&now.network, &was);
}

/* ---- images */

/* All 0; all 255; forty sectors; few sectors in all forty slots; few sectors and any lengths; most slots free; any. */
enum image { ZEROS, ONES, FULL, TWICE, MIXED, SPARSE, ANY, IMAGES };

/* A length of no record: the ends of what a byte can have, and of what a record cannot. */
static uint8_t no_length(void) {
    static const uint8_t lengths[] = {0, SHORTEST - 1, LONGEST + 1, 255};
    return lengths[draw() % sizeof lengths];
}

static uint8_t some_length(void) {
    return (uint8_t)(SHORTEST + draw() % (LONGEST - SHORTEST + 1));
}

/* Sector and length of a slot; those of `FULL` are 0, 3, 6 and so on, so that most sectors are new to it. */
static void put_head(uint8_t *head, enum image image, size_t slot) {
    enum { FEW = 9 };
    if (image == ANY) return;
    head[0] = image == FULL ? (uint8_t)(3 * (slot - 1)) : (uint8_t)(draw() % FEW);
    if (image == FULL || image == TWICE) head[1] = some_length();
    if (image == SPARSE) head[1] = draw() % 5 ? no_length() : some_length();
}

static void lend_image(struct bytes *bytes, enum image image) {
    lend(bytes, IMAGE);
    if (image == ZEROS || image == ONES)
        memset(at(bytes), image == ZEROS ? 0 : 255, IMAGE);
    else
        for (size_t slot = 1; slot <= SLOTS; slot++) put_head(slot_in(bytes, slot), image, slot);
}

/* Any image as the network's copy, any as the factory image, a good record and all the room there is need of. */
static void lend_images(enum image network, enum image factory) {
    lend_image(&now.network, network);
    lend_image(&now.factory, factory);
    lend(&now.record, some_length());
    lend(&now.out, 1 + LONGEST);
}

/* ---- checks */

/* 22 is asked before the record's length and before the room. */
static void hold_size(size_t network, size_t factory) {
    lend_images(TWICE, FULL);
    if (network != IMAGE) lend(&now.network, network);
    if (factory != IMAGE) lend(&now.factory, factory);
    hold_each(0);
    lend(&now.record, SHORTEST - 1);
    lend(&now.out, 0);
    hold_each(0);
}

void shares_images_of_every_size(void) {
    static const struct {
        size_t from, to;
    } sizes[] = {{0, 300}, {IMAGE - 102, IMAGE + 102}, {2 * IMAGE - 102, 2 * IMAGE + 102}, {MOST, MOST}};
    begin("images of 0 to 300 bytes, of about 8,080 and 16,160, and of 65,536 more than 8,080");
    for (size_t i = 0; i < sizeof sizes / sizeof *sizes; i++)
        for (size_t size = sizes[i].from; size <= sizes[i].to; size++) {
            hold_size(size, IMAGE);
            hold_size(IMAGE, size);
            hold_size(size, size);
        }
    end();
}

static void hold_sectors(enum image network, enum image factory) {
    lend_images(network, factory);
    for (unsigned sector = 0; sector <= UINT8_MAX; sector++) hold_each((uint8_t)sector);
}

void shares_every_sector(void) {
    enum { ROUNDS = 3 };
    begin("every sector in blank, full, mixed and any images");
    for (unsigned round = 0; round < ROUNDS; round++)
        for (enum image network = 0; network < IMAGES; network++)
            for (enum image factory = 0; factory < IMAGES; factory++) hold_sectors(network, factory);
    end();
}

/* Sectors that the images of few have and have not, and that a full one has and has not. */
static void hold_length(size_t length) {
    static const uint8_t sectors[] = {0, 3, 4, 117, 255};
    lend(&now.record, length);
    for (size_t i = 0; i < sizeof sectors; i++) hold_each(sectors[i]);
}

void stores_every_length(void) {
    enum { MORE = 300 };
    begin("records of 0 to 300 bytes into images of every kind");
    for (enum image image = 0; image < IMAGES; image++) {
        lend_images(image, ZEROS);
        for (size_t length = 0; length <= MORE; length++) hold_length(length);
    }
    end();
}

/* In a full image: the slot has its sector's record, or is the one free slot, for a sector that is new. */
static void hold_length_bytes(struct bytes *image, size_t slot) {
    uint8_t *head = slot_in(image, slot);
    for (unsigned byte = 0; byte <= UINT8_MAX; byte++) {
        head[1] = (uint8_t)byte;
        hold_each(head[0]);
        hold_each((uint8_t)(head[0] + 1));
    }
}

void shares_every_length_byte(void) {
    begin("every length byte in every slot of both images");
    for (size_t slot = 1; slot <= SLOTS; slot++) {
        lend_images(FULL, FULL);
        hold_length_bytes(&now.network, slot);
        lend_images(SPARSE, FULL);
        hold_length_bytes(&now.factory, slot);
    }
    end();
}

/* A record of this length in some slot of the image, of a sector that the other has not. */
static void hold_rooms(struct bytes *image, size_t length) {
    enum { SECTOR = 200 };
    lend_images(MIXED, MIXED);
    uint8_t *head = slot_in(image, 1 + draw() % SLOTS);
    head[0] = SECTOR;
    head[1] = (uint8_t)length;
    for (size_t room = 0; room <= 1 + LONGEST + 2; room++) {
        lend(&now.out, room);
        hold_answer(SECTOR);
    }
}

void answers_into_every_room(void) {
    begin("records of every length, from both images, into rooms of 0 to 203 bytes");
    for (size_t length = SHORTEST; length <= LONGEST; length++) {
        hold_rooms(&now.network, length);
        hold_rooms(&now.factory, length);
    }
    end();
}

/* As many sectors as these, most often with a record that can be stored: in the end all slots are in use, or not. */
static void hold_stores(enum image image, size_t sectors) {
    enum { STORES = 300 };
    lend_images(image, FULL);
    for (unsigned i = 0; i < STORES; i++) {
        lend(&now.record, draw() % 8 ? some_length() : draw() % (LONGEST + 10));
        hold_store((uint8_t)(draw() % sectors));
        hold_holder((uint8_t)(draw() % sectors));
        hold_answer((uint8_t)(draw() % sectors));
    }
}

void stores_one_after_another(void) {
    static const size_t sectors[] = {1, 39, 40, 41, 100, 256};
    enum { ROUNDS = 10 };
    begin("stores one after another, of 1 to 256 sectors, into images of every kind");
    for (unsigned round = 0; round < ROUNDS; round++)
        for (enum image image = 0; image < IMAGES; image++)
            for (size_t i = 0; i < sizeof sectors / sizeof *sectors; i++) hold_stores(image, sectors[i]);
    end();
}

void shares_any_bytes(void) {
    enum { ROUNDS = 20000, MORE = 260 };
    begin("images, records and rooms of any kind and any bytes");
    for (unsigned round = 0; round < ROUNDS; round++) {
        lend_images((enum image)(draw() % IMAGES), (enum image)(draw() % IMAGES));
        if (round % 16 == 0) lend(&now.network, draw() % (2 * IMAGE));
        if (round % 16 == 1) lend(&now.factory, draw() % (2 * IMAGE));
        lend(&now.record, draw() % MORE);
        lend(&now.out, draw() % MORE);
        hold_each((uint8_t)(draw() % 2 ? draw() : draw() % 10));
    }
    end();
}
