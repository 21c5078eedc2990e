/*
 * Odd inputs through include/nadrelgos.h: records that are not fit, any frames in the exchange by which a board joins
 * (frames.c), every wrong index (indexes.c), every version (versions.c), more types than may be beside a 1.0 board
 * (types.c), texts and faults of every form (texts.c), messages inside messages of every form (inside.c), shared data
 * in images of every kind (shared.c), counts of records other than forty, event numbers that are none, a setup over
 * whatever stood there, changes and positions that are none. What each call answers and leaves is known: records that
 * were lent are held to it field by field, and all else byte by byte. The calls are the same each time. A line is
 * printed for each check, and the exit status is 1 where one fails.
 */
#include "checks.h"
#include "frames.h"
#include "indexes.h"
#include "inside.h"
#include "shared.h"
#include "texts.h"
#include "types.h"
#include "versions.h"

#include <string.h>

/* the answer of a setup or a change that is taken */
static const uint64_t rest = (uint64_t)NADRELGOS_REST << 8;

/* ---- a change of one record, by its name */

enum change { LIST, CLEAR, MARK };
enum { AMENDED = 240 }; /* rounds of changes, as many of each */
enum { COMMON = 2 };    /* the type of many boards there */

static uint64_t amend(enum change change, size_t count, size_t position, uint8_t kind, uint64_t mac, uint64_t session,
                      uint8_t version) {
    switch (change) {
    case LIST: return nadrelgos_list(lent.nodes, count, position, kind, mac, session, version);
    case CLEAR: return nadrelgos_clear(lent.nodes, count, position);
    default: return nadrelgos_mark(lent.nodes, count, position);
    }
}

/* ---- a step */

static void hold_step_refused(uint8_t event, uint64_t refusal, size_t count) {
    keep();
    hold_refused(step(event, count), refusal, count);
}

/* ---- records that are not fit: 22, and nothing is changed */

static void refuses_garbage(void) {
    enum { ROUNDS = 5000 };
    begin("steps on zeros and on garbage");
    memset(&lent, 0, sizeof lent);
    for (unsigned round = 0; round < ROUNDS; round++) {
        hold_unfit();
        scatter(&lent.coordinator, sizeof lent.coordinator);
        scatter(lent.nodes, NADRELGOS_NODES * sizeof *lent.nodes);
        scatter(received, sizeof received);
    }
    end();
}

/* A field of what is lent, and a number that makes fit records unfit. */
struct spoil {
    size_t offset, size;
    uint64_t number;
};
#define SPOIL(field, number) {offsetof(struct lent, field), sizeof lent.field, number}

/* what is wrong in every stage (01, "Fit") */
static const struct spoil anywhere[] = {
    SPOIL(coordinator.setup.k, 0),
    SPOIL(coordinator.setup.k, 2), /* position 3 is listed */
    SPOIL(coordinator.setup.k, 6), /* there is no sixth address */
    SPOIL(coordinator.setup.k, 41),
    SPOIL(coordinator.setup.k, (UINT64_C(1) << 32) + 5),
    SPOIL(coordinator.setup.k, UINT64_MAX),
    SPOIL(coordinator.setup.pool[0], 0),
    SPOIL(coordinator.setup.pool[1], 16),
    SPOIL(coordinator.setup.pool[1], 19),
    SPOIL(coordinator.setup.pool[4], 255),
    SPOIL(coordinator.setup.mac, 0),
    SPOIL(coordinator.setup.mac, NADRELGOS_MAC_MAX + 1),
    SPOIL(coordinator.setup.mac, UINT64_MAX),
    SPOIL(coordinator.last, 6),
    SPOIL(coordinator.last, UINT64_MAX),
    SPOIL(coordinator.held, 2),
    SPOIL(coordinator.searched, 2),
    SPOIL(coordinator.searched, 255),
    SPOIL(coordinator.stand.stage, STAGES),
    SPOIL(coordinator.stand.stage, STAGES + 1),
    SPOIL(coordinator.stand.stage, 128),
    SPOIL(coordinator.stand.stage, 255),
    SPOIL(nodes[2].kind, 0),
    SPOIL(nodes[2].kind, 165),
    SPOIL(nodes[2].mac, 0),
    SPOIL(nodes[2].mac, 100), /* that of position 1 */
    SPOIL(nodes[2].mac, NADRELGOS_MAC_MAX + 1),
    SPOIL(nodes[2].misses, 3),
    SPOIL(nodes[2].owed, 2),
    SPOIL(nodes[2].index, 1), /* that of position 2, whose type it has */
    SPOIL(nodes[1].kind, 6),  /* as this type it has another index, and so has position 3 */
    SPOIL(nodes[2].version, 0),
    SPOIL(nodes[2].version, 3),
    SPOIL(nodes[1].version, 0),
    SPOIL(nodes[1].version, 255),
    SPOIL(nodes[FREE - 1].kind, 5),
    SPOIL(nodes[FREE - 1].mac, 7),
    SPOIL(nodes[FREE - 1].session, 1),
    SPOIL(nodes[FREE - 1].misses, 1),
    SPOIL(nodes[FREE - 1].owed, 1),
    SPOIL(nodes[FREE - 1].index, 1),
    SPOIL(nodes[FREE - 1].version, 1),
    SPOIL(nodes[FREE - 1].version, 2),
    SPOIL(nodes[39].session, 1),
    SPOIL(nodes[39].index, 36), /* how many free positions are lower */
    SPOIL(nodes[39].version, 2),
};

/* where a board is named: stages 1 to 7 */
static const struct spoil with_board[] = {
    SPOIL(coordinator.stand.board, 0),
    SPOIL(coordinator.stand.board, FREE),
    SPOIL(coordinator.stand.board, 41),
    SPOIL(coordinator.stand.board, (UINT64_C(1) << 32) + 1),
    SPOIL(coordinator.stand.board, UINT64_MAX),
};

/* where a request is kept and its requester is named too: stages 3, 4 and 6 */
static const struct spoil with_request[] = {
    SPOIL(coordinator.stand.requester, 0),
    SPOIL(coordinator.stand.requester, FREE),
    SPOIL(coordinator.stand.requester, UINT64_MAX),
    SPOIL(coordinator.kept.message, 0),
    SPOIL(coordinator.kept.message, 128),
    SPOIL(coordinator.kept.method, 0),
    SPOIL(coordinator.kept.method, 4),
    SPOIL(coordinator.kept.length, 241),
};

/* where a position's address is at stake, listed or not: stages 8 to 13 */
static const struct spoil with_stake[] = {
    SPOIL(coordinator.stand.board, 0),
    SPOIL(coordinator.stand.board, K + 1),
    SPOIL(coordinator.stand.board, 41),
    SPOIL(coordinator.stand.board, 256 + 1),
    SPOIL(coordinator.stand.board, (UINT64_C(1) << 32) + 1),
    SPOIL(coordinator.stand.board, UINT64_MAX),
};

/* where a board was found: stages 9 to 13 */
static const struct spoil with_found[] = {
    SPOIL(coordinator.found.kind, 0),
    SPOIL(coordinator.found.kind, 165),
    SPOIL(coordinator.found.version, 0),
    SPOIL(coordinator.found.version, 3),
    SPOIL(coordinator.found.version, 255),
    SPOIL(coordinator.found.mac, 0),
    SPOIL(coordinator.found.mac, NADRELGOS_MAC_MAX + 1),
    SPOIL(coordinator.found.mac, UINT64_MAX),
};

/* where a response is kept: stage 7 */
static const struct spoil with_response[] = {
    SPOIL(coordinator.kept.message, 128),
    SPOIL(coordinator.kept.length, 241),
};

static void spoil_each(uint8_t stage, const struct spoil *spoils, size_t count) {
    for (size_t i = 0; i < count; i++) {
        make_fit(stage);
        memcpy((uint8_t *)&lent + spoils[i].offset, &spoils[i].number, spoils[i].size); /* low byte first */
        hold_unfit();
    }
}
#define SPOIL_EACH(stage, spoils) spoil_each(stage, spoils, sizeof spoils / sizeof *spoils)

static void refuses_one_wrong_field(void) {
    begin("steps on records with one field wrong");
    for (uint8_t stage = 0; stage < STAGES; stage++) {
        SPOIL_EACH(stage, anywhere);
        if (1 <= stage && stage < SEARCH) SPOIL_EACH(stage, with_board);
        if (stage == 3 || stage == 4 || stage == 6) SPOIL_EACH(stage, with_request);
        if (stage == 7) SPOIL_EACH(stage, with_response);
        if (stage >= SEARCH) SPOIL_EACH(stage, with_stake);
        if (stage > SEARCH) SPOIL_EACH(stage, with_found);
    }
    make_fit(0); /* joins held, and nobody is listed */
    lent.coordinator.held = 1;
    memset(lent.nodes, 0, NADRELGOS_NODES * sizeof *lent.nodes);
    hold_unfit();
    end();
}

/* So that the refusals above are for the one field: without it none is 22. */
static void takes_fit_records(void) {
    begin("steps on the same records with none wrong");
    for (uint8_t stage = 0; stage < STAGES; stage++) {
        for (uint8_t event = NADRELGOS_EVENT_JOIN; event <= NADRELGOS_EVENT_DISCOVER; event++) {
            make_fit(stage);
            keep();
            uint64_t answer = step(event, NADRELGOS_NODES);
            hold(answer != NADRELGOS_STATE_UNFIT && past_untouched(NADRELGOS_NODES), answer);
        }
    }
    end();
}

/* ---- what a stage has no use for is never looked at, whatever it is */

/* Anything in the places for which the stage has no use: the board found, the message kept and its requester. */
static void scatter_unused(uint8_t stage) {
    struct nadrelgos_coordinator *c = &lent.coordinator;
    bool message = stage == 3 || stage == 4 || stage == 6 || stage == 7;
    if (stage <= SEARCH) scatter(&c->found, sizeof c->found);
    if (message) return;
    scatter(&c->kept, sizeof c->kept);
    scatter(&c->stand.requester, sizeof c->stand.requester);
}

/* A step on fit records, and the same step where those places hold anything: it answers the same and leaves the same,
   but for these places, where what stood there may stay. */
static void hold_never_looked_at(uint8_t stage, uint8_t event) {
    static struct lent plain, odd;
    make_fit(stage);
    keep();
    uint64_t expected = step(event, NADRELGOS_NODES);
    memcpy(&plain, &lent, sizeof lent);
    memcpy(&lent, &before, sizeof lent);
    scatter_unused(stage);
    memcpy(&odd, &lent, sizeof lent);
    uint64_t answer = step(event, NADRELGOS_NODES);

    struct nadrelgos_coordinator *left = &lent.coordinator;
    if (same_found(&left->found, &odd.coordinator.found)) left->found = plain.coordinator.found;
    if (same_kept(&left->kept, &odd.coordinator.kept)) left->kept = plain.coordinator.kept;
    if (left->stand.requester == odd.coordinator.stand.requester) left->stand = plain.coordinator.stand;
    hold(answer == expected && same_coordinator(left, &plain.coordinator) &&
             same_nodes(lent.nodes, plain.nodes, NADRELGOS_NODES) && memcmp(lent.out, plain.out, sizeof lent.out) == 0,
         answer);
}

static void never_looks_at_the_rest(void) {
    enum { ROUNDS = 50 };
    begin("steps with anything where the stage has no use for it: board found, message kept, requester");
    for (unsigned round = 0; round < ROUNDS; round++)
        for (uint8_t stage = 0; stage < STAGES; stage++)
            for (uint8_t event = NADRELGOS_EVENT_JOIN; event <= NADRELGOS_EVENT_DISCOVER; event++)
                hold_never_looked_at(stage, event);
    end();
}

/* ---- counts of records other than forty: 22, and nothing is changed, least of all past the count */

static void hold_count_refused(size_t count) {
    static const size_t positions[] = {1, 0, 41, SIZE_MAX};
    make_fit(0);
    keep();
    hold_refused(set_up(count), NADRELGOS_STATE_UNFIT, count);
    for (uint8_t event = 0; event <= NADRELGOS_EVENT_DISCOVER + 1; event++)
        hold_step_refused(event, NADRELGOS_STATE_UNFIT, count);
    lent.nodes[0].index = lent.nodes[39].index = 7; /* wrong ones, so that it would be seen if they were counted */
    keep();
    for (enum change change = LIST; change <= MARK; change++)
        for (size_t i = 0; i < sizeof positions / sizeof *positions; i++)
            hold_refused(amend(change, count, positions[i], 5, 7, 1, 2), NADRELGOS_STATE_UNFIT, count);
}

static void refuses_other_counts(void) {
    begin("setup, steps and changes with other counts than 40");
    for (size_t count = 0; count <= 2 * NADRELGOS_NODES; count++)
        if (count != NADRELGOS_NODES) hold_count_refused(count);
    hold_count_refused(NADRELGOS_NODES + 256); /* forty, if it were held in a byte */
    end();
}

/* ---- event numbers that are none: 12, or 22 where the records are not fit */

static void refuses_other_events(void) {
    begin("events outside 1 to 5");
    for (unsigned event = 0; event <= UINT8_MAX; event++) {
        if (NADRELGOS_EVENT_JOIN <= event && event <= NADRELGOS_EVENT_DISCOVER) continue;
        for (uint8_t stage = 0; stage < STAGES; stage++) {
            make_fit(stage);
            hold_step_refused((uint8_t)event, NADRELGOS_BAD_TYPE, NADRELGOS_NODES);
        }
        lent.coordinator.setup.k = 0;
        hold_step_refused((uint8_t)event, NADRELGOS_STATE_UNFIT, NADRELGOS_NODES);
    }
    end();
}

/* ---- setup over garbage: both records are written whole, and a refused one leaves the garbage */

static void sets_up_over_garbage(void) {
    enum { ROUNDS = 500 };
    const struct nadrelgos_coordinator fresh = {
        .setup = {{16, 17, 18, 19, 20}, sizeof pool, SUBNET, INTERNAL, OWN_MAC, OWN_SESSION}};
    static const struct nadrelgos_node blank[NADRELGOS_NODES];
    begin("setup over garbage");
    for (unsigned round = 0; round < ROUNDS; round++) {
        scatter(&lent, sizeof lent);
        keep();
        uint64_t answer = set_up(NADRELGOS_NODES);
        hold(answer == rest && same_coordinator(&lent.coordinator, &fresh) &&
                 same_nodes(lent.nodes, blank, NADRELGOS_NODES) && others_untouched(NADRELGOS_NODES),
             answer);
    }
    end();
}

static void refuses_setup_over_garbage(void) {
    static const uint8_t falling[] = {16, 15};
    static const struct {
        const uint8_t *addresses;
        size_t count;
        uint64_t mac, refusal;
    } cases[] = {
        {pool, 0, OWN_MAC, NADRELGOS_BAD_POOL},
        {falling, sizeof falling, OWN_MAC, NADRELGOS_BAD_POOL},
        {falling, sizeof falling, 0, NADRELGOS_BAD_POOL},
        {pool, sizeof pool, 0, NADRELGOS_BAD_MAC},
        {pool, sizeof pool, NADRELGOS_MAC_MAX + 1, NADRELGOS_BAD_MAC},
    };
    begin("refused setup over garbage");
    for (size_t i = 0; i < sizeof cases / sizeof *cases; i++) {
        scatter(&lent, sizeof lent);
        keep();
        uint64_t answer = nadrelgos_setup(&lent.coordinator, lent.nodes, NADRELGOS_NODES, cases[i].addresses,
                                          cases[i].count, SUBNET, INTERNAL, cases[i].mac, OWN_SESSION);
        hold_refused(answer, cases[i].refusal, NADRELGOS_NODES);
    }
    end();
}

/* ---- single records listed, cleared and marked, as crates/lent/specs/Amend.antt defines it */

/* The record at the position of a change, its index not counted yet. */
static struct nadrelgos_node amended(struct nadrelgos_node node, enum change change, uint8_t kind, uint64_t mac,
                                     uint64_t session, uint8_t version) {
    switch (change) {
    case LIST: return (struct nadrelgos_node){kind, mac, session, 0, 0, 0, version == 1 ? 1 : 2};
    case CLEAR: return (struct nadrelgos_node){0, 0, 0, 0, 0, 0, 0};
    default:
        if (node.kind != 0) node.owed = 1;
        return node;
    }
}

/* A type: none, one that many have, or any. */
static uint8_t draw_kind(void) {
    static const uint8_t some[] = {0, 0, COMMON};
    uint64_t drawn = draw() >> 32;
    return drawn % 4 < sizeof some ? some[drawn % 4] : (uint8_t)(drawn >> 8);
}

/* Records of any numbers, about half of them free. */
static void scatter_table(void) {
    scatter(&lent, sizeof lent);
    for (size_t i = 0; i < NADRELGOS_NODES; i++) lent.nodes[i].kind = draw_kind();
}

/* A change, whatever the indexes were: list and clear count all of them, wherever the position is, and mark none. */
static void hold_amended(enum change change, size_t position) {
    static struct nadrelgos_node expected[NADRELGOS_NODES];
    uint8_t kind = draw_kind(), version = (uint8_t)((draw() >> 32) % 4);
    uint64_t mac = draw(), session = draw();
    for (size_t i = 0; i < NADRELGOS_NODES; i++) scatter(&lent.nodes[i].index, 1);
    keep();
    memcpy(expected, lent.nodes, sizeof expected);
    if (1 <= position && position <= NADRELGOS_NODES)
        expected[position - 1] = amended(expected[position - 1], change, kind, mac, session, version);
    if (change != MARK) count_indexes(expected);
    uint64_t answer = amend(change, NADRELGOS_NODES, position, kind, mac, session, version);
    hold(answer == rest && same_nodes(lent.nodes, expected, NADRELGOS_NODES) && others_untouched(NADRELGOS_NODES),
         answer);
}

static void amends_as_defined(void) {
    begin("list, clear and mark at every position");
    for (unsigned round = 0; round < AMENDED; round++) {
        scatter_table();
        for (size_t position = 1; position <= NADRELGOS_NODES; position++) hold_amended(round % 3, position);
    }
    end();
}

static void amends_nobody(void) {
    static const size_t positions[] = {
        0, 41, 42, 255, 256, 256 + 1, 65536 + 1, ((size_t)1 << 32) + 1, SIZE_MAX / 2 + 2, SIZE_MAX - 1, SIZE_MAX,
    };
    begin("list, clear and mark at positions 0, 41 and up to the highest number");
    for (unsigned round = 0; round < AMENDED; round++) {
        scatter_table();
        for (size_t i = 0; i < sizeof positions / sizeof *positions; i++) hold_amended(round % 3, positions[i]);
    }
    end();
}

/* The panel's records and steps. */
static void try_the_panel(void) {
    refuses_garbage();
    refuses_one_wrong_field();
    takes_fit_records();
    never_looks_at_the_rest();
    frames_in_the_exchange();
    frames_out_of_the_exchange();
    frames_of_every_subnet();
    refuses_other_counts();
    refuses_other_events();
    sets_up_over_garbage();
    refuses_setup_over_garbage();
    amends_as_defined();
    amends_nobody();
}

static void try_the_indexes(void) {
    refuses_wrong_indexes();
    takes_right_indexes();
    keeps_indexes();
    sends_indexes();
    counts_indexes();
}

static void try_the_versions(void) {
    refuses_wrong_versions();
    refuses_wrong_versions_found();
    joins_every_version();
    asks_a_join_alone();
    lists_every_version();
    sends_in_each_subnet();
    refuses_too_many_types();
    joins_up_to_fifteen_types();
    finds_up_to_fifteen_types();
    lists_types_condensed();
    takes_no_other_list();
}

/* Texts and faults, messages inside messages, shared data. */
static void try_the_payloads(void) {
    reads_every_length();
    reads_every_byte();
    reads_any_bytes();
    writes_every_length();
    writes_into_every_room();
    knows_the_reply();
    unwraps_every_depth();
    unwraps_every_length_byte();
    unwraps_cut_and_lengthened();
    unwraps_every_type();
    unwraps_every_subnet();
    unwraps_damaged();
    unwraps_any_bytes();
    wraps_every_depth();
    wraps_into_every_room();
    wraps_every_byte();
    shares_images_of_every_size();
    shares_every_sector();
    stores_every_length();
    shares_every_length_byte();
    answers_into_every_room();
    stores_one_after_another();
    shares_any_bytes();
}

int main(void) {
    try_the_panel();
    try_the_indexes();
    try_the_versions();
    try_the_payloads();
    return some_failed();
}
