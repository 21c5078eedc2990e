#include "watch.h"

#include "counts.h"
#include "event.h"
#include "json.h"
#include "screen.h"
#include "tell.h"
#include "wire.h"
#include "words.h"

#include <stdio.h>
#include <stdlib.h>

/* The one panel that is seen, and how. */
static struct {
    enum show show;
    const struct options *options;
    const struct panel *panel;
    const struct pace *pace;
    struct counts counts;
    struct screen screen;
} watch;

/* ---- events */

static struct event begin(const char *name, unsigned has, const char *words) {
    struct event event = {.name = name, .at = pace_now(watch.pace), .has = has, .words = words};
    return event;
}

static void show(const struct event *event) {
    if (watch.show == SHOW_SCREEN) {
        screen_note(&watch.screen, event);
        return;
    }
    if (watch.show == SHOW_JSON)
        json_event(event);
    else
        printf("%11.3f  %-9s  %s\n", (double)event->at / SECOND, event->name, event->words);
    fflush(stdout);
    clearerr(stdout); /* where nobody takes it down the panel goes on */
}

/* Where a board is. */
static void set_place(struct event *event, unsigned position) {
    event->position = position;
    event->address = words_address(watch.panel, position);
}

/* In which wait. */
static void set_wait(struct event *event, uint64_t wait) {
    set_place(event, nadrelgos_board(wait));
    event->exchange = nadrelgos_exchange(wait);
}

static void set_board(struct event *event, const struct nadrelgos_node *node) {
    event->kind = node->kind;
    event->version = node->version;
    event->mac = node->mac;
    event->session = node->session;
}

/* A refusal of the call; bytes that it was handed, or none. Turns and discoveries are refused in every round. */
static void show_refused(const char *call, uint64_t answer, struct bytes frame) {
    char words[128];
    unsigned refusal = nadrelgos_refusal(answer);
    const char *name = words_refusal(refusal);
    if (frame.count)
        snprintf(words, sizeof words, "%u bytes refused %u, %s", (unsigned)frame.count, refusal, name);
    else
        snprintf(words, sizeof words, "%s refused %u, %s", call, refusal, name);
    struct event event = begin("refused", HAS_CALL | HAS_REFUSAL | (frame.count ? HAS_FRAME : 0), words);
    event.call = call;
    event.refusal = refusal;
    event.frame = frame;
    event.is_common = frame.count == 0;
    watch.counts.refused[refusal < REFUSALS ? refusal : 0]++;
    show(&event);
}

/* A board is on the list now, or off it. */
static void show_board(const char *name, const char *list, unsigned position, const struct nadrelgos_node *node) {
    char words[128];
    snprintf(words, sizeof words, "%s: %s, position %u, address %u, MAC %014llx, version %s", list,
             words_kind(node->kind), position, words_address(watch.panel, position), (unsigned long long)node->mac,
             words_version(node->version));
    struct event event = begin(name, HAS_PLACE | HAS_BOARD, words);
    set_place(&event, position);
    set_board(&event, node);
    show(&event);
}

/* ---- what the loop tells of */

void tell_setup(const struct panel *panel, uint64_t answer) {
    const struct nadrelgos_settings *setup = &panel->coordinator.setup;
    char words[128];
    if (nadrelgos_refusal(answer)) {
        show_refused("setup", answer, (struct bytes){0});
        return;
    }
    snprintf(words, sizeof words, "fresh start on %s: %u addresses from %u on", watch.options->device,
             (unsigned)setup->k, setup->pool[0]);
    struct event event = begin("setup", HAS_TEXT | HAS_COUNT, words);
    event.text = watch.options->device;
    event.count = setup->k;
    show(&event);
}

/* A turn or a discovery. */
static void show_sent(const struct panel *panel, const char *call, uint64_t answer) {
    struct words words;
    if (nadrelgos_refusal(answer)) {
        show_refused(call, answer, (struct bytes){0});
        return;
    }
    unsigned exchange = nadrelgos_exchange(answer);
    words_sent(&words, panel, answer);
    struct event event = begin("sent", HAS_EXCHANGE | HAS_FRAME, words.text);
    set_wait(&event, answer);
    event.frame = (struct bytes){panel->out, nadrelgos_written(answer)};
    event.is_common = exchange == NADRELGOS_OFFER || exchange == NADRELGOS_LIST || exchange == NADRELGOS_SEARCH;
    watch.counts.offers += exchange == NADRELGOS_OFFER;
    watch.counts.carried += exchange == NADRELGOS_FORWARD;
    screen_sent(&watch.screen, answer, event.at);
    show(&event);
}

void tell_discover(const struct panel *panel, uint64_t answer) {
    show_sent(panel, "discover", answer);
}

void tell_turn(const struct panel *panel, uint64_t answer) {
    show_sent(panel, "turn", answer);
}

/* The step after a frame: what is to be sent at the next turn. */
static const char *due(const struct panel *panel) {
    switch (panel->coordinator.stand.stage) {
    case FORWARD_DUE: return "forward";
    case RETURN_DUE: return "return";
    case IDENTIFY_DUE: return "identify";
    case ASSIGN_DUE: return "assign";
    default: return "";
    }
}

static const char *answer_name(uint64_t answer) {
    static const char *const names[] = {"refused", "wait", "deliver", "transmit", "rest"};
    return names[nadrelgos_answer(answer) <= NADRELGOS_REST ? nadrelgos_answer(answer) : 0];
}

void tell_frame(const struct panel *panel, uint64_t wait, size_t count, uint64_t answer) {
    struct words words;
    struct bytes frame = {panel->received, count};
    if (nadrelgos_refusal(answer)) {
        show_refused("frame", answer, frame);
        return;
    }
    unsigned exchange = nadrelgos_exchange(wait);
    words_taken(&words, panel, wait, answer);
    struct event event = begin("taken", HAS_EXCHANGE | HAS_ANSWER | HAS_FRAME | HAS_ACK, words.text);
    set_wait(&event, wait);
    event.answer = answer_name(answer);
    event.due = due(panel);
    event.frame = frame;
    event.ack = (struct bytes){panel->out, nadrelgos_written(answer)};
    event.is_common =
        exchange == NADRELGOS_LIST || (exchange == NADRELGOS_OFFER && nadrelgos_answer(answer) == NADRELGOS_REST);
    bool is_listed = exchange < NADRELGOS_SEARCH || nadrelgos_joined(answer);
    if (is_listed) screen_heard(&watch.screen, nadrelgos_board(wait), event.at);
    show(&event);
    unsigned joined = nadrelgos_joined(answer);
    if (!joined) return;
    watch.counts.joins++;
    show_board("joined", "listed", joined, &panel->nodes[joined - 1]);
}

void tell_quiet(const struct panel *panel, uint64_t wait, struct nadrelgos_node before, uint64_t answer) {
    struct words words;
    if (nadrelgos_refusal(answer)) {
        show_refused("quiet", answer, (struct bytes){0});
        return;
    }
    bool is_dropped = nadrelgos_dropped(answer) != 0;
    unsigned misses = is_dropped ? before.misses + 1u : panel->nodes[nadrelgos_board(wait) - 1].misses;
    words_quiet(&words, panel, wait, before, answer);
    struct event event = begin("quiet", HAS_EXCHANGE | HAS_MISSES, words.text);
    set_wait(&event, wait);
    event.misses = misses;
    event.is_common = event.exchange == NADRELGOS_SEARCH;
    watch.counts.misses += misses > before.misses;
    show(&event);
    if (!is_dropped) return;
    watch.counts.drops++;
    show_board("dropped", "off the list", nadrelgos_dropped(answer), &before);
}

/* A request for the host, and what it wants or what became of it. */
static void show_delivered(const struct panel *panel, uint64_t wait, const struct words *words) {
    const uint8_t *frame = panel->received;
    struct event event = begin("delivered", HAS_PLACE | HAS_REQUEST | HAS_TEXT, words->text);
    set_place(&event, nadrelgos_board(wait));
    event.message = frame[AT_TYPE];
    event.text = words->text;
    event.frame = (struct bytes){frame + AT_PAYLOAD, frame[AT_LENGTH]};
    show(&event);
}

void tell_request(const struct panel *panel, uint64_t wait) {
    struct words words;
    words_request(&words, panel, wait);
    show_delivered(panel, wait, &words);
}

void tell_stored(const struct panel *panel, uint64_t wait, struct nadrelgos_storing stored) {
    struct words words;
    words_stored(&words, panel, stored);
    show_delivered(panel, wait, &words);
}

void tell_served(const struct panel *panel, uint64_t wait, const struct served *served) {
    struct words words;
    words_served(&words, panel, served);
    show_delivered(panel, wait, &words);
}

/* ---- what happens beside the loop */

static void show_text(const char *name, const char *text, const char *words) {
    struct event event = begin(name, HAS_TEXT, words);
    event.text = text;
    show(&event);
}

void watch_lost(const char *why) {
    char words[160];
    snprintf(words, sizeof words, "%s: %s. Waiting until it can be opened again", watch.options->device, why);
    watch.screen.is_lost = true;
    show_text("lost", why, words);
}

void watch_opened(void) {
    char words[160];
    snprintf(words, sizeof words, "%s is open again", watch.options->device);
    watch.screen.is_lost = false;
    show_text("opened", watch.options->device, words);
}

void watch_noise(size_t count) {
    char words[64];
    snprintf(words, sizeof words, "%u bytes beside the frames", (unsigned)count);
    struct event event = begin("noise", HAS_COUNT, words);
    event.count = count;
    watch.counts.noise += count;
    show(&event);
}

void watch_capture_ended(const char *why) {
    char words[160];
    snprintf(words, sizeof words, "nothing more is captured: %s", why);
    show_text("capture", why, words);
}

void watch_note(const char *line) {
    char words[160];
    snprintf(words, sizeof words, "> %s", line);
    show_text("note", line, words);
}

/* ---- the show */

void watch_begin(const struct options *options, const struct panel *panel, const struct pace *pace) {
    watch.show = options->show;
    watch.options = options;
    watch.panel = panel;
    watch.pace = pace;
    if (watch.show == SHOW_SCREEN) screen_begin(&watch.screen, options, panel, &watch.counts, pace);
}

uint64_t watch_due(void) {
    return watch.show == SHOW_SCREEN ? watch.screen.due : NEVER;
}

void watch_refresh(void) {
    if (watch.show == SHOW_SCREEN) screen_refresh(&watch.screen);
}

void watch_end(int status) {
    const struct counts *counts = &watch.counts;
    if (watch.show == SHOW_SCREEN) screen_end(&watch.screen);
    if (watch.show == SHOW_JSON)
        json_counts(pace_now(watch.pace), counts);
    else
        printf("stopped: offers %lu, carried %lu, misses %lu, joins %lu, drops %lu\n", counts->offers, counts->carried,
               counts->misses, counts->joins, counts->drops);
    exit(status);
}
