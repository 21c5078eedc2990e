#include "tell.h"

#include "words.h"

#include <stdio.h>

/* Begins the line of a call, with its number. */
static void tell_call(const char *event) {
    static unsigned calls;
    printf("%4u  %-8s  ", ++calls, event);
}

/* Whether the call was refused; tells it, and what the loop does about it. */
static bool tell_refused(uint64_t answer, const char *then) {
    unsigned refusal = nadrelgos_refusal(answer);
    if (refusal) printf("refused %u, %s: %s\n", refusal, words_refusal(refusal), then);
    return refusal != 0;
}

void tell_table(const struct panel *panel) {
    printf("      table\n");
    for (unsigned p = 1; p <= panel->coordinator.setup.k; p++) {
        const struct nadrelgos_node *node = &panel->nodes[p - 1];
        if (node->kind == 0) continue;
        printf("                %u  address %u  %s, version %s, index %u, session %016llx, misses %u\n", p,
               words_address(panel, p), words_kind(node->kind), words_version(node->version), node->index,
               (unsigned long long)node->session, node->misses);
    }
}

void tell_setup(const struct panel *panel, uint64_t answer) {
    const struct nadrelgos_settings *setup = &panel->coordinator.setup;
    printf("setup, ");
    if (!tell_refused(answer, "no panel")) printf("%u addresses from %u on\n", (unsigned)setup->k, setup->pool[0]);
}

static void tell_sent(const struct panel *panel, uint64_t answer) {
    struct words words;
    words_sent(&words, panel, answer);
    printf("%s\n", words.text);
}

void tell_discover(const struct panel *panel, uint64_t answer) {
    tell_call("discover");
    if (!tell_refused(answer, "later")) tell_sent(panel, answer);
}

void tell_turn(const struct panel *panel, uint64_t answer) {
    tell_call("turn");
    if (!tell_refused(answer, "nothing to send")) tell_sent(panel, answer);
}

void tell_frame(const struct panel *panel, uint64_t wait, size_t count, uint64_t answer) {
    struct words words;
    tell_call("frame");
    printf("%u bytes: ", (unsigned)count);
    if (tell_refused(answer, "listening on")) return;
    words_taken(&words, panel, wait, answer);
    printf("%s\n", words.text);
}

void tell_quiet(const struct panel *panel, uint64_t wait, struct nadrelgos_node before, uint64_t answer) {
    struct words words;
    tell_call("quiet");
    if (tell_refused(answer, "no wait is on")) return;
    words_quiet(&words, panel, wait, before, answer);
    printf("%s\n", words.text);
    if (nadrelgos_dropped(answer)) tell_table(panel);
}

/* A line below that of the call which delivered it. */
static void tell_delivered(const struct words *words) {
    printf("                %s\n", words->text);
}

void tell_request(const struct panel *panel, uint64_t wait) {
    struct words words;
    words_request(&words, panel, wait);
    tell_delivered(&words);
}

void tell_stored(const struct panel *panel, uint64_t wait, struct nadrelgos_storing stored) {
    struct words words;
    (void)wait;
    words_stored(&words, panel, stored);
    tell_delivered(&words);
}

void tell_served(const struct panel *panel, uint64_t wait, const struct served *served) {
    struct words words;
    (void)wait;
    words_served(&words, panel, served);
    tell_delivered(&words);
}
