/* What happens, in words: names, and a sentence for what each call did. */
#ifndef WORDS_H
#define WORDS_H

#include "panel.h"

/* The stages in which the panel rests, and in which something is to be sent at the next turn. */
enum { RESTING = 0, FORWARD_DUE = 6, RETURN_DUE = 7, IDENTIFY_DUE = 9, ASSIGN_DUE = 12 };

struct words {
    char text[160];
};

/* A node type, a version, a refusal by its number, and an exchange by its number. */
const char *words_kind(unsigned kind);
const char *words_version(unsigned version);
const char *words_refusal(unsigned refusal);
const char *words_exchange(unsigned exchange);

/* The address at a position. */
unsigned words_address(const struct panel *panel, unsigned position);

/* What was sent, by an answer that waits. */
void words_sent(struct words *words, const struct panel *panel, uint64_t wait);

/* What the frame received was in this wait, by the answer that took it. */
void words_taken(struct words *words, const struct panel *panel, uint64_t wait, uint64_t answer);

/* What it meant that no answer came in this wait. The board at the position was this one before. */
void words_quiet(struct words *words, const struct panel *panel, uint64_t wait, struct nadrelgos_node before,
                 uint64_t answer);

/* What was received in this wait, a request for the host: what it wants. */
void words_request(struct words *words, const struct panel *panel, uint64_t wait);

/* What became of shared data that was to be stored, and of what was asked for: the request received. */
void words_stored(struct words *words, const struct panel *panel, struct nadrelgos_storing stored);
void words_served(struct words *words, const struct panel *panel, const struct served *served);

#endif
