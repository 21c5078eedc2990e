/*
 * Calls with odd inputs, in checks: what is lent to them, whether they left it as it was, and the line that each check
 * prints. Records that were lent are compared field by field, and all else byte by byte.
 */
#ifndef CHECKS_H
#define CHECKS_H

#include "records.h"

/* more records than are ever lent */
enum { RECORDS = 320 };

/* All that the calls may change. */
struct lent {
    struct nadrelgos_coordinator coordinator;
    struct nadrelgos_node nodes[RECORDS];
    uint8_t out[NADRELGOS_ROOM];
};

/* What is lent, as it was when it was last kept, and the bytes that a frame is given. */
extern struct lent lent, before;
extern uint8_t received[NADRELGOS_ROOM];

/* ---- a check: it begins, holds its calls, ends with its line */

void begin(const char *name);
void hold(bool held, uint64_t answer);
void end(void);

/* Whether a call of any check was wrong. */
bool some_failed(void);

/* ---- numbers without an order, the same each time */

uint64_t draw(void);
void scatter(void *bytes, size_t count);

/* ---- what a call changed */

void keep(void);

/* Whether the records past the `count` that were lent have each byte that they had. */
bool past_untouched(size_t count);

/* Whether out has, too. */
bool others_untouched(size_t count);

/* Whether everything is as it was. */
bool unchanged(size_t count);

void hold_refused(uint64_t answer, uint64_t refusal, size_t count);

/* ---- steps */

/* A step. What a join is told is good, so that it is not refused for that; out has all the room there is need of. */
uint64_t step(uint8_t event, size_t count);

/* The five steps on records that are not fit: 22, and nothing is changed. */
void hold_unfit(void);

/* The five steps on records that are fit: none is 22. The records are then as they were. */
void hold_fit(void);

/* A join or a drop: one record is replaced, the list is owed to every board, and all indexes are right. The ACK, where
   one is written, has the index of the record. Since the records were last kept nothing else is changed. */
void hold_left(uint64_t answer, uint64_t expected, size_t position, struct nadrelgos_node node);

/* ---- records that are fit: five addresses, boards of one type at positions 1 to 3, the second a 1.0 board; what is
   not lent is scattered */

enum { OWN_MAC = 9, OWN_SESSION = 8, SUBNET = 3, INTERNAL = 21, BOARDS = 3, FREE = 4, K = 5 };

/* The stages: 0 to 7, then those of the exchange by which a board joins. */
enum { SEARCH = 8, IDENTIFY_DUE = 9, IDENTIFY = 10, PRESENT = 11, ASSIGN_DUE = 12, ASSIGN = 13, STAGES = 14 };

extern const uint8_t pool[K];

uint64_t set_up(size_t count);

/*
 * Fit records in a stage: board 1, or the free position at stake; where another board is named, requester 2. A message
 * is kept, and a board found, as the stage needs it.
 */
void make_fit(uint8_t stage);

/* The same with forty addresses and boards of these types, 0 where a position is free, and versions. Board and
   requester are the two lowest that are listed. */
void make_forty(uint8_t stage, const uint8_t kinds[NADRELGOS_NODES], const uint8_t versions[NADRELGOS_NODES]);
uint64_t mac_at(size_t position);

/* The subnet of boards of a version. */
uint8_t subnet_of(uint8_t version);

/* Into `received`, the frame by which a board joins in the exchange: its ID in identify, or Set Address echoed. */
size_t write_joining(uint8_t stage, size_t position, struct nadrelgos_found who);

#endif
