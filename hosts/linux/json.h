/* Events as lines of JSON, an object each. */
#ifndef JSON_H
#define JSON_H

#include "counts.h"
#include "event.h"

void json_event(const struct event *event);

/* The last line: the counts. */
void json_counts(uint64_t at, const struct counts *counts);

#endif
