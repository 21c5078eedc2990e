/* The panel's records compared by fields: the bytes between the fields have no meaning, and a call may change them. */
#ifndef RECORDS_H
#define RECORDS_H

#include "nadrelgos.h"

#include <stdbool.h>

bool same_nodes(const struct nadrelgos_node *some, const struct nadrelgos_node *others, size_t count);

/* The index that the record at a position must have: the number of lower listed positions of its type; 0 where free. */
uint8_t counted_index(const struct nadrelgos_node *nodes, size_t position);

/* Whether each of the forty records has it; and gives it to each. */
bool are_indexes_right(const struct nadrelgos_node *nodes);
void count_indexes(struct nadrelgos_node *nodes);

/* Whether each of the forty has a version that it may have: 1 or 2, 0 where free. */
bool are_versions_right(const struct nadrelgos_node *nodes);

/* Whether a 1.0 board is listed among so many records, and more than 15 different types are. */
bool are_types_too_many(const struct nadrelgos_node *nodes, size_t count);

bool same_kept(const struct nadrelgos_kept *one, const struct nadrelgos_kept *other);

bool same_found(const struct nadrelgos_found *one, const struct nadrelgos_found *other);

bool same_coordinator(const struct nadrelgos_coordinator *one, const struct nadrelgos_coordinator *other);

#endif
