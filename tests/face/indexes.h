/* The index in each record: every wrong one on forty positions; what joins, retypings and drops make of it. */
#ifndef INDEXES_H
#define INDEXES_H

void refuses_wrong_indexes(void);
void takes_right_indexes(void);
void keeps_indexes(void);
void sends_indexes(void);
void counts_indexes(void);

#endif
