/* Boards that speak 1.0 and the types beside them: how many may be listed, the joins that would bring too many, and the
   condensed node list. */
#ifndef TYPES_H
#define TYPES_H

void refuses_too_many_types(void);
void joins_up_to_fifteen_types(void);
void finds_up_to_fifteen_types(void);
void lists_types_condensed(void);
void takes_no_other_list(void);

#endif
