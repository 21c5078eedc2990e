/* Boards that speak 1.0: every version byte in records, in what was found, in joins and in single records listed; in
   which subnet each frame goes. */
#ifndef VERSIONS_H
#define VERSIONS_H

void refuses_wrong_versions(void);
void refuses_wrong_versions_found(void);
void joins_every_version(void);
void asks_a_join_alone(void);
void lists_every_version(void);
void sends_in_each_subnet(void);

#endif
