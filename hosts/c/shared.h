/* The shared data that boards keep in the network (API Reference, 5.10 and 5.11), by the calls of libshared.a. */
#ifndef SHARED_H
#define SHARED_H

#include "nadrelgos.h"

/* The two images that the loop is lent, NADRELGOS_IMAGE bytes each. */
struct shared {
    uint8_t *network;       /* the network's copy: it is to outlive a power failure */
    const uint8_t *factory; /* the factory image */
};

/* What a request for the record of a sector comes to. */
struct served {
    struct nadrelgos_holder holder;         /* which image has it, and where; or neither */
    struct nadrelgos_writing writing;       /* of the response's payload */
    uint8_t payload[NADRELGOS_SHARED_ROOM]; /* sector and record, or nothing */
};

/* Stores the record of a sector. The payload has a byte, the sector; all behind it is the record. */
struct nadrelgos_storing shared_store(const struct shared *shared, const uint8_t *payload, size_t count);

/* What there is of a sector, in the network's copy or else in the factory image. The panel has no step that would send
   the response. */
struct served shared_serve(const struct shared *shared, uint8_t sector);

#endif
