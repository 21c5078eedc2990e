#include "shared.h"

struct nadrelgos_storing shared_store(const struct shared *shared, const uint8_t *payload, size_t count) {
    struct nadrelgos_storing stored =
        nadrelgos_shared_store(shared->network, NADRELGOS_IMAGE, payload[0], payload + 1, count - 1);
    /* where the network's copy is kept elsewhere too, as in flash, these bytes and no others are now written there:
       stored.length of them from shared->network + stored.start on, the second of them, the record's length, last;
       none where it was refused */
    return stored;
}

struct served shared_serve(const struct shared *shared, uint8_t sector) {
    struct served served = {0};
    served.holder =
        nadrelgos_shared_holder(shared->network, NADRELGOS_IMAGE, shared->factory, NADRELGOS_IMAGE, sector);
    served.writing = nadrelgos_shared_answer(shared->network, NADRELGOS_IMAGE, shared->factory, NADRELGOS_IMAGE, sector,
                                             served.payload, sizeof served.payload);
    return served;
}
