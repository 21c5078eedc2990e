#include "shared.h"

static uint8_t network[NADRELGOS_IMAGE], factory[NADRELGOS_IMAGE], record[NADRELGOS_RECORD_MAX], asked;

/* Sector `first` in slot 1, and so on; each with the longest record. */
static void fill(uint8_t image[NADRELGOS_IMAGE], unsigned first) {
    for (unsigned i = 0; i < NADRELGOS_SLOTS; i++) {
        image[NADRELGOS_SLOT * i] = (uint8_t)(first + i);
        image[NADRELGOS_SLOT * i + 1] = NADRELGOS_RECORD_MAX;
    }
}

void make_shared(uint8_t sector) {
    fill(network, 1);
    fill(factory, 1 + NADRELGOS_SLOTS);
    for (size_t i = 0; i < sizeof record; i++) record[i] = (uint8_t)(i * 7 + 1);
    asked = sector;
}

size_t hold_proved(struct work *w, size_t times) {
    size_t sum = 0;
    (void)w;
    while (times-- > 0)
        sum += nadrelgos_shared_holder(network, sizeof network, factory, sizeof factory, asked).start;
    return sum;
}

size_t hold_counterpart(struct work *w, size_t times) {
    size_t sum = 0;
    (void)w;
    while (times-- > 0) sum += ct_shared_holder(network, sizeof network, factory, sizeof factory, asked).start;
    return sum;
}

size_t store_proved(struct work *w, size_t times) {
    size_t sum = 0;
    (void)w;
    while (times-- > 0)
        sum += nadrelgos_shared_store(network, sizeof network, asked, record, sizeof record).length;
    return sum;
}

size_t store_counterpart(struct work *w, size_t times) {
    size_t sum = 0;
    (void)w;
    while (times-- > 0) sum += ct_shared_store(network, sizeof network, asked, record, sizeof record).length;
    return sum;
}
