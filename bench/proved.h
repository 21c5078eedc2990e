/* The functions of crates/measure as C calls them. The panel's face and the finder's are include/nadrelgos.h. */
#ifndef PROVED_H
#define PROVED_H

#include "counterpart.h"

struct read_numbers {
    uint8_t refusal;
    struct ct_header header;
    size_t length;
};

struct write_numbers {
    uint8_t refusal;
    size_t written;
};

/* A ready header: the nine fields and the sums over them. */
struct ready {
    struct ct_header header;
    uint8_t first, second;
};

bool measure_good(const uint8_t *bytes, size_t count);
struct read_numbers measure_read(uint8_t ours, const uint8_t *bytes, size_t count);
struct write_numbers measure_write(struct ct_header header, const uint8_t *payload, size_t length, uint8_t *out,
                                   size_t room);
struct ready measure_prepare(struct ct_header header);
struct write_numbers measure_write_ready(struct ready ready, const uint8_t *payload, size_t length, uint8_t *out,
                                         size_t room);

#endif
