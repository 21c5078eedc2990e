#include "chance.h"

/* SplitMix64: a counter, well mixed. */
static uint64_t mixed(uint64_t x) {
    x = (x ^ x >> 30) * 0xBF58476D1CE4E5B9;
    x = (x ^ x >> 27) * 0x94D049BB133111EB;
    return x ^ x >> 31;
}

uint64_t chance_start(uint64_t seed, uint64_t mac) {
    return mixed(mixed(seed) + mac);
}

uint64_t chance_draw(uint64_t *series) {
    *series += 0x9E3779B97F4A7C15;
    return mixed(*series);
}

void chance_fill(uint64_t *series, uint8_t *bytes, size_t count) {
    for (size_t i = 0; i < count; i++) bytes[i] = (uint8_t)chance_draw(series);
}
