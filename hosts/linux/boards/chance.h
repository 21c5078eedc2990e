/* Pseudorandom numbers, seeded from outside (Networking Specification, 11.1 and 11.9). */
#ifndef CHANCE_H
#define CHANCE_H

#include <stddef.h>
#include <stdint.h>

/* What a series of numbers begins with: another one for each seed and each MAC. */
uint64_t chance_start(uint64_t seed, uint64_t mac);

/* The next number of a series: any of 64 bits. */
uint64_t chance_draw(uint64_t *series);

/* Fills bytes. */
void chance_fill(uint64_t *series, uint8_t *bytes, size_t count);

#endif
