/* Numbers in words. */
#ifndef NUMBER_H
#define NUMBER_H

#include <stdbool.h>
#include <stdint.h>

/* Digits only, and not above 64 bits; false for anything else. */
bool number_decimal(const char *word, uint64_t *number);
bool number_hex(const char *word, uint64_t *number);

#endif
