#include "number.h"

#include <string.h>

/* The value of a digit, or `base` where it is none. */
static unsigned value_of(char digit, unsigned base) {
    static const char digits[] = "0123456789abcdef";
    if (digit >= 'A' && digit <= 'F') digit = (char)(digit - 'A' + 'a');
    const char *found = digit ? strchr(digits, digit) : NULL;
    return found && (unsigned)(found - digits) < base ? (unsigned)(found - digits) : base;
}

static bool read_digits(const char *word, unsigned base, uint64_t *number) {
    uint64_t sum = 0;
    for (const char *at = word; *at; at++) {
        unsigned value = value_of(*at, base);
        if (value == base || sum > (UINT64_MAX - value) / base) return false;
        sum = sum * base + value;
    }
    *number = sum;
    return word[0] != '\0';
}

bool number_decimal(const char *word, uint64_t *number) {
    return read_digits(word, 10, number);
}

bool number_hex(const char *word, uint64_t *number) {
    return read_digits(word, 16, number);
}
