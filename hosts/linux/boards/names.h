/* Names: of message types, and those that a board may have. */
#ifndef NAMES_H
#define NAMES_H

#include <stdbool.h>
#include <stdint.h>

/* The name of a request's type (API Reference, table 68). */
const char *names_request(uint8_t type);

/* Whether a board may have this name: letters, digits, - and _, up to 15, and not `all`. */
bool names_fit(const char *name);

#endif
