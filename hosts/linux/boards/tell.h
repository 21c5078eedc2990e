/* What the program says on its standard output. */
#ifndef TELL_H
#define TELL_H

#include <stddef.h>
#include <stdint.h>

/* A line, written at once. Nothing is wrong where nobody takes it. */
__attribute__((format(printf, 1, 2))) void tell(const char *format, ...);

/* A line that ends with these bytes in hexadecimal: "who: what 64 00". */
void tell_bytes(const char *who, const char *what, const uint8_t *bytes, size_t count);

#endif
