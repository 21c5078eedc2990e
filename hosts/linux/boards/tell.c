#define _GNU_SOURCE

#include "tell.h"

#include <errno.h>
#include <stdarg.h>
#include <stdio.h>
#include <unistd.h>

/* Room for a line: the longest has a payload of 240 bytes, three characters each. */
enum { TEXT_ROOM = 1024 };

static void put(const char *text, size_t count) {
    size_t done = 0;
    while (done < count) {
        ssize_t more = write(STDOUT_FILENO, text + done, count - done);
        if (more < 0 && errno != EINTR) return;
        if (more > 0) done += (size_t)more;
    }
}

void tell(const char *format, ...) {
    char line[TEXT_ROOM];
    va_list values;
    va_start(values, format);
    int length = vsnprintf(line, sizeof line - 1, format, values);
    va_end(values);
    if (length < 0) return;
    size_t count = (size_t)length < sizeof line - 2 ? (size_t)length : sizeof line - 2;
    line[count] = '\n';
    put(line, count + 1);
}

void tell_bytes(const char *who, const char *what, const uint8_t *bytes, size_t count) {
    char digits[TEXT_ROOM] = "";
    size_t used = 0;
    for (size_t i = 0; i < count && used + 4 < sizeof digits; i++) {
        snprintf(digits + used, sizeof digits - used, " %02X", (unsigned)bytes[i]);
        used += 3;
    }
    tell("%s: %s%s", who, what, digits);
}
