/* The wire's proved functions at work. `bench/run before` links this twice, to the functions of two commits. */
#include "work.h"

#include <string.h>

/* Those of a commit before C-14 take no subnet, though proved.h and the header, which are today's, say so. */
#ifdef WITHOUT_SUBNET
struct read_numbers read_any(const uint8_t *bytes, size_t count) __asm__("measure_read");
struct nadrelgos_finding find_any(const uint8_t *bytes, size_t count, size_t budget) __asm__("nadrelgos_find");
#define READ(w) read_any((w)->bytes, (w)->count)
#define FIND(w, from) find_any((w)->bytes + (from), (w)->count - (from), (w)->count)
#else
#define READ(w) measure_read((w)->subnet, (w)->bytes, (w)->count)
#define FIND(w, from) nadrelgos_find((w)->subnet, (w)->bytes + (from), (w)->count - (from), (w)->count)
#endif

size_t good_proved(struct work *w, size_t times) {
    size_t sum = 0;
    while (times-- > 0) sum += measure_good(w->bytes, w->count);
    return sum;
}

size_t read_proved(struct work *w, size_t times) {
    size_t sum = 0;
    while (times-- > 0) {
        struct read_numbers r = READ(w);
        sum += r.header.message;
    }
    return sum;
}

size_t write_proved(struct work *w, size_t times) {
    size_t sum = 0;
    struct ct_header header;
    memcpy(&header, w->bytes, sizeof header);
    while (times-- > 0)
        sum += measure_write(header, w->bytes + 10, w->count - CT_OVERHEAD, w->out, sizeof w->out).written;
    return sum;
}

/* Goes on after each frame found, as framelist does. */
size_t list_proved(struct work *w, size_t times) {
    size_t frames = 0;
    while (times-- > 0)
        for (size_t at = 0;;) {
            struct nadrelgos_finding f = FIND(w, at);
            if (f.number != NADRELGOS_FOUND) break;
            at += f.start + f.length;
            frames++;
        }
    return frames;
}
