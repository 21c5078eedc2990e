/* The frames on their way to the panel, in their order. */
#ifndef LINE_H
#define LINE_H

#include "wire.h"

/* no message of the panel is answered by more frames than these */
enum { LINE_FRAMES = 4 };

struct line {
    struct {
        uint8_t bytes[WIRE_MOST];
        size_t count;
    } frames[LINE_FRAMES];
    unsigned first, last; /* those from `first` to before `last` are on their way */
};

/* Puts bytes on the line. */
void line_put(struct line *line, const uint8_t *bytes, size_t count);

/* The next of them, at most `room` bytes. Its count, or 0 where none is on its way. */
size_t line_take(struct line *line, uint8_t *bytes, size_t room);

bool line_is_empty(const struct line *line);

#endif
