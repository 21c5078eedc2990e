#include "line.h"

#include <string.h>

void line_put(struct line *line, const uint8_t *bytes, size_t count) {
    memcpy(line->frames[line->last % LINE_FRAMES].bytes, bytes, count);
    line->frames[line->last % LINE_FRAMES].count = count;
    line->last++;
}

size_t line_take(struct line *line, uint8_t *bytes, size_t room) {
    if (line_is_empty(line)) return 0;
    size_t count = line->frames[line->first % LINE_FRAMES].count;
    if (count > room) count = room;
    memcpy(bytes, line->frames[line->first % LINE_FRAMES].bytes, count);
    line->first++;
    return count;
}

bool line_is_empty(const struct line *line) {
    return line->first == line->last;
}
