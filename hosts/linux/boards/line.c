#define _GNU_SOURCE

#include "line.h"

#include "chance.h"
#include "pace.h"

#include <string.h>
#include <unistd.h>

enum { BITS_A_BYTE = 10, PIECE_MOST = 16 };

void line_start(struct line *line, int terminal, unsigned baud, uint64_t seed) {
    memset(line, 0, sizeof *line);
    line->terminal = terminal;
    line->byte_time = (uint64_t)BITS_A_BYTE * SECOND / baud;
    line->chance = chance_start(seed, 0);
}

/* The bytes still to go out. */
static size_t left_of(const struct line *line) {
    size_t left = line->count - line->sent;
    return left > line->noise ? left : line->noise;
}

bool line_is_busy(const struct line *line) {
    return line->piece > 0;
}

uint64_t line_due(const struct line *line) {
    return line_is_busy(line) ? line->due : NEVER;
}

/* The next piece is on its way from then on; where there is none, the line is free. */
static void next_piece(struct line *line, uint64_t at) {
    size_t left = left_of(line);
    line->piece = left < PIECE_MOST ? left : PIECE_MOST;
    line->due = at + line->piece * line->byte_time;
    if (line->piece == 0) line->free = at + BUS_DELAY;
}

void line_begin(struct line *line, const uint8_t *bytes, size_t count, uint64_t at) {
    memcpy(line->bytes, bytes, count);
    line->count = count;
    line->sent = 0;
    next_piece(line, at);
}

void line_disturb(struct line *line, size_t count, uint64_t at) {
    line->noise += count;
    if (!line_is_busy(line)) next_piece(line, at);
}

void line_cut(struct line *line) {
    line->count = line->sent;
}

/* The next byte: noise, or the transmission's, which is lost where both are on the line. */
static uint8_t next_byte(struct line *line) {
    uint8_t byte = line->sent < line->count ? line->bytes[line->sent] : 0;
    if (line->sent < line->count) line->sent++;
    if (line->noise == 0) return byte;
    line->noise--;
    return (uint8_t)chance_draw(&line->chance);
}

void line_go(struct line *line) {
    uint8_t bytes[PIECE_MOST];
    size_t count = 0;
    while (count < line->piece && left_of(line) > 0) bytes[count++] = next_byte(line);
    ssize_t taken = count > 0 ? write(line->terminal, bytes, count) : 0;
    (void)taken; /* a wire does not know either who listens */
    next_piece(line, line->due);
}
