/* The line from the boards to the panel: one transmission at a time, at the line's pace, and noise. */
#ifndef LINE_H
#define LINE_H

#include "wire.h"

/* The most noise around a frame, and by itself. */
enum { NOISE_AROUND = 250, NOISE_MOST = 4096 };

/* Room for a transmission. */
enum { LINE_ROOM = WIRE_MOST + 2 * NOISE_AROUND };

struct line {
    int terminal;             /* where the bytes go */
    uint64_t byte_time;       /* ten bits */
    uint64_t chance;          /* the noise's numbers */
    uint8_t bytes[LINE_ROOM]; /* the transmission */
    size_t count, sent;
    size_t noise;             /* so many of the next bytes are noise, over what is sent then */
    size_t piece;             /* the bytes that go out together */
    uint64_t due;             /* when these have gone over the line */
    uint64_t free;            /* when a board may begin: the bus delay after the last transmission */
};

void line_start(struct line *line, int terminal, unsigned baud, uint64_t seed);

bool line_is_busy(const struct line *line);

/* When the next piece goes out; never, on a free line. */
uint64_t line_due(const struct line *line);

/* Begins a transmission on a free line: at most LINE_ROOM bytes. */
void line_begin(struct line *line, const uint8_t *bytes, size_t count, uint64_t at);

/* Noise from now on: over the transmission, where there is one. */
void line_disturb(struct line *line, size_t count, uint64_t at);

/* The rest of the transmission is not sent. */
void line_cut(struct line *line);

/* The piece that is due goes out. What the terminal does not take is lost. */
void line_go(struct line *line);

#endif
