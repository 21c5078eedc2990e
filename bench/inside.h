/* Messages inside messages at work: the proved functions, beside the frame's reader and writer. */
#ifndef INSIDE_H
#define INSIDE_H

#include "work.h"

/* Makes the frame that both jobs are timed on, a message in so many levels with 240 bytes of outermost payload, and
   gives its count of bytes. */
size_t make_inside(size_t depth, uint8_t *frame);

job unwrap_proved, wrap_proved;

#endif
