/*
 * What is seen of the panel. The calls of the loop (tell.h) and what happens beside them become events, which are
 * counted and shown: on a screen, as lines of text or as lines of JSON.
 */
#ifndef WATCH_H
#define WATCH_H

#include "options.h"
#include "pace.h"
#include "panel.h"

void watch_begin(const struct options *options, const struct panel *panel, const struct pace *pace);

/* The device is lost; it is open again; bytes were in no frame; no more is captured; somebody says something. */
void watch_lost(const char *why);
void watch_opened(void);
void watch_noise(size_t count);
void watch_capture_ended(const char *why);
void watch_note(const char *line);

/* When what is shown is to be seen to again, on the line's clock; and seeing to it. */
uint64_t watch_due(void);
void watch_refresh(void);

/* The end: tells the counts, and ends the program with this status. */
_Noreturn void watch_end(int status);

#endif
