/* The wish that the program ends: an interrupt from the keyboard, a hang-up, or kill. */
#ifndef STOP_H
#define STOP_H

/* From now on the wish does not end the program by itself, but makes the descriptor that this gives ready to read, so
   that it waits until the program has time for it. -1 where that cannot be. */
int stop_begin(void);

#endif
