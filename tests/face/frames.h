/* Frames of any kind in every stage of the exchange by which a board joins, its responses in every other, and a frame of
   every subnet in every stage. */
#ifndef FRAMES_H
#define FRAMES_H

void frames_in_the_exchange(void);
void frames_out_of_the_exchange(void);
void frames_of_every_subnet(void);

#endif
