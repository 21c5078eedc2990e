/* Messages inside messages. Unwrapped: frames of every depth, length, type and subnet, damaged ones and any bytes.
   Wrapped: depths up to the highest number, every length and room, and every byte of header and levels. */
#ifndef INSIDE_H
#define INSIDE_H

void unwraps_every_depth(void);
void unwraps_every_length_byte(void);
void unwraps_cut_and_lengthened(void);
void unwraps_every_type(void);
void unwraps_every_subnet(void);
void unwraps_damaged(void);
void unwraps_any_bytes(void);
void wraps_every_depth(void);
void wraps_into_every_room(void);
void wraps_every_byte(void);

#endif
