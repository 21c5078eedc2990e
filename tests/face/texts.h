/* Texts and faults for the display: payloads of every length, every length byte, every text byte, rooms of every size. */
#ifndef TEXTS_H
#define TEXTS_H

void reads_every_length(void);
void reads_every_byte(void);
void reads_any_bytes(void);
void writes_every_length(void);
void writes_into_every_room(void);
void knows_the_reply(void);

#endif
