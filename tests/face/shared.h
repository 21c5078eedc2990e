/* Shared data: images of many sizes, every sector in images of every kind, records of every length, every length byte
   in every slot, rooms of every size, stores one after another, any bytes. */
#ifndef SHARED_H
#define SHARED_H

void shares_images_of_every_size(void);
void shares_every_sector(void);
void stores_every_length(void);
void shares_every_length_byte(void);
void answers_into_every_room(void);
void stores_one_after_another(void);
void shares_any_bytes(void);

#endif
