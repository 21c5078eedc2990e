#define _POSIX_C_SOURCE 200809L
#include "notes.h"

#include <unistd.h>

static void take(struct notes *notes, char character, void (*say)(const char *line)) {
    if (character != '\n') {
        if (notes->count < NOTES_MOST - 1) notes->text[notes->count++] = character;
        return;
    }
    notes->text[notes->count] = '\0';
    notes->count = 0;
    say(notes->text);
}

bool notes_read(struct notes *notes, void (*say)(const char *line)) {
    char read_in[256];
    ssize_t count = read(notes->fd, read_in, sizeof read_in);
    for (ssize_t i = 0; i < count; i++) take(notes, read_in[i], say);
    return count > 0;
}
