/* Reads a file whole, or standard input. */
#include "command.h"

#include <errno.h>
#include <stdlib.h>
#include <string.h>

/* Makes room for more of the bytes: twice as much, up to so many. */
static bool grow(struct input *input, size_t *room, size_t most) {
    const size_t wanted = *room == 0 ? 65536 : *room > most / 2 ? most : 2 * *room;
    uint8_t *moved = realloc(input->bytes, wanted);
    if (moved == NULL) {
        return false;
    }
    input->bytes = moved;
    *room = wanted;
    return true;
}

/* Reads to the end, or to one byte over the limit. */
static enum status read_whole(FILE *from, struct input *input, size_t limit, const char *no_memory) {
    size_t room = 0;
    while (input->length <= limit) {
        if (input->length == room && !grow(input, &room, limit + 1)) {
            return complain(input->name, no_memory);
        }
        size_t got = fread(input->bytes + input->length, 1, room - input->length, from);
        input->length += got;
        if (got == 0) {
            return ferror(from) ? complain(input->name, strerror(errno)) : STATUS_WELL;
        }
    }
    return STATUS_WELL;
}

/* Reads a file, or standard input for '-'. Of one over the limit it reads a byte too much, which tells. */
enum status read_input(struct input *input, const char *file, size_t limit, const char *no_memory) {
    *input = (struct input){.name = file};
    if (strcmp(file, "-") == 0) {
        input->name = "standard input";
        return read_whole(stdin, input, limit, no_memory);
    }
    FILE *from = fopen(file, "rb");
    if (from == NULL) {
        return complain(file, strerror(errno));
    }
    const enum status status = read_whole(from, input, limit, no_memory);
    fclose(from);
    return status;
}
