/* tackacorn write: a save's tokens as save text again. */
#include "command.h"

#include <stdlib.h>

/* What is lent to the writer: a buffer for the text, and a scratch to read it back on. */
struct room {
    uint8_t *text;
    size_t length;
    uint32_t *words;
    size_t word_count;
};

/* Makes room for the text of any sheet of these tokens, within the limit. Neither is empty, since a pointer to
 * no bytes must be one, too. */
static bool make_room(struct room *room, const struct save *save) {
    const size_t most = TACKACORN_BYTES_FOR(save->length, save->count) + 1;
    room->length = most < TACKACORN_TEXT_LIMIT ? most : TACKACORN_TEXT_LIMIT;
    room->word_count = TACKACORN_WORDS_PER_TOKEN * ((size_t)save->count + 1);
    room->text = malloc(room->length);
    room->words = malloc(room->word_count * sizeof *room->words);
    return room->text != NULL && room->words != NULL;
}

/* Gives the room back. */
static void drop_room(struct room *room) {
    free(room->words);
    free(room->text);
}

/* Writes the text of a save that parsed, just its bytes, or notes why it is refused. */
static enum status write_text(struct save *save, const struct room *room) {
    size_t written;
    save->refusal = tackacorn_write(save->text, save->length, save->words, save->word_count, save->count,
                                    room->text, room->length, room->words, room->word_count, &written);
    if (save->refusal != TACKACORN_OK) {
        return STATUS_REFUSED;
    }
    fwrite(room->text, 1, written, stdout); /* where that fails, `finish` says so */
    return STATUS_WELL;
}

/* Writes a save that parsed, in room of its own. */
static enum status write_save(struct save *save) {
    struct room room;
    const enum status status =
        make_room(&room, save) ? write_text(save, &room) : complain(save->name, "no memory for the text to write");
    drop_room(&room);
    return status;
}

/* Writes one save as text on standard output, or says why it is refused: by the parser, or by the writer. */
enum status write_back(const struct call *call) {
    struct save save;
    enum status status = load(&save, call->count == 0 ? "-" : call->words[0], call);
    if (status == STATUS_WELL) {
        status = write_save(&save);
    }
    if (status == STATUS_REFUSED) {
        tell_refusal(&save, call);
    }
    drop(&save);
    return status;
}
