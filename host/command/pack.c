/* tackacorn pack: a save's tokens as a sheet file. */
#include "command.h"

#include <stdlib.h>

/* Writes the sheet file of a save that parsed, just its bytes. A refusal is noted, though none can come: what a parse
 * leaves is sound, the text is within the limit, and there is room. */
static enum status pack_save(struct save *save) {
    const size_t room = TACKACORN_FILE_BYTES_FOR(save->count);
    uint8_t *file = malloc(room);
    size_t written;
    if (file == NULL) {
        return complain(save->name, "no memory for the sheet file");
    }
    save->refusal = tackacorn_sheet_write(save->length, save->words, save->word_count, save->count, file, room, &written);
    if (save->refusal == TACKACORN_OK) {
        fwrite(file, 1, written, stdout); /* where that fails, `finish` says so */
    }
    free(file);
    return save->refusal == TACKACORN_OK ? STATUS_WELL : STATUS_REFUSED;
}

/* Writes one save's sheet file on standard output, or says why the save is refused. */
enum status pack(const struct call *call) {
    struct save save;
    enum status status = load(&save, call->count == 0 ? "-" : call->words[0], call);
    if (status == STATUS_WELL) {
        status = pack_save(&save);
    }
    if (status == STATUS_REFUSED) {
        tell_refusal(&save, call);
    }
    drop(&save);
    return status;
}
