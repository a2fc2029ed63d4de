/* Reads a sheet file. */
#include "command.h"

#include <stdlib.h>

/* The most bytes that the sheet file of a save has. A sound one from elsewhere may have more, but none is owed the
 * memory for them. */
#define SHEET_LIMIT TACKACORN_FILE_BYTES_FOR(TACKACORN_WORDS_FOR(TACKACORN_TEXT_LIMIT) / TACKACORN_WORDS_PER_TOKEN)

/* Reads the sheet out of a file's bytes. The words are not none, since a pointer to no words must be one, too. */
static enum status unpack_bytes(struct save *sheet, const struct input *input) {
    sheet->word_count = TACKACORN_FILE_WORDS_FOR(input->length) + 1;
    sheet->words = malloc(sheet->word_count * sizeof *sheet->words);
    if (sheet->words == NULL) {
        return complain(sheet->name, "no memory for the tape");
    }
    sheet->refusal = tackacorn_sheet_read(input->bytes, input->length, sheet->words, sheet->word_count, &sheet->length,
                                          &sheet->count);
    return sheet->refusal == TACKACORN_OK ? STATUS_WELL : STATUS_REFUSED;
}

/* Reads a sheet file. STATUS_SYSTEM was said; STATUS_REFUSED is for the caller to say. */
enum status load_sheet(struct save *sheet, const char *file) {
    struct input input;
    enum status status = read_input(&input, file, SHEET_LIMIT, "no memory for the sheet file");
    *sheet = (struct save){.name = input.name};
    if (status == STATUS_WELL && input.length > SHEET_LIMIT) {
        status = complain(sheet->name, "more bytes than the sheet file of any save has");
    }
    if (status == STATUS_WELL) {
        status = unpack_bytes(sheet, &input);
    }
    free(input.bytes);
    return status;
}
