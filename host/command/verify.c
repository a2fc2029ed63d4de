/* tackacorn verify: whether a sheet file is sound, and whether it is of a text as long as a save. */
#include "command.h"

#include <stdlib.h>
#include <string.h>

/* Says that a save is longer or shorter than the text of the sheet. */
static enum status tell_other_length(const struct save *sheet, const char *save) {
    fflush(stdout);
    show_name(stderr, save);
    fputs(": not of the length that ", stderr);
    show_name(stderr, sheet->name);
    fprintf(stderr, " says, %zu bytes\n", sheet->length);
    return STATUS_REFUSED;
}

/* Holds the length of a save against that of the sheet's text. There is no more to hold it against: the sheet file has
 * nothing of the text's bytes. */
static enum status compare_length(const struct save *sheet, const char *file) {
    struct input save;
    enum status status = read_input(&save, file, TACKACORN_TEXT_LIMIT, "no memory for the text");
    if (status == STATUS_WELL && save.length != sheet->length) {
        status = tell_other_length(sheet, save.name);
    }
    free(save.bytes);
    return status;
}

/* Says that a sheet file is sound, or why it is refused; with a save also whether the lengths agree. */
enum status verify(const struct call *call) {
    const char *save = call->count > 1 ? call->words[1] : NULL;
    if (save != NULL && strcmp(call->words[0], "-") == 0 && strcmp(save, "-") == 0) {
        return wrong_call("-", "standard input cannot be both the sheet and the save");
    }
    struct save sheet;
    enum status status = load_sheet(&sheet, call->words[0]);
    if (status == STATUS_REFUSED) {
        tell_refusal(&sheet, call);
    }
    if (status == STATUS_WELL && save != NULL) {
        status = compare_length(&sheet, save);
    }
    if (status == STATUS_WELL) {
        puts("sound");
    }
    drop(&sheet);
    return status;
}
