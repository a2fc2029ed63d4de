/* tackacorn check: whether saves parse, a line for each. */
#include "command.h"

#include <inttypes.h>

/* Says that a save is well: how many tokens it has. */
static void tell_sound(const struct save *save) {
    show_name(stdout, save->name);
    printf(": sound, %" PRIu32 " tokens\n", save->count);
}

/* Says what the parser answered, by its numbers, 0 and 0 where the save is well. */
static void tell_numbers(const struct save *save) {
    printf("refused %" PRIu32 " %zu ", save->refusal, save->place);
    show_name(stdout, save->name);
    putc('\n', stdout);
}

/* Parses one save and asks the sheet check of what was laid down, which is proved to say yes: where it says
 * no, the machine is at fault and not the save. */
static enum status check_one(const char *file, const struct call *call) {
    struct save save;
    enum status status = load(&save, file, call);
    if (status == STATUS_WELL && !tackacorn_check(save.length, save.words, save.word_count, save.count)) {
        status = complain(save.name, "the tape is not sound, which cannot be: do not trust this machine");
    }
    if (status != STATUS_SYSTEM && call->numbers) {
        tell_numbers(&save);
    } else if (status == STATUS_WELL) {
        tell_sound(&save);
    } else if (status == STATUS_REFUSED) {
        tell_refusal(&save, call);
    }
    drop(&save);
    return status;
}

/* Checks every file that is named, or standard input where none is. */
enum status check(const struct call *call) {
    return call->count == 0 ? check_one("-", call) : each_word(call, check_one);
}
