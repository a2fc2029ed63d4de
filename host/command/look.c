/* tackacorn look: the tokens of a save, as the program `dump` prints them. */
#include "command.h"

#include <inttypes.h>

/* A token's name by its code, as the program `dump` prints it, and no letter for a code that no token has. */
const char *name_of(uint32_t code) {
    static const char *const names[] = {
        "",       "Array",     "Object",             "MixedContainer", "Unquoted",
        "Quoted", "Parameter", "UndefinedParameter", "Operator",       "End",
        "Header", "QuotedEscape",
    };
    return code < sizeof names / sizeof names[0] ? names[code] : "";
}

/* Prints a line for each token, until nobody takes them any more. */
void print_tokens(const struct save *save) {
    for (uint32_t i = 0; i < save->count && !ferror(stdout); i++) {
        const struct token token = token_at(save, i);
        printf("%" PRIu32 " %s %" PRIu32 " %" PRIu32 "\n", i, name_of(token.code), token.a, token.b);
    }
}

/* Prints the tokens of one save, or why it is refused. */
enum status look(const struct call *call) {
    struct save save;
    const enum status status = load(&save, call->count == 0 ? "-" : call->words[0], call);
    if (status == STATUS_WELL) {
        printf("tokens %" PRIu32 " bom %" PRIu32 "\n", save.count, save.bom);
        print_tokens(&save);
    } else if (status == STATUS_REFUSED) {
        tell_refusal(&save, call);
    }
    drop(&save);
    return status;
}
