/* tackacorn unpack: the tokens of a sheet file. */
#include "command.h"

#include <inttypes.h>

/* Prints the text's length, the count and the tokens of one sheet file, or why it is refused. */
enum status unpack(const struct call *call) {
    struct save sheet;
    const enum status status = load_sheet(&sheet, call->count == 0 ? "-" : call->words[0]);
    if (status == STATUS_WELL) {
        printf("sheet %zu %" PRIu32 "\n", sheet.length, sheet.count);
        print_tokens(&sheet);
    } else if (status == STATUS_REFUSED) {
        tell_refusal(&sheet, call);
    }
    drop(&sheet);
    return status;
}
