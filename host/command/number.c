/* tackacorn number: the number that a scalar begins with, and what is left over behind it. */
#include "command.h"

#include <inttypes.h>
#include <string.h>

/* Says the number, how many bytes are left over, and where some are, these bytes. */
static void tell_part(int64_t value, const uint8_t *rest, size_t left) {
    printf("%" PRId64 " %zu", value, left);
    if (left > 0) {
        putc(' ', stdout);
        show(stdout, rest, left);
    }
    putc('\n', stdout);
}

/* Reads one scalar, or says why it is refused. */
static enum status read_one(const char *word, const struct call *call) {
    const uint8_t *scalar = (const uint8_t *)word;
    const size_t length = strlen(word);
    int64_t value;
    size_t left;
    const uint32_t refusal = tackacorn_to_i64_part(scalar, length, &value, &left);
    if (refusal != TACKACORN_OK) {
        return refuse_scalar(word, refusal, call);
    }
    tell_part(value, scalar + (length - left), left);
    return STATUS_WELL;
}

/* Reads every scalar that is given. */
enum status number(const struct call *call) {
    return each_word(call, read_one);
}
