/* What the command says besides its answers: refusals in words, complaints about the system. Each is one line
 * of standard error, whatever bytes a file's name or a scalar has. And how it goes over several words. */
#include "command.h"

#include <errno.h>
#include <inttypes.h>
#include <string.h>

/* The worse of two ends. */
enum status worse(enum status one, enum status other) {
    return one > other ? one : other;
}

/* Does the same with every word of a call, and ends as the worst of them. */
enum status each_word(const struct call *call, enum status (*with)(const char *word, const struct call *call)) {
    enum status status = STATUS_WELL;
    for (size_t i = 0; i < call->count; i++) {
        status = worse(status, with(call->words[i], call));
    }
    return status;
}

/* Writes bytes as they stand, but for control bytes, which could break or forge a line: \x0a for a LF. */
void show(FILE *out, const uint8_t *bytes, size_t length) {
    for (size_t i = 0; i < length; i++) {
        if (bytes[i] < 0x20 || bytes[i] == 0x7f) {
            fprintf(out, "\\x%02x", (unsigned)bytes[i]);
        } else {
            putc(bytes[i], out);
        }
    }
}

/* Writes a file's name, or another word of the call. */
void show_name(FILE *out, const char *name) {
    show(out, (const uint8_t *)name, strlen(name));
}

/* Says what the system refused, behind what was already answered. */
enum status complain(const char *name, const char *what) {
    fflush(stdout);
    fputs("tackacorn: ", stderr);
    show_name(stderr, name);
    fprintf(stderr, ": %s\n", what);
    return STATUS_SYSTEM;
}

/* Makes sure that what was answered has been written: where not, nobody may take it for the whole. */
enum status finish(enum status status) {
    errno = 0;
    if (fflush(stdout) == 0 && !ferror(stdout)) {
        return status;
    }
    return complain("standard output", errno != 0 ? strerror(errno) : "not everything could be written");
}

/* Whether a refusal has a place to point at, and which: the end of the text where it ends too early, and
 * the operator itself where the place is told as one before it. */
static bool place_shown(const struct save *save, size_t *place) {
    switch (save->refusal) {
    case TACKACORN_EOF: *place = save->length; return true;
    case TACKACORN_NOTHING_PRECEDES:
    case TACKACORN_UNKNOWN_OPERATOR: *place = save->place + 1; return true;
    case TACKACORN_STACK_EMPTY:
    case TACKACORN_NO_HEADER:
    case TACKACORN_NO_VALUE:
    case TACKACORN_MIXED_PARAMETER:
    case TACKACORN_NO_PARAMETER:
    case TACKACORN_OPEN_NAME: *place = save->place; return true;
    default: return false; /* too long, and all that is no fault of the text */
    }
}

/* Writes the line and the column of a place, both from 1. A column is a byte; a BOM has none. */
static void show_place(FILE *out, const struct save *save, size_t place) {
    size_t line = 1, begin = save->length >= 3 && memcmp(save->text, "\xef\xbb\xbf", 3) == 0 ? 3 : 0;
    for (size_t i = 0; i < place; i++) {
        if (save->text[i] == '\n') {
            line++;
            begin = i + 1;
        }
    }
    fprintf(out, ":%zu:%zu", line, place < begin ? 1 : place - begin + 1);
}

/* Says why a save, a sheet file or a scalar is refused: "fleet.txt:12:7: refusal 5: a '}' where a value is due". */
static void tell_words(const struct save *save) {
    size_t place;
    fflush(stdout);
    show_name(stderr, save->name);
    if (place_shown(save, &place)) {
        show_place(stderr, save, place);
    }
    fprintf(stderr, ": refusal %" PRIu32 ": %s\n", save->refusal, tackacorn_refusal_text(save->refusal));
}

/* Says why a save, a sheet file or a scalar is refused, in words on standard error, or with --numbers as the program
 * `dump` does. */
void tell_refusal(const struct save *save, const struct call *call) {
    if (call->numbers) {
        printf("refused %" PRIu32 " %zu\n", save->refusal, save->place);
    } else {
        tell_words(save);
    }
}

/* Says why a scalar is refused, as of a save, but that a scalar has no place to point at. With --numbers it may be told
 * of one that is not, as 0 and 0. */
enum status refuse_scalar(const char *word, uint32_t refusal, const struct call *call) {
    const struct save refused = {.name = *word == '\0' ? "an empty scalar" : word, .refusal = refusal};
    tell_refusal(&refused, call);
    return STATUS_REFUSED;
}
