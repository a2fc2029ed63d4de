/* Reads a save and parses it. */
#include "command.h"

#include <stdlib.h>
#include <string.h>

/* Whether a byte may stand in a first line like HOI4txt. */
static bool letter_or_digit(uint8_t byte) {
    return (byte >= '0' && byte <= '9') || (byte >= 'A' && byte <= 'Z') || (byte >= 'a' && byte <= 'z');
}

/* Writes spaces over a first line of letters and digits that ends in 'txt', behind a BOM if there is one. The
 * parser passes over spaces, and every line, column and offset stays the file's. */
static void skip_first_line(struct save *save) {
    const size_t begin = save->length >= 3 && memcmp(save->text, "\xef\xbb\xbf", 3) == 0 ? 3 : 0;
    size_t end = begin;
    while (end < save->length && letter_or_digit(save->text[end])) {
        end++;
    }
    if (end - begin < 3 || memcmp(save->text + end - 3, "txt", 3) != 0) {
        return;
    }
    const size_t feed = end < save->length && save->text[end] == '\r' ? end + 1 : end;
    if (feed < save->length && save->text[feed] == '\n') {
        memset(save->text + begin, ' ', end - begin);
    }
}

/* Parses onto a tape of so many words, which takes the place of the last one. */
static enum status parse_onto(struct save *save, size_t words) {
    free(save->words);
    save->words = words > SIZE_MAX / sizeof *save->words ? NULL : malloc(words * sizeof *save->words);
    if (save->words == NULL) {
        return complain(save->name, "no memory for the tape");
    }
    save->word_count = words;
    save->refusal = tackacorn_parse(save->text, save->length, save->words, save->word_count, &save->count,
                                    &save->bom, &save->place);
    return save->refusal == TACKACORN_OK ? STATUS_WELL : STATUS_REFUSED;
}

/* Parses a text. Half a word for each byte is room enough for many saves, a word for most, and the last for any. The
 * token more is for the smallest texts. */
static enum status parse(struct save *save) {
    const size_t rooms[] = {
        save->length / 2 + TACKACORN_WORDS_PER_TOKEN,
        save->length + TACKACORN_WORDS_PER_TOKEN,
        TACKACORN_WORDS_FOR(save->length),
    };
    enum status status = STATUS_REFUSED;
    for (size_t i = 0; i < sizeof rooms / sizeof *rooms; i++) {
        status = parse_onto(save, rooms[i]);
        if (status != STATUS_REFUSED || save->refusal != TACKACORN_FULL) {
            break;
        }
    }
    return status;
}

/* Reads a save and parses it. STATUS_SYSTEM was said; STATUS_REFUSED is for the caller to say. */
enum status load(struct save *save, const char *file, const struct call *call) {
    struct input input;
    const enum status status = read_input(&input, file, TACKACORN_TEXT_LIMIT, "no memory for the text");
    *save = (struct save){.name = input.name, .text = input.bytes, .length = input.length};
    if (status != STATUS_WELL) {
        return status;
    }
    if (save->length > TACKACORN_TEXT_LIMIT) {
        save->refusal = TACKACORN_TOO_LONG;
        return STATUS_REFUSED;
    }
    if (!call->raw) {
        skip_first_line(save);
    }
    return parse(save);
}

/* Gives a save's memory back. */
void drop(struct save *save) {
    free(save->words);
    free(save->text);
}

/* The words of a token, zeros where there is none. */
struct token token_at(const struct save *save, size_t index) {
    struct token token;
    tackacorn_token(save->words, save->word_count, save->count, index, &token.code, &token.a, &token.b);
    return token;
}
