/* Changes one order's amount and one leader's name in a save, and writes the save back: the way there and back.
 *
 *   cc -o edit_order edit_order.c $(pkg-config --cflags --libs tackacorn)
 *   ./edit_order ORDER AMOUNT LEADER NAME < save.txt > edited.txt
 *
 * An order is a top-level 'order={ id=ORDER amount=.. .. }', a leader a 'leader={ id=LEADER name=".." .. }'. Where
 * anything is not as it should be, nothing is written, and the status is not 0: a sheet that was edited in the wrong
 * place is as sound as any, so the library cannot tell. */
#include <stdbool.h>
#include <stdio.h>
#include <stdlib.h>
#include <string.h>
#include <tackacorn.h>

/* A text, and the sheet whose views lie in it. */
struct sheet {
    uint8_t *text;
    size_t length;
    uint32_t *words;
    size_t word_count;
    uint32_t count;
};

/* A scalar, by its token, and the bytes that it is to have. */
struct edit {
    uint32_t index;
    const char *bytes;
};

/* Says why nothing is written. */
static int refuse(const char *why) {
    fprintf(stderr, "edit_order: %s\n", why);
    return 1;
}

/* Reads at most one byte over the limit, which tells a file that is too long. */
static bool read_all(struct sheet *save) {
    save->text = malloc((size_t)TACKACORN_TEXT_LIMIT + 1);
    save->length = save->text == NULL ? 0 : fread(save->text, 1, (size_t)TACKACORN_TEXT_LIMIT + 1, stdin);
    return save->text != NULL && !ferror(stdin);
}

/* Whether a byte may stand in a first line like HOI4txt. */
static bool letter_or_digit(uint8_t byte) {
    return (byte >= '0' && byte <= '9') || (byte >= 'A' && byte <= 'Z') || (byte >= 'a' && byte <= 'z');
}

/* How many bytes stand before the save: a BOM, and a line like HOI4txt with its end. The parser must not see that
 * line, and the game wants both back. */
static size_t before(const uint8_t *text, size_t length) {
    const size_t bom = length >= 3 && memcmp(text, "\xef\xbb\xbf", 3) == 0 ? 3 : 0;
    size_t end = bom;
    while (end < length && letter_or_digit(text[end])) {
        end++;
    }
    if (end - bom < 3 || memcmp(text + end - 3, "txt", 3) != 0) {
        return bom;
    }
    end += end < length && text[end] == '\r';
    return end < length && text[end] == '\n' ? end + 1 : bom;
}

/* The words of a token. */
static uint32_t token(const struct sheet *sheet, uint32_t index, uint32_t *a, uint32_t *b) {
    uint32_t code;
    tackacorn_token(sheet->words, sheet->word_count, sheet->count, index, &code, a, b);
    return code;
}

/* The bytes of a token, NULL where it is no scalar. */
static const uint8_t *scalar(const struct sheet *sheet, uint32_t index, size_t *size) {
    size_t offset;
    const uint32_t refusal = tackacorn_view(sheet->text, sheet->length, sheet->words, sheet->word_count,
                                            sheet->count, index, &offset, size);
    return refusal == TACKACORN_OK ? sheet->text + offset : NULL;
}

/* Whether a token is a scalar of these bytes. */
static bool is(const struct sheet *sheet, uint32_t index, const char *bytes) {
    size_t size;
    const uint8_t *found = scalar(sheet, index, &size);
    return found != NULL && size == strlen(bytes) && memcmp(found, bytes, size) == 0;
}

/* The index behind a value: behind its End, where it is a container. */
static uint32_t behind(const struct sheet *sheet, uint32_t value) {
    uint32_t a, b;
    const uint32_t code = token(sheet, value, &a, &b);
    return code == TACKACORN_HEADER                                ? behind(sheet, value + 1)
           : code == TACKACORN_ARRAY || code == TACKACORN_OBJECT ? a + 1
                                                                   : value + 1;
}

/* The value behind a key, and behind the operator if there is one. */
static uint32_t value_of(const struct sheet *sheet, uint32_t key) {
    uint32_t a, b;
    return token(sheet, key + 1, &a, &b) == TACKACORN_OPERATOR ? key + 2 : key + 1;
}

/* Whether a key stands there: none does at the end, nor at a MixedContainer, behind which entries and pairs may stand
 * in any order. */
static bool is_key(const struct sheet *sheet, uint32_t index, uint32_t end) {
    size_t size;
    return index < end && scalar(sheet, index, &size) != NULL;
}

/* Whether a token is a value that can be changed: no container, no Header, no operator. */
static bool is_plain(const struct sheet *sheet, uint32_t index) {
    uint32_t a, b;
    const uint32_t code = token(sheet, index, &a, &b);
    return code == TACKACORN_UNQUOTED || code == TACKACORN_QUOTED || code == TACKACORN_QUOTED_ESCAPE;
}

/* What was found of something: nothing, one, or what must not be taken for one. */
enum found { NOTHING, ONE, UNCLEAR };

/* Looks among the pairs from a token up to another for the value of a key. It is unclear where the key stands twice,
 * where no plain value stands right behind it, or where not all are pairs. */
static enum found find(const struct sheet *sheet, uint32_t from, uint32_t end, const char *key, uint32_t *value) {
    enum found found = NOTHING;
    uint32_t i = from;
    for (; is_key(sheet, i, end); i = behind(sheet, value_of(sheet, i))) {
        if (is(sheet, i, key)) {
            found = found == NOTHING && is_plain(sheet, i + 1) ? ONE : UNCLEAR;
            *value = i + 1;
        }
    }
    return i == end ? found : UNCLEAR;
}

/* Looks for the value of a key in an object, if the object has this id. It is unclear where that is no object, or has
 * the id and not the key: another of this id may have it. */
static enum found find_with_id(const struct sheet *sheet, uint32_t object, const char *id, const char *key,
                               uint32_t *value) {
    uint32_t end, flag, its_id;
    if (token(sheet, object, &end, &flag) != TACKACORN_OBJECT) {
        return UNCLEAR;
    }
    const enum found found = find(sheet, object + 1, end, "id", &its_id);
    if (found != ONE) {
        return found;
    }
    if (!is(sheet, its_id, id)) {
        return NOTHING;
    }
    return find(sheet, object + 1, end, key, value) == ONE ? ONE : UNCLEAR;
}

/* Looks for the value of a key in the top-level object of this name and id. It is unclear where there are two. */
static enum found find_in(const struct sheet *sheet, const char *name, const char *id, const char *key,
                          uint32_t *value) {
    enum found found = NOTHING;
    uint32_t i = 0;
    for (; is_key(sheet, i, sheet->count); i = behind(sheet, value_of(sheet, i))) {
        const enum found here = is(sheet, i, name) ? find_with_id(sheet, i + 1, id, key, value) : NOTHING;
        if (here != NOTHING) {
            found = found == NOTHING ? here : UNCLEAR;
        }
    }
    return i == sheet->count ? found : UNCLEAR;
}

/* The code of a scalar with other bytes: in quotes a backslash has a code of its own. */
static uint32_t code_with(uint32_t code, const char *bytes) {
    if (code != TACKACORN_QUOTED && code != TACKACORN_QUOTED_ESCAPE) {
        return code;
    }
    return strchr(bytes, '\\') == NULL ? TACKACORN_QUOTED : TACKACORN_QUOTED_ESCAPE;
}

/* Copies a token with its bytes to the end of another sheet, which has room for them. Views must rise, and no two
 * begin at the same place: so each is put behind the one before it, and a byte is left between them. */
static void copy(struct sheet *to, const struct sheet *from, uint32_t index, const char *instead) {
    uint32_t *words = to->words + (size_t)TACKACORN_WORDS_PER_TOKEN * index;
    size_t size;
    const uint8_t *bytes = scalar(from, index, &size);
    words[0] = token(from, index, &words[1], &words[2]);
    if (bytes == NULL) { /* no scalar: its words name tokens, and these stay where they are */
        return;
    }
    if (instead != NULL) {
        bytes = (const uint8_t *)instead;
        size = strlen(instead);
        words[0] = code_with(words[0], instead);
    }
    memcpy(to->text + to->length, bytes, size);
    words[1] = (uint32_t)to->length;
    words[2] = (uint32_t)size;
    to->length += size;
    to->text[to->length++] = ' ';
}

/* A sheet with some of its scalars changed, over a text of its own. */
static bool edited(struct sheet *to, const struct sheet *from, const struct edit *edits, size_t edit_count) {
    size_t room = from->length + from->count;
    for (size_t i = 0; i < edit_count; i++) {
        room += strlen(edits[i].bytes);
    }
    *to = *from;
    to->length = 0;
    to->text = malloc(room + 1);
    to->word_count = (size_t)TACKACORN_WORDS_PER_TOKEN * from->count;
    to->words = malloc(to->word_count * sizeof *to->words);
    for (uint32_t i = 0; to->text != NULL && to->words != NULL && i < from->count; i++) {
        const char *instead = NULL;
        for (size_t j = 0; j < edit_count; j++) {
            instead = edits[j].index == i ? edits[j].bytes : instead;
        }
        copy(to, from, i, instead);
    }
    return to->text != NULL && to->words != NULL;
}

/* Parses a save, or says why not. */
static bool parse(struct sheet *save) {
    uint32_t bom;
    size_t place;
    save->word_count = TACKACORN_WORDS_FOR(save->length); /* enough for any text; a word a byte is for most, half for many */
    save->words = malloc(save->word_count * sizeof *save->words);
    if (save->words == NULL) {
        refuse("no memory for the tape");
        return false;
    }
    const uint32_t refusal =
        tackacorn_parse(save->text, save->length, save->words, save->word_count, &save->count, &bom, &place);
    if (refusal != TACKACORN_OK) {
        refuse(tackacorn_refusal_text(refusal));
    }
    return refusal == TACKACORN_OK;
}

/* Writes a text behind what stood before the save. */
static int print(const uint8_t *head, size_t head_length, const uint8_t *text, size_t length) {
    const bool whole = fwrite(head, 1, head_length, stdout) == head_length
                       && fwrite(text, 1, length, stdout) == length && fflush(stdout) == 0;
    return whole ? 0 : refuse("standard output cannot be written");
}

/* Writes a sheet, behind what stood before the save, or says why not. Both buffers are enough for any sheet. */
static int write_sheet(const struct sheet *sheet, const uint8_t *head, size_t head_length) {
    const size_t room = TACKACORN_BYTES_FOR(sheet->length, sheet->count);
    uint8_t *out = malloc(room + 1);
    uint32_t *scratch = malloc((sheet->word_count + 1) * sizeof *scratch);
    int status;
    if (out == NULL || scratch == NULL) {
        status = refuse("no memory for the text to write");
    } else {
        size_t written;
        const uint32_t refusal = tackacorn_write(sheet->text, sheet->length, sheet->words, sheet->word_count,
                                                 sheet->count, out, room, scratch, sheet->word_count, &written);
        status = refusal == TACKACORN_OK ? print(head, head_length, out, written)
                                         : refuse(tackacorn_refusal_text(refusal));
    }
    free(scratch);
    free(out);
    return status;
}

/* Makes two changes in a save that parsed, asks whether the sheet is still sound, and writes it. */
static int change(const struct sheet *save, const struct edit edits[2], const uint8_t *head, size_t head_length) {
    struct sheet changed;
    int status;
    if (!edited(&changed, save, edits, 2)) {
        status = refuse("no memory for the edited sheet");
    } else if (!tackacorn_check(changed.length, changed.words, changed.word_count, changed.count)) {
        status = refuse("the edited sheet is not sound: is a value empty?");
    } else {
        status = write_sheet(&changed, head, head_length);
    }
    free(changed.words);
    free(changed.text);
    return status;
}

/* Finds what is to be changed in a save that parsed, and changes it, or says why not. */
static int edit(const struct sheet *save, char **words, const uint8_t *head, size_t head_length) {
    struct edit edits[] = {{0, words[1]}, {0, words[3]}};
    const enum found amount = find_in(save, "order", words[0], "amount", &edits[0].index);
    const enum found name = find_in(save, "leader", words[2], "name", &edits[1].index);
    if (amount == UNCLEAR || name == UNCLEAR) {
        return refuse("what to change stands twice, or an order or a leader has another form");
    }
    if (amount == NOTHING || name == NOTHING) {
        return refuse("no such order, or no such leader");
    }
    return change(save, edits, head, head_length);
}

/* Edits a save that was read, whose first bytes may be no part of it. */
static int edit_file(const struct sheet *file, char **words) {
    const size_t head_length = before(file->text, file->length);
    struct sheet save = {.text = file->text + head_length, .length = file->length - head_length};
    const int status = parse(&save) ? edit(&save, words, file->text, head_length) : 1;
    free(save.words);
    return status;
}

int main(int argc, char **argv) {
    struct sheet file = {0};
    int status;
    if (argc != 5) {
        return refuse("ORDER AMOUNT LEADER NAME are wanted");
    }
    if (!read_all(&file)) {
        status = refuse("no memory, or standard input cannot be read");
    } else if (file.length > TACKACORN_TEXT_LIMIT) { /* and the end of it was not read */
        status = refuse(tackacorn_refusal_text(TACKACORN_TOO_LONG));
    } else {
        status = edit_file(&file, argv + 1);
    }
    free(file.text);
    return status;
}
