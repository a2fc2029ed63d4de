/* Prints every scalar of a save with its kind, a line each: the calls from C.
 *
 *   cc -c scalars.c $(pkg-config --cflags tackacorn)
 *   cc -o scalars scalars.o $(pkg-config --libs tackacorn)
 *   ./scalars < save.txt */
#include <stdio.h>
#include <stdlib.h>
#include <tackacorn.h>

/* Reads at most one byte over the limit, so that a text that is too long is refused as such. */
static uint8_t *read_all(size_t *length) {
    uint8_t *text = malloc((size_t)TACKACORN_TEXT_LIMIT + 1);
    *length = text == NULL ? 0 : fread(text, 1, (size_t)TACKACORN_TEXT_LIMIT + 1, stdin);
    return ferror(stdin) ? NULL : text;
}

/* What a token is called: a quoted scalar as such, another by its kind. */
static const char *name(uint32_t code, const uint8_t *bytes, size_t size) {
    static const char *const kinds[] = {"", "Bool", "Whole", "Decimal", "Name"};
    return code == TACKACORN_QUOTED          ? "Quoted"
           : code == TACKACORN_QUOTED_ESCAPE ? "QuotedEscape"
                                             : kinds[tackacorn_kind(bytes, size)];
}

/* Prints a token if it is a scalar. */
static void print_scalar(const uint8_t *text, size_t length, const uint32_t *tape, size_t words, uint32_t count, uint32_t i) {
    uint32_t code, a, b;
    size_t offset, size;
    if (tackacorn_view(text, length, tape, words, count, i, &offset, &size) == TACKACORN_OK) {
        tackacorn_token(tape, words, count, i, &code, &a, &b);
        printf("%s ", name(code, text + offset, size));
        fwrite(text + offset, 1, size, stdout);
        putchar('\n');
    }
}

int main(void) {
    size_t length, place;
    uint32_t count, bom;
    uint8_t *text = read_all(&length);
    const size_t words = TACKACORN_WORDS_FOR(length); /* enough for any text; a word a byte is for most, half for many */
    uint32_t *tape = malloc(words * sizeof *tape);
    if (text == NULL || tape == NULL) {
        fputs("no memory, or standard input cannot be read\n", stderr);
        return 3;
    }
    const uint32_t refusal = tackacorn_parse(text, length, tape, words, &count, &bom, &place);
    if (refusal != TACKACORN_OK) {
        fprintf(stderr, "refused at byte %zu: %s\n", place, tackacorn_refusal_text(refusal));
    }
    for (uint32_t i = 0; i < count; i++) { /* count is 0 where the text is refused */
        print_scalar(text, length, tape, words, count, i);
    }
    free(tape);
    free(text);
    return refusal == TACKACORN_OK ? 0 : 1;
}
