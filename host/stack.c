/* Holds the calls to the stack that the header says they take: each runs on a stack that was painted, and what is no
 * longer paint was taken. */
#define _POSIX_C_SOURCE 200809L
#include "tackacorn.h"

#include <pthread.h>
#include <stdio.h>
#include <string.h>

enum {
    PAINT = 0xa5,
    MOST = 2 * 1024,
    MOST_OF_WRITE = 64 * 1024,
    STACK = 4 * MOST_OF_WRITE,
    BYTES = 4 * TACKACORN_LEVEL_LIMIT + 8,
    TOKENS = 3 * TACKACORN_LEVEL_LIMIT + 8,
    WORDS = TACKACORN_WORDS_PER_TOKEN * TOKENS,
    FILE_BYTES = TACKACORN_FILE_HEAD + TACKACORN_FILE_TOKEN * TOKENS
};

static _Alignas(4096) uint8_t stack[STACK];
static uint8_t text[BYTES], out[BYTES], file[FILE_BYTES];
static uintptr_t top;
static uint32_t tape[WORDS], scratch[WORDS], count, answer;
static size_t length, file_length;

/* Makes a text of as many containers in each other as can be written: arrays, objects, or both in turn. */
static void nest(const char *one, const char *other) {
    length = (size_t)snprintf((char *)text, BYTES, "k=");
    for (int i = 0; i < TACKACORN_LEVEL_LIMIT; i++) {
        length += (size_t)snprintf((char *)text + length, BYTES - length, "%s", i % 2 == 0 ? one : other);
    }
    text[length++] = 'b';
    memset(text + length, '}', TACKACORN_LEVEL_LIMIT);
    length += TACKACORN_LEVEL_LIMIT;
}

/* The calls, each with nothing around it. */
static void parse(void) {
    uint32_t bom;
    size_t place;
    answer = tackacorn_parse(text, length, tape, WORDS, &count, &bom, &place);
}
static void check(void) {
    answer = !tackacorn_check(length, tape, WORDS, count);
}
static void view(void) {
    size_t offset, size;
    answer = tackacorn_view(text, length, tape, WORDS, count, 0, &offset, &size);
}
static void read_number(void) {
    double value;
    answer = tackacorn_to_f64((const uint8_t *)"-1844674407370955161.5f", 23, &value);
}
static void read_part(void) {
    int64_t value;
    size_t left;
    answer = tackacorn_to_i64_part((const uint8_t *)"-9223372036854775807.12", 23, &value, &left);
}
static void read_date(void) {
    uint32_t year, month, day, hour;
    answer = tackacorn_to_date((const uint8_t *)"0000000000000000009999.12.31.24", 31, &year, &month, &day, &hour);
}
static void count_days(void) {
    uint32_t days;
    answer = tackacorn_to_days(9999, 12, 31, &days);
}
static void find_day(void) {
    uint32_t year, month, day;
    answer = tackacorn_from_days(TACKACORN_LAST_DAY, &year, &month, &day);
}
static void read_kind(void) {
    answer = tackacorn_kind((const uint8_t *)"-18446744073709551615", 21) != TACKACORN_NAME;
}
static void write_back(void) {
    size_t written;
    answer = tackacorn_write(text, length, tape, WORDS, count, out, sizeof out, scratch, WORDS, &written);
}
static void write_file(void) {
    answer = tackacorn_sheet_write(length, tape, WORDS, count, file, FILE_BYTES, &file_length);
}
static void read_file(void) {
    size_t text_length;
    uint32_t tokens;
    answer = tackacorn_sheet_read(file, file_length, scratch, WORDS, &text_length, &tokens);
}

/* Notes where the stack of a call begins, and calls it. */
static void *begin(void *call) {
    uint8_t here;
    top = (uintptr_t)&here;
    (*(void (**)(void))call)();
    return NULL;
}

/* How many bytes of stack a call takes, or more than there are where it could not be tried. */
static size_t taken(void (*call)(void)) {
    pthread_t thread;
    pthread_attr_t attributes;
    memset(stack, PAINT, sizeof stack);
    if (pthread_attr_init(&attributes) != 0 || pthread_attr_setstack(&attributes, stack, sizeof stack) != 0
        || pthread_create(&thread, &attributes, begin, &call) != 0 || pthread_join(thread, NULL) != 0) {
        return STACK;
    }
    size_t lowest = 0;
    while (lowest < STACK && stack[lowest] == PAINT) {
        lowest++;
    }
    return (size_t)(top - (uintptr_t)(stack + lowest));
}

/* Tells what a call takes, and whether it answers and takes less than the header says. */
static bool within(const char *name, void (*call)(void), size_t most) {
    const size_t bytes = taken(call);
    printf("stack: %s takes %zu bytes\n", name, bytes);
    return answer == TACKACORN_OK && bytes < most;
}

int main(void) {
    const char *const nested[][2] = {{"{", "{"}, {"{a=", "{a="}, {"{", "{a="}};
    bool well = within("to_f64", read_number, MOST) && within("to_i64_part", read_part, MOST) && within("kind", read_kind, MOST)
                && within("to_date", read_date, MOST) && within("to_days", count_days, MOST) && within("from_days", find_day, MOST);
    for (size_t i = 0; i < sizeof nested / sizeof nested[0]; i++) {
        nest(nested[i][0], nested[i][1]);
        well = well && within("parse", parse, MOST) && within("check", check, MOST) && within("view", view, MOST)
               && within("write", write_back, MOST_OF_WRITE) && within("sheet_write", write_file, MOST)
               && within("sheet_read", read_file, MOST);
    }
    puts(well ? "stack: every call takes less than the header says" : "stack: a call takes more, or is refused");
    return well ? 0 : 1;
}
