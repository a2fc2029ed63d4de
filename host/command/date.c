/* tackacorn date, days and day: dates with their day counts, how many days it is from one to another, and the way
 * back from counts. */
#include "command.h"

#include <inttypes.h>
#include <string.h>

/* A date's parts, with an hour of 0 where it has none, and its day count. */
struct date {
    uint32_t year;
    uint32_t month;
    uint32_t day;
    uint32_t hour;
    uint32_t days;
};

/* Reads a scalar as a date with its count, and answers why it is refused. */
static uint32_t read_date(struct date *read, const char *word) {
    const uint32_t refusal = tackacorn_to_date((const uint8_t *)word, strlen(word), &read->year, &read->month, &read->day, &read->hour);
    return refusal == TACKACORN_OK ? tackacorn_to_days(read->year, read->month, read->day, &read->days) : refusal;
}

/* Says the parts of one date and its count. */
static enum status tell_date(const char *word, const struct call *call) {
    struct date read;
    const uint32_t refusal = read_date(&read, word);
    if (refusal != TACKACORN_OK) {
        return refuse_scalar(word, refusal, call);
    }
    printf("%" PRIu32 " %" PRIu32 " %" PRIu32 " %" PRIu32 " %" PRIu32 "\n", read.year, read.month, read.day, read.hour, read.days);
    return STATUS_WELL;
}

/* Reads a day count, digits and nothing else: a plus, which the reading takes, is none here. Digits too many for a
 * uint32_t, or for the reading, are past the last day, as the largest count is that a uint32_t holds. */
static uint32_t read_count(uint32_t *count, const char *word) {
    uint64_t value = 0;
    const uint32_t refusal = word[0] == '+' ? TACKACORN_ALL_DIGITS : tackacorn_to_u64((const uint8_t *)word, strlen(word), &value);
    if (refusal == TACKACORN_ALL_DIGITS) {
        return refusal;
    }
    *count = refusal == TACKACORN_OVERFLOW || value > UINT32_MAX ? UINT32_MAX : (uint32_t)value;
    return TACKACORN_OK;
}

/* Says the date of one count. */
static enum status tell_day(const char *word, const struct call *call) {
    struct date found;
    uint32_t refusal = read_count(&found.days, word);
    if (refusal == TACKACORN_OK) {
        refusal = tackacorn_from_days(found.days, &found.year, &found.month, &found.day);
    }
    if (refusal != TACKACORN_OK) {
        return refuse_scalar(word, refusal, call);
    }
    printf("%" PRIu32 ".%" PRIu32 ".%" PRIu32 "\n", found.year, found.month, found.day);
    return STATUS_WELL;
}

/* Reads every scalar that is given as a date. */
enum status date(const struct call *call) {
    return each_word(call, tell_date);
}

/* Says how many days it is from one date to another, in a type with a sign: the second may be the earlier. Both are
 * read, so that each that is refused has its line; with --numbers both have one then, since a line does not name its
 * word. */
enum status days(const struct call *call) {
    struct date from, to;
    const uint32_t refusals[2] = {read_date(&from, call->words[0]), read_date(&to, call->words[1])};
    if (refusals[0] == TACKACORN_OK && refusals[1] == TACKACORN_OK) {
        printf("%" PRId64 "\n", (int64_t)to.days - (int64_t)from.days);
        return STATUS_WELL;
    }
    for (size_t i = 0; i < 2; i++) {
        if (refusals[i] != TACKACORN_OK || call->numbers) {
            refuse_scalar(call->words[i], refusals[i], call);
        }
    }
    return STATUS_REFUSED;
}

/* Says the date of every count that is given. */
enum status day(const struct call *call) {
    return each_word(call, tell_day);
}
