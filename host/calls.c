/* Calls every function of the header once or more from C and tells what answers otherwise than it should:
 * what is proved of the functions says nothing of how C passes their arguments. */
#include "tackacorn.h"

#include <stdio.h>
#include <string.h>

static int wrong;

/* Tells of an answer that is not right. */
static void expect(const char *what, bool right) {
    if (!right) {
        fprintf(stderr, "calls: %s\n", what);
        wrong = 1;
    }
}

/* Words as the bytes that they are. */
static const uint8_t *bytes(const char *words) {
    return (const uint8_t *)words;
}

/* The readings and the kind, both sides of their edges. */
static void readings(void) {
    uint32_t yes = 7;
    uint64_t whole = 7;
    int64_t signed_whole = 7;
    double decimal = 7;
    expect("yes", tackacorn_to_bool(bytes("yes"), 3, &yes) == TACKACORN_OK && yes == 1);
    expect("no", tackacorn_to_bool(bytes("no"), 2, &yes) == TACKACORN_OK && yes == 0);
    expect("ye", tackacorn_to_bool(bytes("yes"), 2, &yes) == TACKACORN_INVALID_BOOL && yes == 0);
    expect("2^64 - 1", tackacorn_to_u64(bytes("18446744073709551615"), 20, &whole) == TACKACORN_OK && whole == UINT64_MAX);
    expect("2^64", tackacorn_to_u64(bytes("18446744073709551616"), 20, &whole) == TACKACORN_OVERFLOW && whole == 0);
    expect("no bytes", tackacorn_to_u64(bytes(""), 0, &whole) == TACKACORN_ALL_DIGITS && whole == 0);
    expect("-45", tackacorn_to_i64(bytes("-45"), 3, &signed_whole) == TACKACORN_OK && signed_whole == -45);
    expect("-4a", tackacorn_to_i64(bytes("-4a"), 3, &signed_whole) == TACKACORN_ALL_DIGITS && signed_whole == 0);
    expect("-1.5", tackacorn_to_f64(bytes("-1.5"), 4, &decimal) == TACKACORN_OK && decimal == -1.5);
    expect("2^53 + 1", tackacorn_to_f64(bytes("9007199254740993"), 16, &decimal) == TACKACORN_PRECISION_LOSS
                           && decimal == 9007199254740992.0);
    expect("109E4", tackacorn_to_f64(bytes("109E4"), 5, &decimal) == TACKACORN_ALL_DIGITS && decimal == 0.0);
    expect("kinds", tackacorn_kind(bytes("no"), 2) == TACKACORN_BOOL && tackacorn_kind(bytes("-3"), 2) == TACKACORN_WHOLE
                        && tackacorn_kind(bytes("0.5"), 3) == TACKACORN_DECIMAL
                        && tackacorn_kind(bytes("1444.11.11"), 10) == TACKACORN_NAME);
    expect("decimals", tackacorn_kind(bytes("10.0f"), 5) == TACKACORN_DECIMAL && tackacorn_kind(bytes("5."), 2) == TACKACORN_DECIMAL
                           && tackacorn_kind(bytes(".5"), 2) == TACKACORN_DECIMAL && tackacorn_kind(bytes("5.f"), 3) == TACKACORN_DECIMAL
                           && tackacorn_kind(bytes("18446744073709551615"), 20) == TACKACORN_DECIMAL);
    expect("names", tackacorn_kind(bytes("109E4"), 5) == TACKACORN_NAME && tackacorn_kind(bytes("+f"), 2) == TACKACORN_NAME
                        && tackacorn_kind(bytes("-.f"), 3) == TACKACORN_NAME && tackacorn_kind(bytes(""), 0) == TACKACORN_NAME
                        && tackacorn_kind(bytes("18446744073709551616"), 20) == TACKACORN_NAME);
}

/* Where the readings answer as the Rust does and a caller may not expect it: each is told in the header. */
static void surprises(void) {
    uint64_t whole = 7;
    int64_t signed_whole = 7;
    double decimal = 7;
    expect("a whole part of 2^64", tackacorn_to_f64(bytes("18446744073709551616.5"), 22, &decimal) == TACKACORN_OK && decimal == 0.5
                                       && tackacorn_to_u64(bytes("18446744073709551616"), 20, &whole) == TACKACORN_OVERFLOW
                                       && tackacorn_kind(bytes("18446744073709551616.5"), 22) == TACKACORN_DECIMAL);
    expect("a lone sign", tackacorn_to_i64(bytes("-"), 1, &signed_whole) == TACKACORN_OK && signed_whole == 0
                              && tackacorn_to_u64(bytes("+"), 1, &whole) == TACKACORN_OK && whole == 0
                              && tackacorn_to_u64(bytes("-"), 1, &whole) == TACKACORN_ALL_DIGITS
                              && tackacorn_to_f64(bytes("+"), 1, &decimal) == TACKACORN_OK && decimal == 0.0
                              && tackacorn_kind(bytes("-"), 1) == TACKACORN_NAME && tackacorn_kind(bytes("+"), 1) == TACKACORN_NAME);
    expect("a lone point", tackacorn_to_f64(bytes("."), 1, &decimal) == TACKACORN_OK && decimal == 0.0
                               && tackacorn_kind(bytes("."), 1) == TACKACORN_NAME);
    expect("a lone f", tackacorn_to_f64(bytes("f"), 1, &decimal) == TACKACORN_ALL_DIGITS
                           && tackacorn_kind(bytes("f"), 1) == TACKACORN_NAME);
    expect("109f", tackacorn_to_f64(bytes("109f"), 4, &decimal) == TACKACORN_OK && decimal == 109.0
                       && tackacorn_kind(bytes("109f"), 4) == TACKACORN_NAME);
    expect("-2^63", tackacorn_to_i64(bytes("-9223372036854775808"), 20, &signed_whole) == TACKACORN_OVERFLOW && signed_whole == 0
                        && tackacorn_to_f64(bytes("-9223372036854775808"), 20, &decimal) == TACKACORN_OVERFLOW && decimal == 0.0
                        && tackacorn_kind(bytes("-9223372036854775808"), 20) == TACKACORN_NAME);
}

/* Whether a scalar begins with this number and has this rest, and is a number as a whole where the rest is empty. */
static bool begins(const char *scalar, int64_t value, const char *rest) {
    const size_t length = strlen(scalar);
    const bool whole = strlen(rest) == 0;
    int64_t number = 7, all = 7;
    size_t left = 7;
    return tackacorn_to_i64_part(bytes(scalar), length, &number, &left) == TACKACORN_OK && number == value
           && left == strlen(rest) && strcmp(scalar + (length - left), rest) == 0
           && tackacorn_to_i64(bytes(scalar), length, &all) == (uint32_t)(whole ? TACKACORN_OK : TACKACORN_ALL_DIGITS)
           && all == (whole ? value : 0);
}

/* Whether a scalar begins with no number, for this reason, which leaves zeros and is that of the whole scalar too. */
static bool begins_with_none(const char *scalar, uint32_t refusal) {
    const size_t length = strlen(scalar);
    int64_t number = 7, all = 7;
    size_t left = 7;
    return tackacorn_to_i64_part(bytes(scalar), length, &number, &left) == refusal && number == 0 && left == 0
           && tackacorn_to_i64(bytes(scalar), length, &all) == refusal && all == 0;
}

/* Digits behind each sign and before each tail: the number by its sign and the tail, or the refusal. */
static void try_digits(const char *digits, uint32_t refusal, int64_t value) {
    static const char *const signs[] = {"", "+", "-"};
    static const char *const tails[] = {"", ".", ".1.12", "x", " ", "-1", "E4"};
    char scalar[64];
    for (size_t i = 0; i < 3 * (sizeof tails / sizeof tails[0]); i++) {
        const char *sign = signs[i % 3], *tail = tails[i / 3];
        snprintf(scalar, sizeof scalar, "%s%s%s", sign, digits, tail);
        expect(scalar, refusal == TACKACORN_OK ? begins(scalar, *sign == '-' ? -value : value, tail) : begins_with_none(scalar, refusal));
    }
}

/* The number that a scalar begins with, both sides of its edges. */
static void leading_numbers(void) {
    int64_t number = 7;
    size_t left = 7;
    try_digits("0", TACKACORN_OK, 0);
    try_digits("12", TACKACORN_OK, 12);
    try_digits("007", TACKACORN_OK, 7);
    try_digits("9223372036854775807", TACKACORN_OK, INT64_MAX);
    try_digits("000000000000000000009223372036854775807", TACKACORN_OK, INT64_MAX);
    try_digits("9223372036854775808", TACKACORN_OVERFLOW, 0);
    try_digits("9999999999999999999", TACKACORN_OVERFLOW, 0);
    try_digits("18446744073709551628", TACKACORN_OVERFLOW, 0); /* 12 in 64 bits */
    try_digits("99999999999999999999", TACKACORN_OVERFLOW, 0);
    expect("no byte of a part", begins_with_none("", TACKACORN_ALL_DIGITS));
    expect("another first byte", begins_with_none(".5", TACKACORN_ALL_DIGITS) && begins_with_none("x12", TACKACORN_ALL_DIGITS)
                                     && begins_with_none(" 12", TACKACORN_ALL_DIGITS) && begins_with_none("/1", TACKACORN_ALL_DIGITS)
                                     && begins_with_none(":1", TACKACORN_ALL_DIGITS) && begins_with_none("\xb1", TACKACORN_ALL_DIGITS));
    expect("a sign without a digit", begins("-", 0, "") && begins("+", 0, "") && begins("-x", 0, "x") && begins("+x", 0, "x")
                                         && begins("-.12", 0, ".12") && begins("--5", 0, "-5") && begins("+-5", 0, "-5"));
    expect("bytes next to the digits", begins("12/", 12, "/") && begins("12:3", 12, ":3"));
    expect("a part of a scalar", tackacorn_to_i64_part(bytes("1936.1.12"), 6, &number, &left) == TACKACORN_OK && number == 1936 && left == 2
                                     && tackacorn_to_i64_part(bytes("1936"), 2, &number, &left) == TACKACORN_OK && number == 19 && left == 0);
}

/* The header's example of a part that is read, to the letter: host/test holds it against the header. */
static bool read_version(const uint8_t *scalar, size_t length, int64_t parts[3]) {
    size_t at = 0;
    for (size_t i = 0; i < 3; i++) {
        size_t left;
        if (i > 0 && (at == length || scalar[at++] != '.')) {
            return false;
        }
        if (at == length || scalar[at] < '0' || scalar[at] > '9') {
            return false;
        }
        if (tackacorn_to_i64_part(scalar + at, length - at, &parts[i], &left) != TACKACORN_OK) {
            return false;
        }
        at = length - left;
    }
    return at == length;
}

/* Versions that the example reads, and what it takes for none. */
static void versions(void) {
    static const char *const none[] = {
        "", ".", "x", "1", "1.", "1.14", "1.14.", "1.14.x", "1.x.2", ".14.2", "1..2", "1.-.2",
        "1.14.-", "1.-14.2", "-1.14.2", "+1.14.2", "1.14.2.", "1.14.2.3", "1.14.2b", "1.14.2 ",
        " 1.14.2", "1.14 .2", "1,14.2", "1.14-2", "9223372036854775808.14.2", "1.14.99999999999999999999",
    };
    int64_t part[3] = {7, 7, 7};
    expect("a version", read_version(bytes("1.14.2"), 6, part) && part[0] == 1 && part[1] == 14 && part[2] == 2);
    expect("a version with zeros", read_version(bytes("0001.014.02"), 11, part) && part[0] == 1 && part[1] == 14 && part[2] == 2);
    expect("a version of the largest", read_version(bytes("9223372036854775807.0.0"), 23, part) && part[0] == INT64_MAX && part[1] == 0
                                           && part[2] == 0);
    for (size_t i = 0; i < sizeof none / sizeof none[0]; i++) {
        expect(none[i], !read_version(bytes(none[i]), strlen(none[i]), part));
    }
}

/* Numbers that a call on dates may write, each with a number on either side that it may not. */
enum { LENT_NUMBERS = 9, STAYS = 7 };

/* Makes all of them such as stay. */
static void lend(uint32_t numbers[LENT_NUMBERS]) {
    for (size_t i = 0; i < LENT_NUMBERS; i++) {
        numbers[i] = STAYS;
    }
}

/* Whether the first count of the lent numbers are those of a date, with its hour, and all others stayed. */
static bool are(const uint32_t numbers[LENT_NUMBERS], size_t count, const uint32_t expected[4]) {
    for (size_t i = 0; i < LENT_NUMBERS; i++) {
        if (numbers[i] != (i % 2 == 1 && i / 2 < count ? expected[i / 2] : (uint32_t)STAYS)) {
            return false;
        }
    }
    return true;
}

/* Whether so many bytes are answered so, as a date, and leave these numbers. */
static bool reads(const char *scalar, size_t length, uint32_t answer, const uint32_t expected[4]) {
    uint32_t to[LENT_NUMBERS];
    lend(to);
    return tackacorn_to_date(bytes(scalar), length, &to[1], &to[3], &to[5], &to[7]) == answer && are(to, 4, expected);
}

/* Whether a date that is put together of numbers is answered so, and leaves this count. */
static bool counts(uint32_t year, uint32_t month, uint32_t day, uint32_t answer, uint32_t days) {
    uint32_t to[LENT_NUMBERS];
    const uint32_t expected[4] = {days};
    lend(to);
    return tackacorn_to_days(year, month, day, &to[1]) == answer && are(to, 1, expected);
}

/* Whether a count is answered so, and leaves this date. */
static bool finds(uint32_t days, uint32_t answer, const uint32_t expected[4]) {
    uint32_t to[LENT_NUMBERS];
    lend(to);
    return tackacorn_from_days(days, &to[1], &to[3], &to[5]) == answer && are(to, 3, expected);
}

static const uint32_t no_date[4];

/* Whether a scalar is no date, for this reason, and leaves zeros. */
static bool no_date_by(const char *scalar, uint32_t refusal) {
    return reads(scalar, strlen(scalar), refusal, no_date);
}

/* Whether numbers are no date, and leave a zero. */
static bool no_day(uint32_t year, uint32_t month, uint32_t day) {
    return counts(year, month, day, TACKACORN_OUT_OF_RANGE, 0);
}

/* Whether a scalar is this date with this count, to which the way back leads. */
static bool is_date(const char *scalar, const uint32_t date[4], uint32_t days) {
    return reads(scalar, strlen(scalar), TACKACORN_OK, date) && counts(date[0], date[1], date[2], TACKACORN_OK, days)
           && finds(days, TACKACORN_OK, date);
}

/* Dates that are read, each with its hour and its count. */
static void dates(void) {
    static const struct {
        const char *scalar;
        uint32_t date[4];
        uint32_t days;
    } table[] = {
        {"1936.1.12", {1936, 1, 12, 0}, 706286},      {"1936.1.12.24", {1936, 1, 12, 24}, 706286},
        {"1939.9.1.12", {1939, 9, 1, 12}, 707613},    {"1.1.1", {1, 1, 1, 0}, 0},
        {"1.1.1.1", {1, 1, 1, 1}, 0},                 {"1.1.1.24", {1, 1, 1, 24}, 0},
        {"1.1.2", {1, 1, 2, 0}, 1},                   {"1.2.28", {1, 2, 28, 0}, 58},
        {"1.3.1", {1, 3, 1, 0}, 59},                  {"4.2.28", {4, 2, 28, 0}, 1153},
        {"4.3.1", {4, 3, 1, 0}, 1154},                {"1.12.31", {1, 12, 31, 0}, 364},
        {"2.1.1", {2, 1, 1, 0}, 365},                 {"9999.1.1", {9999, 1, 1, 0}, 3649270},
        {"9999.12.30", {9999, 12, 30, 0}, 3649633},   {"9999.12.31", {9999, 12, 31, 0}, TACKACORN_LAST_DAY},
        {"9999.12.31.1", {9999, 12, 31, 1}, 3649634}, {"0001.01.01.024", {1, 1, 1, 24}, 0},
        {"00000000000000000000000000001936.000000000000000000001.0000000000000000000000012", {1936, 1, 12, 0}, 706286},
        {"09999.012.031.0000000000000000000000000024", {9999, 12, 31, 24}, 3649634},
    };
    for (size_t i = 0; i < sizeof table / sizeof table[0]; i++) {
        expect(table[i].scalar, is_date(table[i].scalar, table[i].date, table[i].days));
    }
    expect("a part of a scalar that is a date", reads("1936.1.12.24", 9, TACKACORN_OK, table[0].date)
                                                    && reads("1936.1.123", 9, TACKACORN_OK, table[0].date)
                                                    && reads("1.1.1.25", 5, TACKACORN_OK, table[3].date)
                                                    && reads("1.1.1.25", 6, TACKACORN_NOT_A_DATE, no_date)
                                                    && reads("1.1.1.10", 7, TACKACORN_OK, table[4].date));
}

/* Scalars that have not the shape of a date, also where a part before that is out of range. */
static void shapes(void) {
    static const char *const none[] = {
        "", ".", "..", "...", "x", "1936", "1936.", "1936.1", "1.1.", "1..1", ".1.1", "..1", "1.1..1", "1.1.1.", "1.1.1..", "1.1.1..1",
        "1.1.1.1.", "1.1.1.1.1", "-1.1.1", "+1.1.1", "1.-1.1", "1.+1.1", "1.1.-1", "1.1.+1", "1.1.1.-1", "1.1.1.+1", "-.1.1", "1.-.1",
        "1.1.-", "1.1.1.-", " 1.1.1", "1.1.1 ", "1. 1.1", "1.1 .1", "x.1.1", "1.x.1", "1.1.x", "1.1.1.x", "1x.1.1", "1.1x.1", "1.1.1x",
        "1.1.1.1x", "1,1,1", "1.1,1", "1-1-1", "1/1/1", "1:1:1", "1.1.1/", "1.1.1:", "1.1./", "1.1.:", "1.1.1\n", "1.1.\xb1", "\xb1.1.1",
        "1\2561.1", "1e1.1.1", "0x1.1.1", "yes", "\"1.1.1\"", "0.1.x", "10000.1.x", "1.0.x", "1.13.x", "1.13", "0.0", "1.1.32x", "1.2.29.",
        "1.1.0.x", "1.1.1.0x", "1.1.1.25x", "1.1.1.25.", "0.0.0.0.0", "1.1.1.25.1", "-0.0.0", "99999999999999999999.1.x",
        "99999999999999999999", "1.99999999999999999999", "1.99999999999999999999.", "1.1.99999999999999999999x", "1.1.1.99999999999999999999.",
    };
    for (size_t i = 0; i < sizeof none / sizeof none[0]; i++) {
        expect(none[i], no_date_by(none[i], TACKACORN_NOT_A_DATE));
    }
    expect("a zero behind a date", reads("1.1.1", 6, TACKACORN_NOT_A_DATE, no_date) && reads("1.1\0001", 5, TACKACORN_NOT_A_DATE, no_date));
}

/* Scalars that have the shape of a date, with a part that is out of range, also by a number that wraps into it. */
static void ranges(void) {
    static const char *const none[] = {
        "0.1.1", "0000.1.1", "10000.1.1", "010000.1.1", "1.0.1", "1.13.1", "1.1.0", "1.1.32", "1.2.29", "4.2.29", "1936.2.29", "2000.2.29",
        "1.1.1.0", "1.1.1.00", "1.1.1.25", "9999.12.32", "9999.13.1", "0.0.0", "0.0.0.0", "0.1.1.1", "1.2.29.12", "1.13.1.25", "1.4.31",
        "1.1.255", "1.255.1", "65537.1.1", "1.257.1", "1.1.257", "1.1.1.257", "1.65537.1", "1.1.65537", "1.1.1.65537", "4294967297.1.1",
        "1.4294967297.1", "1.1.4294967297", "1.1.1.4294967297", "18446744073709551617.1.1", "1.18446744073709551617.1",
        "1.1.18446744073709551617", "1.1.1.18446744073709551617", "9223372036854775808.1.1", "99999999999999999999.1.1",
        "1.99999999999999999999.1", "1.1.99999999999999999999", "1.1.1.99999999999999999999",
        "340282366920938463463374607431768211457.1.1", "1.1.340282366920938463463374607431768211457",
    };
    for (size_t i = 0; i < sizeof none / sizeof none[0]; i++) {
        expect(none[i], no_date_by(none[i], TACKACORN_OUT_OF_RANGE));
    }
}

static const uint32_t month_days[12] = {31, 28, 31, 30, 31, 30, 31, 31, 30, 31, 30, 31};

/* Numbers that are put together to no date, and counts that have none. */
static void no_days(void) {
    for (uint32_t month = 1; month <= 12; month++) {
        expect("the day behind a month", no_day(1, month, month_days[month - 1] + 1) && no_day(1936, month, month_days[month - 1] + 1)
                                             && no_day(9999, month, month_days[month - 1] + 1) && no_day(2000, month, 0));
    }
    expect("no such year", no_day(0, 1, 1) && no_day(10000, 1, 1) && no_day(UINT32_MAX, 12, 31) && no_day(65537, 1, 1));
    expect("no such month", no_day(1, 0, 1) && no_day(1, 13, 1) && no_day(1, UINT32_MAX, 1) && no_day(1, 257, 1) && no_day(1, 65537, 1));
    expect("no such day", no_day(1, 1, 0) && no_day(1, 1, UINT32_MAX) && no_day(1, 1, 257) && no_day(1, 1, 65537) && no_day(9999, 12, 32));
    expect("no date at all", no_day(0, 0, 0) && no_day(UINT32_MAX, UINT32_MAX, UINT32_MAX));
    expect("no such count", finds(TACKACORN_LAST_DAY + 1, TACKACORN_OUT_OF_RANGE, no_date) && finds(3649635 + 365, TACKACORN_OUT_OF_RANGE, no_date)
                                && finds(0x80000000u, TACKACORN_OUT_OF_RANGE, no_date) && finds(UINT32_MAX, TACKACORN_OUT_OF_RANGE, no_date));
}

/* Every day there is, by a walk along the calendar: its count, and from that the day again. */
static void every_day(void) {
    uint32_t date[4] = {1, 1, 1, 0}, days = 0;
    bool right = true;
    for (; date[0] <= 9999; days++) {
        right = right && counts(date[0], date[1], date[2], TACKACORN_OK, days) && finds(days, TACKACORN_OK, date);
        if (date[2]++ == month_days[date[1] - 1]) {
            date[2] = 1;
            if (date[1]++ == 12) {
                date[1] = 1;
                date[0]++;
            }
        }
    }
    expect("every day", right && days == TACKACORN_LAST_DAY + 1);
}

/* The header's example of dates, to the letter: host/test holds it against the header. */
static bool days_between(const uint8_t *from, size_t from_length, const uint8_t *to, size_t to_length,
                         int64_t *between) {
    uint32_t year, month, day, hour, first, second;
    if (tackacorn_to_date(from, from_length, &year, &month, &day, &hour) != TACKACORN_OK
        || tackacorn_to_days(year, month, day, &first) != TACKACORN_OK
        || tackacorn_to_date(to, to_length, &year, &month, &day, &hour) != TACKACORN_OK
        || tackacorn_to_days(year, month, day, &second) != TACKACORN_OK) {
        return false;
    }
    *between = (int64_t)second - (int64_t)first;
    return true;
}

/* Whether it is so many days from one date to the other, and as many less than none on the way back. */
static bool lie_between(const char *from, const char *to, int64_t days) {
    int64_t there = 7, back = 7;
    return days_between(bytes(from), strlen(from), bytes(to), strlen(to), &there) && there == days
           && days_between(bytes(to), strlen(to), bytes(from), strlen(from), &back) && back == -days;
}

/* Whether there is no telling of these two, in either order, and nothing is written. */
static bool nothing_between(const char *one, const char *other) {
    int64_t stays = 7;
    return !days_between(bytes(one), strlen(one), bytes(other), strlen(other), &stays)
           && !days_between(bytes(other), strlen(other), bytes(one), strlen(one), &stays) && stays == 7;
}

/* What the example answers of two dates. */
static void between(void) {
    expect("days between two dates", lie_between("1936.1.12", "1939.9.1.12", 1327) && lie_between("1936.1.12", "1936.1.13", 1));
    expect("no leap day between", lie_between("1936.2.28", "1936.3.1", 1) && lie_between("2000.1.1", "2001.1.1", 365));
    expect("hours and zeros between", lie_between("1936.1.12.1", "1936.1.12.24", 0) && lie_between("1936.1.12", "1936.01.012", 0));
    expect("all days between", lie_between("1.1.1", "9999.12.31", TACKACORN_LAST_DAY));
    expect("nothing between", nothing_between("1936.1.12", "1936.2.29") && nothing_between("x", "1936.1.12") && nothing_between("", "0.1.1"));
}

enum { ROOM = 10 * TACKACORN_WORDS_PER_TOKEN };

/* A parse that succeeds, and what is asked of its tape. */
static void tokens(void) {
    const char *text = "a=\"b c\" }";
    const size_t length = strlen(text), two = 2 * TACKACORN_WORDS_PER_TOKEN;
    uint32_t tape[ROOM], count = 7, bom = 7, code = 7, a = 7, b = 7;
    size_t place = 7, offset = 7, size = 7;
    memset(tape, 255, sizeof tape);
    expect("parse", tackacorn_parse(bytes(text), length, tape, ROOM, &count, &bom, &place) == TACKACORN_OK && count == 2
                        && bom == 0 && place == 0 && tape[two] == 0 && tape[ROOM - 1] == 0);
    expect("check", tackacorn_check(length, tape, ROOM, count) && !tackacorn_check(length, tape, ROOM, 3)
                        && !tackacorn_check(5, tape, ROOM, count) && !tackacorn_check(length, tape, two - 1, count));
    tackacorn_token(tape, ROOM, count, 1, &code, &a, &b);
    expect("token 1", code == TACKACORN_QUOTED && a == 3 && b == 3);
    tackacorn_token(tape, ROOM, count, 2, &code, &a, &b);
    expect("token 2", code == TACKACORN_NOTHING && a == 0 && b == 0);
    expect("view 1", tackacorn_view(bytes(text), length, tape, ROOM, count, 1, &offset, &size) == TACKACORN_OK && size == 3
                         && memcmp(text + offset, "b c", size) == 0);
    expect("view 2", tackacorn_view(bytes(text), length, tape, ROOM, count, 2, &offset, &size) == TACKACORN_NO_SCALAR
                         && offset == 0 && size == 0);
    expect("an escape", tackacorn_parse(bytes("a=\"b\\\"c\""), 8, tape, ROOM, &count, &bom, &place) == TACKACORN_OK && count == 2);
    tackacorn_token(tape, ROOM, count, 1, &code, &a, &b);
    expect("token 1 with an escape", code == TACKACORN_QUOTED_ESCAPE && a == 3 && b == 4);
    expect("cut short", tackacorn_parse(bytes("GER={ fighter=19"), 16, tape, ROOM, &count, &bom, &place) == TACKACORN_OK && count == 5);
}

/* Parses that are refused, and what they leave. */
static void refused(void) {
    const char *text = "a=\"b c\" }";
    uint32_t tape[ROOM], count = 7, bom = 7;
    size_t place = 7;
    memset(tape, 255, sizeof tape);
    expect("full", tackacorn_parse(bytes(text), strlen(text), tape, 2 * TACKACORN_WORDS_PER_TOKEN - 1, &count, &bom, &place) == TACKACORN_FULL
                       && count == 0 && tape[0] == 0 && tape[2 * TACKACORN_WORDS_PER_TOKEN - 2] == 0);
    expect("refused at a place", tackacorn_parse(bytes("\xef\xbb\xbf[x"), 5, tape, ROOM, &count, &bom, &place) == TACKACORN_NO_PARAMETER
                                     && place == 3 && bom == 0 && tape[ROOM - 1] == 0);
    expect("a BOM", tackacorn_parse(bytes("\xef\xbb\xbf"), 3, tape, ROOM, &count, &bom, &place) == TACKACORN_OK && bom == 1);
    expect("words for a text", TACKACORN_WORDS_FOR(TACKACORN_TEXT_LIMIT) / TACKACORN_WORDS_PER_TOKEN == 2 * (uint64_t)TACKACORN_TEXT_LIMIT + 1);
}

enum { MOST = 64 };

/* What a write is lent, with something in it, and what it tells. */
struct lent {
    uint8_t out[MOST];
    uint32_t scratch[ROOM];
    size_t written;
};

/* Writes a sheet into lent memory that is not zero, with room for so many bytes and words. */
static uint32_t write_words(struct lent *lent, const char *text, const uint32_t *words, size_t count, size_t bytes_lent, size_t words_lent) {
    memset(lent, 255, sizeof *lent);
    return tackacorn_write(bytes(text), strlen(text), words, ROOM, count, lent->out, bytes_lent, lent->scratch, words_lent,
                           &lent->written);
}

/* Parses a text and writes it, with all the room there is. */
static uint32_t write_text(struct lent *lent, const char *text) {
    uint32_t tape[ROOM], count = 0, bom;
    size_t place;
    expect("a text to write", tackacorn_parse(bytes(text), strlen(text), tape, ROOM, &count, &bom, &place) == TACKACORN_OK);
    return write_words(lent, text, tape, count, MOST, ROOM);
}

/* Whether so many bytes are zero. */
static bool zero(const void *from, size_t size) {
    const uint8_t *byte = from;
    for (size_t i = 0; i < size; i++) {
        if (byte[i] != 0) {
            return false;
        }
    }
    return true;
}

/* Whether a write left its text, zeros behind it, and the scratch zero. */
static bool left(const struct lent *lent, const char *text) {
    const size_t size = strlen(text);
    return lent->written == size && memcmp(lent->out, text, size) == 0 && zero(lent->out + size, MOST - size)
           && zero(lent->scratch, sizeof lent->scratch);
}

/* Sheets that are written: the text, the zeros behind it, and the edges of the room. */
static void written(void) {
    struct lent lent;
    const uint32_t pair[ROOM] = {4, 0, 1, 5, 2, 3};
    expect("a write", write_text(&lent, " a = { b c=\"d\" } e = f #") == TACKACORN_OK && left(&lent, "a={b c = \"d\"} e=f"));
    expect("a write with an operator", write_text(&lent, "a<={b>=c}") == TACKACORN_OK && left(&lent, "a <= {b >= c}"));
    expect("a write of nothing", write_text(&lent, " ") == TACKACORN_OK && left(&lent, ""));
    expect("a write with an escape", write_text(&lent, "a=\"b\\\"\"") == TACKACORN_OK && left(&lent, "a=\"b\\\"\""));
    expect("a write with a header", write_text(&lent, "a=rgb{1}") == TACKACORN_OK && left(&lent, "a=rgb {1}"));
    expect("a write with just room enough", write_words(&lent, "k v w", pair, 2, 7, 6) == TACKACORN_OK && lent.written == 7
                                                && memcmp(lent.out, "k=\"v w\"", 7) == 0 && lent.out[7] == 255
                                                && zero(lent.scratch, 6 * sizeof lent.scratch[0]) && lent.scratch[6] == UINT32_MAX);
    expect("bytes for a sheet", TACKACORN_BYTES_FOR(5, 2) == 11 && write_words(&lent, "k v w", pair, 2, TACKACORN_BYTES_FOR(5, 2), 6) == TACKACORN_OK);
}

/* Whether a write is refused with a number, and leaves nothing. */
static bool refuses(uint32_t number, uint32_t answer, const struct lent *lent) {
    return answer == number && left(lent, "");
}

/* Sheets that are not written, each reason before the next, and what they leave. */
static void unwritten(void) {
    struct lent lent;
    const uint32_t pair[ROOM] = {4, 0, 1, 5, 2, 3}, key[ROOM] = {4, 0, 1}, falling[ROOM] = {4, 2, 1, 4, 0, 1};
    const uint32_t equal[ROOM] = {4, 0, 1, 8, 7, 0, 4, 2, 1}, blank[ROOM] = {4, 0, 3, 4, 4, 1};
    expect("not sound", refuses(TACKACORN_NOT_SOUND, write_words(&lent, "k v", falling, 2, MOST, ROOM), &lent)
                            && refuses(TACKACORN_NOT_SOUND, write_words(&lent, "k v", pair, 2, MOST, ROOM), &lent)
                            && refuses(TACKACORN_NOT_SOUND, write_words(&lent, "k v w", pair, SIZE_MAX, MOST, ROOM), &lent));
    expect("another form", refuses(TACKACORN_OTHER_FORM, write_words(&lent, "k", key, 1, MOST, ROOM), &lent)
                               && refuses(TACKACORN_OTHER_FORM, write_text(&lent, "[[x] y]"), &lent));
    expect("no room for the text", write_words(&lent, "k v w", pair, 2, 6, ROOM) == TACKACORN_NO_ROOM && lent.written == 0
                                       && zero(lent.out, 6) && lent.out[6] == 255 && zero(lent.scratch, sizeof lent.scratch));
    expect("no room for the tokens", write_words(&lent, "k v w", pair, 2, MOST, 5) == TACKACORN_NO_ROOM && lent.written == 0
                                         && zero(lent.out, MOST) && zero(lent.scratch, 5 * sizeof lent.scratch[0]) && lent.scratch[5] == UINT32_MAX);
    expect("another form before no room", write_words(&lent, "k", key, 1, 0, 0) == TACKACORN_OTHER_FORM && lent.written == 0);
    expect("an Equal behind a key", write_words(&lent, "k v", equal, 3, 4, ROOM) == TACKACORN_NO_ROOM
                                           && refuses(TACKACORN_READS_OTHERWISE, write_words(&lent, "k v", equal, 3, MOST, ROOM), &lent));
    expect("pairs behind a mixed part", refuses(TACKACORN_READS_OTHERWISE, write_text(&lent, "a b{}c=d"), &lent));
    expect("an '=' behind '='", refuses(TACKACORN_READS_OTHERWISE, write_text(&lent, "a= ="), &lent)
                                    && refuses(TACKACORN_READS_OTHERWISE, write_text(&lent, "a= ={b}"), &lent));
    expect("a header without content", refuses(TACKACORN_READS_OTHERWISE, write_text(&lent, "a=b{{}}"), &lent));
    expect("a key with a blank", refuses(TACKACORN_READS_OTHERWISE, write_words(&lent, "k v w", blank, 2, MOST, ROOM), &lent));
}

/* What the header says of edits, and of a first line that was not blanked: what is written and what is refused. */
static void edits(void) {
    struct lent lent;
    const uint32_t slipped[ROOM] = {4, 0, 1, 4, 4, 1, 4, 8, 1, 4, 10, 1}, no_pairs[ROOM] = {4, 0, 1, 2, 2, 0, 9, 1, 0};
    const uint32_t no_entries[ROOM] = {4, 0, 1, 1, 2, 0, 9, 1, 0}, flagged[ROOM] = {4, 0, 1, 1, 3, 1, 4, 2, 1, 9, 1, 0};
    expect("pairs that slip", write_words(&lent, "a=1 b=2 c=3", slipped, 4, MOST, ROOM) == TACKACORN_OK && left(&lent, "a=b c=3"));
    expect("an object left empty", refuses(TACKACORN_READS_OTHERWISE, write_words(&lent, "a", no_pairs, 3, MOST, ROOM), &lent));
    expect("an array left empty", write_words(&lent, "a", no_entries, 3, MOST, ROOM) == TACKACORN_OK && left(&lent, "a={}"));
    expect("a flag without a MixedContainer", refuses(TACKACORN_READS_OTHERWISE, write_words(&lent, "a b", flagged, 4, MOST, ROOM), &lent));
    expect("a first line that is a key", write_text(&lent, "HOI4txt\nGER={f=19}") == TACKACORN_OK && left(&lent, "HOI4txt GER = {f=19}"));
}

enum { OVER = TACKACORN_LEVEL_LIMIT + 1, DEEP_BYTES = 2 * OVER + 3, DEEP_WORDS = (2 * OVER + 2) * TACKACORN_WORDS_PER_TOKEN };

/* Parses a key and so many arrays in each other, and writes them. */
static uint32_t write_nested(size_t levels, size_t *size) {
    uint8_t text[DEEP_BYTES], out[DEEP_BYTES];
    uint32_t tape[DEEP_WORDS], scratch[DEEP_WORDS], count = 0, bom;
    const size_t length = 2 * levels + 3;
    size_t place;
    memcpy(text, "k=", 2);
    memset(text + 2, '{', levels);
    text[2 + levels] = 'a';
    memset(text + 3 + levels, '}', levels);
    expect("a deep text", tackacorn_parse(text, length, tape, DEEP_WORDS, &count, &bom, &place) == TACKACORN_OK);
    const uint32_t refusal = tackacorn_write(text, length, tape, DEEP_WORDS, count, out, length, scratch, DEEP_WORDS, size);
    expect("a deep text, written", refusal != TACKACORN_OK || memcmp(out, text, length) == 0);
    return refusal;
}

/* Both sides of the deepest that is written. */
static void depth(void) {
    size_t size = 7;
    expect("64 levels", write_nested(TACKACORN_LEVEL_LIMIT, &size) == TACKACORN_OK && size == 2 * TACKACORN_LEVEL_LIMIT + 3);
    expect("65 levels", write_nested(OVER, &size) == TACKACORN_TOO_DEEP && size == 0);
}

/* The sheet of 'a=b', and its file. */
static const uint32_t sheet_words[ROOM] = {4, 0, 1, 4, 2, 1};
static const uint8_t sheet_file[] = {0, 0, 0, 30, 1, 0, 0, 3, 0, 0, 0, 2, 4, 0, 0, 0, 0, 0, 0, 0, 1, 4, 0, 0, 0, 2, 0, 0, 0, 1};

enum { SHEET_BYTES = sizeof sheet_file, SHEET_WORDS = 2 * TACKACORN_WORDS_PER_TOKEN };

/* What a write of a file is lent, with something in it, and what it tells. */
struct lent_bytes {
    uint8_t out[MOST];
    size_t written;
};

/* Writes the file of a sheet into lent bytes that are not zero, with room for so many. */
static uint32_t write_file(struct lent_bytes *lent, size_t length, const uint32_t *words, size_t count, size_t bytes_lent) {
    memset(lent, 255, sizeof *lent);
    return tackacorn_sheet_write(length, words, ROOM, count, lent->out, bytes_lent, &lent->written);
}

/* Whether a write left this file, zeros behind it up to its room, and nothing behind that. */
static bool left_file(const struct lent_bytes *lent, const uint8_t *file, size_t size, size_t bytes_lent) {
    return lent->written == size && memcmp(lent->out, file, size) == 0 && zero(lent->out + size, bytes_lent - size)
           && (bytes_lent == MOST || lent->out[bytes_lent] == 255);
}

/* Sheets that are written on file: the bytes, the zeros behind them, and the edges of the room and of the text. */
static void filed(void) {
    struct lent_bytes lent;
    const uint32_t all[ROOM] = {11, 1, 0, 10, 2, 1, 1, 3, 1, 9, 2, 0, 8, 8, 0, 3};
    const uint8_t none[] = {0, 0, 0, 12, 1, 255, 255, 255, 0, 0, 0, 0};
    expect("a file", write_file(&lent, 3, sheet_words, 2, MOST) == TACKACORN_OK && left_file(&lent, sheet_file, SHEET_BYTES, MOST));
    expect("a file with just room enough", TACKACORN_FILE_BYTES_FOR(2) == SHEET_BYTES && write_file(&lent, 3, sheet_words, 2, SHEET_BYTES) == TACKACORN_OK
                                               && left_file(&lent, sheet_file, SHEET_BYTES, SHEET_BYTES));
    expect("a file of no tokens", write_file(&lent, 16777215, sheet_words, 0, TACKACORN_FILE_HEAD) == TACKACORN_OK
                                      && left_file(&lent, none, TACKACORN_FILE_HEAD, TACKACORN_FILE_HEAD));
    expect("a file of other codes", write_file(&lent, 3, all, 5, MOST) == TACKACORN_OK && lent.written == TACKACORN_FILE_BYTES_FOR(5)
                                        && lent.out[12] == 11 && lent.out[30] == 1 && lent.out[34] == 3 && lent.out[38] == 1 && lent.out[52] == 8);
}

/* Whether a write of a file is refused with a number, and leaves nothing. */
static bool refuses_file(uint32_t number, uint32_t answer, const struct lent_bytes *lent, size_t bytes_lent) {
    return answer == number && left_file(lent, sheet_file, 0, bytes_lent);
}

/* Sheets that are not written on file, each reason before the next. */
static void unfiled(void) {
    struct lent_bytes lent;
    const uint32_t falling[ROOM] = {4, 2, 1, 4, 0, 1};
    expect("a file that is not sound", refuses_file(TACKACORN_FILE_NOT_SOUND, write_file(&lent, 3, falling, 2, MOST), &lent, MOST)
                                           && refuses_file(TACKACORN_FILE_NOT_SOUND, write_file(&lent, 2, sheet_words, 2, MOST), &lent, MOST));
    expect("a file of words that are not there", refuses_file(TACKACORN_FILE_NOT_SOUND, write_file(&lent, 3, sheet_words, ROOM / 3 + 1, MOST), &lent, MOST)
                                                     && refuses_file(TACKACORN_FILE_NOT_SOUND, write_file(&lent, 3, sheet_words, SIZE_MAX, MOST), &lent, MOST)
                                                     && refuses_file(TACKACORN_FILE_NOT_SOUND, write_file(&lent, 3, sheet_words, SIZE_MAX / 9 + 1, MOST), &lent, MOST));
    expect("a text too large for a file", refuses_file(TACKACORN_FILE_TOO_LARGE, write_file(&lent, 16777216, sheet_words, 2, MOST), &lent, MOST)
                                              && refuses_file(TACKACORN_FILE_TOO_LARGE, write_file(&lent, SIZE_MAX, sheet_words, 2, MOST), &lent, MOST));
    expect("no room for a file", refuses_file(TACKACORN_FILE_NO_ROOM, write_file(&lent, 3, sheet_words, 2, SHEET_BYTES - 1), &lent, SHEET_BYTES - 1)
                                     && refuses_file(TACKACORN_FILE_NO_ROOM, write_file(&lent, 3, sheet_words, 0, TACKACORN_FILE_HEAD - 1), &lent, TACKACORN_FILE_HEAD - 1)
                                     && refuses_file(TACKACORN_FILE_NO_ROOM, write_file(&lent, 3, sheet_words, 0, 0), &lent, 0));
    expect("not sound before too large", refuses_file(TACKACORN_FILE_NOT_SOUND, write_file(&lent, 16777216, falling, 2, 0), &lent, 0));
    expect("too large before no room", refuses_file(TACKACORN_FILE_TOO_LARGE, write_file(&lent, 16777216, sheet_words, 2, 0), &lent, 0));
}

/* What a read of a file is lent, with something in it, and what it tells. */
struct lent_words {
    uint32_t words[ROOM];
    size_t length;
    uint32_t count;
};

/* Reads a file into lent words that are not zero, with room for so many. */
static uint32_t read_bytes(struct lent_words *lent, const uint8_t *file, size_t size, size_t words_lent) {
    memset(lent, 255, sizeof *lent);
    return tackacorn_sheet_read(file, size, lent->words, words_lent, &lent->length, &lent->count);
}

/* Reads the file of 'a=b' with another length, of which it speaks, and another byte at a place. */
static uint32_t read_changed(struct lent_words *lent, uint8_t size, size_t at, uint8_t byte, size_t words_lent) {
    uint8_t file[MOST] = {0};
    memcpy(file, sheet_file, SHEET_BYTES);
    file[3] = size;
    file[at] = byte;
    return read_bytes(lent, file, size, words_lent);
}

/* Whether a read left the sheet of so many tokens of 'a=b', zeros behind it up to its room, and nothing behind that. */
static bool left_sheet(const struct lent_words *lent, size_t length, uint32_t count, size_t words_lent) {
    const size_t taken = (size_t)TACKACORN_WORDS_PER_TOKEN * count;
    return lent->length == length && lent->count == count && memcmp(lent->words, sheet_words, taken * sizeof lent->words[0]) == 0
           && zero(lent->words + taken, (words_lent - taken) * sizeof lent->words[0])
           && (words_lent == ROOM || lent->words[words_lent] == UINT32_MAX);
}

/* Files that are read: the words, the zeros behind them, and the edges of the room. */
static void read_back(void) {
    struct lent_words lent;
    struct lent_bytes again;
    expect("a file, read", read_bytes(&lent, sheet_file, SHEET_BYTES, ROOM) == TACKACORN_OK && left_sheet(&lent, 3, 2, ROOM));
    expect("a file, read and written", write_file(&again, lent.length, lent.words, lent.count, MOST) == TACKACORN_OK
                                           && left_file(&again, sheet_file, SHEET_BYTES, MOST));
    expect("a file, read with just room enough", read_bytes(&lent, sheet_file, SHEET_BYTES, SHEET_WORDS) == TACKACORN_OK
                                                     && left_sheet(&lent, 3, 2, SHEET_WORDS));
    expect("words for a file", TACKACORN_FILE_WORDS_FOR(SHEET_BYTES) >= SHEET_WORDS && TACKACORN_FILE_WORDS_FOR(0) == 0);
    expect("a file of no tokens, read", read_changed(&lent, TACKACORN_FILE_HEAD, 11, 0, 0) == TACKACORN_OK && left_sheet(&lent, 3, 0, 0));
    expect("a file with an escape, read", read_changed(&lent, SHEET_BYTES, 21, TACKACORN_QUOTED_ESCAPE, ROOM) == TACKACORN_OK
                                              && lent.words[3] == TACKACORN_QUOTED_ESCAPE);
    expect("a longer text, read", read_changed(&lent, SHEET_BYTES, 5, 255, ROOM) == TACKACORN_OK && left_sheet(&lent, 0xff0003, 2, ROOM));
}

/* Whether a read is refused with a number, and leaves nothing. */
static bool refuses_read(uint32_t number, uint32_t answer, const struct lent_words *lent, size_t words_lent) {
    return answer == number && left_sheet(lent, 0, 0, words_lent);
}

/* Files that are not read, each reason before the next, and what they leave. */
static void unread(void) {
    struct lent_words lent;
    const uint8_t wraps[] = {0, 0, 0, 13, 1, 0, 0, 3, 0x38, 0xe3, 0x8e, 0x39, 4}; /* 12 + 9 * 954437177 is 13 in 32 bits */
    expect("a file of under 12 bytes", refuses_read(TACKACORN_FILE_LENGTH, read_bytes(&lent, sheet_file, 0, ROOM), &lent, ROOM)
                                           && refuses_read(TACKACORN_FILE_LENGTH, read_changed(&lent, 11, 4, 2, ROOM), &lent, ROOM));
    expect("a file that says another length", refuses_read(TACKACORN_FILE_LENGTH, read_bytes(&lent, sheet_file, SHEET_BYTES - 1, ROOM), &lent, ROOM)
                                                  && refuses_read(TACKACORN_FILE_LENGTH, read_changed(&lent, SHEET_BYTES, 0, 1, ROOM), &lent, ROOM)
                                                  && refuses_read(TACKACORN_FILE_LENGTH, read_changed(&lent, SHEET_BYTES, 3, 31, 0), &lent, 0));
    expect("a file of another version", refuses_read(TACKACORN_UNKNOWN_VERSION, read_changed(&lent, SHEET_BYTES, 4, 2, ROOM), &lent, ROOM)
                                            && refuses_read(TACKACORN_UNKNOWN_VERSION, read_changed(&lent, SHEET_BYTES - 1, 4, 0, 0), &lent, 0));
    expect("a count that is not the length's", refuses_read(TACKACORN_FILE_COUNT, read_changed(&lent, SHEET_BYTES, 11, 1, ROOM), &lent, ROOM)
                                                   && refuses_read(TACKACORN_FILE_COUNT, read_changed(&lent, SHEET_BYTES, 8, 255, ROOM), &lent, ROOM)
                                                   && refuses_read(TACKACORN_FILE_COUNT, read_changed(&lent, SHEET_BYTES - 1, 12, 4, ROOM), &lent, ROOM)
                                                   && refuses_read(TACKACORN_FILE_COUNT, read_changed(&lent, SHEET_BYTES + 1, 12, 0, 0), &lent, 0));
    expect("a count that would wrap", refuses_read(TACKACORN_FILE_COUNT, read_bytes(&lent, wraps, sizeof wraps, ROOM), &lent, ROOM));
    expect("a file that is not sound", refuses_read(TACKACORN_FILE_NOT_SOUND, read_changed(&lent, SHEET_BYTES, 12, 0, ROOM), &lent, ROOM)
                                           && refuses_read(TACKACORN_FILE_NOT_SOUND, read_changed(&lent, SHEET_BYTES, 7, 2, ROOM), &lent, ROOM)
                                           && refuses_read(TACKACORN_FILE_NOT_SOUND, read_changed(&lent, SHEET_BYTES, 21, 9, 0), &lent, 0));
    expect("no room for a file's tokens", refuses_read(TACKACORN_FILE_NO_ROOM, read_bytes(&lent, sheet_file, SHEET_BYTES, SHEET_WORDS - 1), &lent, SHEET_WORDS - 1)
                                              && refuses_read(TACKACORN_FILE_NO_ROOM, read_bytes(&lent, sheet_file, SHEET_BYTES, 0), &lent, 0));
}

/* The number of a version's words: 20402 of "2.4.2". */
static uint32_t version_number(const char *version) {
    uint32_t number = 0, part = 0;
    for (; *version != 0; version++) {
        if (*version == '.') {
            number = 100 * number + part;
            part = 0;
        } else {
            part = 10 * part + (uint32_t)(*version - '0');
        }
    }
    return 100 * number + part;
}

/* Each refusal has words of its own, and a number that is none is told so. */
static void words(void) {
    const uint32_t numbers[] = {0,  1,  2,  3,  4,  5,  6,  7,  8,  9,  10, 11, 12, 21, 22, 23,
                                24, 31, 32, 33, 34, 35, 36, 41, 42, 43, 44, 45, 46, 51, 52};
    const size_t count = sizeof numbers / sizeof numbers[0];
    expect("the version", strcmp(tackacorn_version(), TACKACORN_VERSION) == 0 && version_number(tackacorn_version()) == TACKACORN_VERSION_NUMBER);
    expect("words", strcmp(tackacorn_refusal_text(TACKACORN_NO_VALUE), "a '}' where a value is due") == 0);
    for (size_t i = 0; i < count; i++) {
        expect("no words for a refusal", strcmp(tackacorn_refusal_text(numbers[i]), tackacorn_refusal_text(13)) != 0);
        for (size_t j = 0; j < i; j++) {
            expect("two refusals in the same words", strcmp(tackacorn_refusal_text(numbers[i]), tackacorn_refusal_text(numbers[j])) != 0);
        }
    }
    expect("no such refusal", strcmp(tackacorn_refusal_text(UINT32_MAX), "no such refusal") == 0);
}

int main(void) {
    readings();
    surprises();
    leading_numbers();
    versions();
    dates();
    shapes();
    ranges();
    no_days();
    every_day();
    between();
    tokens();
    refused();
    written();
    unwritten();
    edits();
    depth();
    filed();
    unfiled();
    read_back();
    unread();
    words();
    if (!wrong) {
        puts("every call answers as it should");
    }
    return wrong;
}
