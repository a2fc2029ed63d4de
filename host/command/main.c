/* tackacorn: looks at saves, checks them, gets values out of them, writes them back, keeps their tokens on file, reads
 * the number that a scalar begins with, and reads dates and counts their days.
 *
 * A call is 'tackacorn SUBCOMMAND [OPTION..] [WORD..]'. The table below has a line for each subcommand. */
#include "command.h"

#include <string.h>

#define NUMBERS "[--numbers]"
#define OPTIONS NUMBERS " [--raw]"
#define ANY_NUMBER ((size_t)-1)
#define QUOTE(macro) #macro
#define WORDS_OF(macro) QUOTE(macro)

const struct subcommand subcommands[] = {
    {"look", OPTIONS " [FILE]", "print the tokens of a save",
     "Prints 'tokens COUNT bom BIT', then for each token its index, its name and two numbers: for a\n"
     "scalar its offset and length in the file, for a container the index of its End and whether it\n"
     "is mixed, for an End the index of its opener, for an operator its number. The save may have\n"
     "any size up to the limit.\n",
     0, 1, true, look},
    {"check", OPTIONS " [FILE..]", "say of each save whether it parses",
     "Prints a line for each file: 'FILE: sound, COUNT tokens', or on standard error why it is\n"
     "refused. The status is that of the worst file. With --numbers each line is 'refused NUMBER\n"
     "PLACE FILE', with 0 and 0 where the save is well.\n",
     0, ANY_NUMBER, true, check},
    {"get", OPTIONS " FILE KEY..", "print the values that stand at a path of keys",
     "The keys are a path: 'get save.txt GER equipment amount' looks in every GER, there in every\n"
     "equipment, and prints every amount, one a line: its kind (Bool, Whole, Decimal, Name, Quoted,\n"
     "or QuotedEscape where a backslash is in it), the operator where it is no '=', and its bytes as\n"
     "they stand in the save, a quoted one in its quotes. A number has a digit, and an 'f' behind it\n"
     "only where there is a point: 10.0f is a Decimal, and 109f, 109E4, - and . are Names. A container\n"
     "is told by what it is and how many entries it has: 'Array 3 entries', 'Header rgb Array 3\n"
     "entries'. A key is compared byte for byte, without the quotes if it has some. A control byte is\n"
     "printed as \\x0a. Status 4 says that the save is well and nothing stands there.\n",
     2, ANY_NUMBER, true, get},
    {"write", OPTIONS " [FILE]", "write a save's tokens as save text again",
     "Prints the text and nothing more: keys, '=' or an operator, values and braces, one space between\n"
     "them and no line ends of its own, not at the end either. Comments, blanks, a BOM and a first line\n"
     "like HOI4txt are gone: a game that wants that line must get it from you. The text parses to the\n"
     "same tokens, or it is not written. Look at the status: without --numbers nothing is printed on a\n"
     "refusal, and an empty file is a sound save. Never write onto the file that is read.\n\n"
     "Refusal 45, would read differently: a value or a header that is the one byte '=' behind '='\n"
     "('a= =', 'a= ={b}'); a pair with '=' and no container for its value, where pairs begin anew\n"
     "behind a container of a mixed part ('a b{}c=d'); a container that lost its only content behind a\n"
     "header or at the begin of an array ('a=b{{}}', 'a={{{}}}'); a second BOM. Parameters are 46,\n"
     "containers over " WORDS_OF(TACKACORN_LEVEL_LIMIT) " deep 42, and 43 is a text that would pass the limit, as that of many quoted\n"
     "entries side by side. A save that was cut short is written as if it were whole.\n",
     0, 1, true, write_back},
    {"pack", OPTIONS " [SAVE]", "write a save's tokens as a sheet file",
     "Prints the bytes of the file and nothing more. They hold the tokens and the length of the text,\n"
     "which is the save's own, a BOM and a first line counted. They do not hold the text: who gets the\n"
     "sheet must have the very same save. Look at the status: without --numbers nothing is printed on\n"
     "a refusal, and an empty file is no sheet. Never write onto the file that is read.\n",
     0, 1, true, pack},
    {"unpack", NUMBERS " [SHEET]", "print the tokens of a sheet file",
     "Prints 'sheet LENGTH COUNT', the length of the text that the sheet is of and how many tokens it\n"
     "has, then a line for each token as look does. Offsets are those of the text, which is not there.\n"
     "Any file may be tried: what is printed is sound, or nothing is printed. A sound sheet may still\n"
     "be no parse of any text, and the file does not prove who wrote it: see verify.\n",
     0, 1, false, unpack},
    {"verify", NUMBERS " SHEET [SAVE]", "say whether a sheet file is sound, and fits a save in length",
     "Prints 'sound', or on standard error why the file is refused. With a save, its length must be the\n"
     "text's length of the sheet, too, or a line on standard error says that it is not, and the status\n"
     "is 1. No more is known: another save of the same length fits as well, with wrong values, and a\n"
     "stranger's sheet may be sound and be no parse of any text. Hold a checksum of both against what\n"
     "was sent; or pack the save yourself, and compare the files.\n",
     1, 2, false, verify},
    {"number", NUMBERS " SCALAR..", "print the number that each scalar begins with, and what is left over",
     "Reads no file: a scalar is the bytes themselves. Prints a line for each: the number, how many\n"
     "bytes are left over behind its digits, and where some are, these bytes, a control byte as \\x0a;\n"
     "they are counted as they stand in the scalar. 12 is '12 0', and 1.14.2 is '1 5 .14.2'. A date is\n"
     "read by 'tackacorn date'. The status is that of the worst scalar, and with --numbers a refused\n"
     "one has its line among the others. A scalar that begins with '-' needs '--' before it, where it\n"
     "is the first: 'number -- -12 -7'; a lone '-' does not.\n\n"
     "Refusal 21: no byte at all, or the first is neither a sign nor a digit. 22: the digits are over\n"
     "9223372036854775807, after a minus too, whatever follows them. Before you take the number, look\n"
     "at what is left: 109E4 is '109 2 E4', and 12.5 is '12 2 .5'. A sign with no digit behind it is 0:\n"
     "- is '0 0', and -.12 is '0 3 .12'.\n",
     1, ANY_NUMBER, false, number},
    {"date", NUMBERS " SCALAR..", "print the parts of each date, and its day count",
     "Reads no file: a scalar is the bytes themselves. Prints a line for each: year, month, day, hour\n"
     "and day count. 1936.1.12 is '1936 1 12 0 706286', where the hour 0 says that none stands there,\n"
     "and 1936.1.12.24 is '1936 1 12 24 706286': the hour is left out of the count. Day 0 is 1.1.1, the\n"
     "last is " WORDS_OF(TACKACORN_LAST_DAY) ", 9999.12.31. Every year has 365 days and February 28: this is not the world's\n"
     "calendar. Zeros in front are read, so that 1936.01.012 is the same date. The status is that of\n"
     "the worst scalar. One that is refused leaves no line on standard output, so that the lines no\n"
     "longer match the scalars; with --numbers it has its line among the others.\n\n"
     "Refusal 51: not three or four numbers of digits alone, with points between them; it is looked for\n"
     "over the whole scalar first. 52: a year that is not 1 to 9999, a month that is not 1 to 12, a day\n"
     "that the month does not have, or an hour that is not 1 to 24.\n",
     1, ANY_NUMBER, false, date},
    {"days", NUMBERS " FROM TO", "print how many days it is from one date to another",
     "Reads no file. Prints one number, with a '-' where the second date is the earlier: from 1936.1.12\n"
     "to 1939.9.1 it is 1327, and from 1939.9.1 to 1936.1.12 it is -1327. Hours are left out: from\n"
     "1936.1.12.1 to 1936.1.12.24 it is 0. There are no leap years, as with date, so that it is not the\n"
     "number of days by the world's calendar. Each of the two that is refused has its line, by the\n"
     "refusals of date, and no number is printed then. With --numbers both have a line then, in their\n"
     "order, and 'refused 0 0' is that of one that is well.\n",
     2, 2, false, days},
    {"day", NUMBERS " COUNT..", "print the date of each day count",
     "Reads no file. Prints a line for each: the date that has that count, as 1936.1.12 for 706286. It\n"
     "has no hour. The status is that of the worst count. One that is refused leaves no line on\n"
     "standard output, so that the lines no longer match the counts; with --numbers it has its line\n"
     "among the others.\n\n"
     "Refusal 21: the count is not digits alone, one or more, without a sign. 52: it is over " WORDS_OF(TACKACORN_LAST_DAY) ",\n"
     "the last day, however many digits it has.\n",
     1, ANY_NUMBER, false, day},
    {"help", "[SUBCOMMAND]", "print this, or more about a subcommand", "", 0, 1, false, help},
};
const size_t subcommand_count = sizeof subcommands / sizeof subcommands[0];

/* The line of the table with this name, or NULL. */
const struct subcommand *named(const char *name) {
    for (size_t i = 0; i < subcommand_count; i++) {
        if (strcmp(subcommands[i].name, name) == 0) {
            return &subcommands[i];
        }
    }
    return NULL;
}

/* Says that a call is wrong, and where to read how it is right. */
enum status wrong_call(const char *word, const char *what) {
    fputs("tackacorn: ", stderr);
    show_name(stderr, word);
    fprintf(stderr, ": %s; see 'tackacorn help'\n", what);
    return STATUS_CALL;
}

/* Takes an option in; false where the subcommand has none of that name. */
static bool take_option(const struct subcommand *subcommand, struct call *call, const char *word) {
    if (subcommand->run != help && strcmp(word, "--numbers") == 0) {
        call->numbers = true;
        return true;
    }
    if (subcommand->parses && strcmp(word, "--raw") == 0) {
        call->raw = true;
        return true;
    }
    return false;
}

/* Whether a word asks for help. */
static bool asks_for_help(const char *word) {
    return strcmp(word, "--help") == 0 || strcmp(word, "-h") == 0;
}

/* Takes the options of a subcommand in, counts the words behind them, and runs it. */
static enum status run(const struct subcommand *subcommand, char **words, size_t count) {
    struct call call = {false, false, words, count};
    while (call.count > 0 && call.words[0][0] == '-' && call.words[0][1] != '\0') {
        const char *word = call.words[0];
        if (asks_for_help(word)) {
            print_subcommand(subcommand);
            return STATUS_WELL;
        }
        const bool last = strcmp(word, "--") == 0;
        if (!last && !take_option(subcommand, &call, word)) {
            return wrong_call(word, "no such option");
        }
        call.words++;
        call.count--;
        if (last) {
            break;
        }
    }
    if (call.count < subcommand->least || call.count > subcommand->most) {
        fprintf(stderr, "tackacorn: %s: too %s words; usage: tackacorn %s %s\n", subcommand->name,
                call.count < subcommand->least ? "few" : "many", subcommand->name, subcommand->usage);
        return STATUS_CALL;
    }
    return subcommand->run(&call);
}

/* Finds the subcommand that is called. */
static enum status dispatch(char **words, size_t count) {
    if (count == 0) {
        return wrong_call("no subcommand", "look, check, get, write, pack, unpack, verify, number, date, days, day or help is wanted");
    }
    if (asks_for_help(words[0])) {
        print_overview();
        return STATUS_WELL;
    }
    if (strcmp(words[0], "--version") == 0) {
        printf("tackacorn %s\n", tackacorn_version());
        return STATUS_WELL;
    }
    const struct subcommand *subcommand = named(words[0]);
    if (subcommand == NULL) {
        return wrong_call(words[0], words[0][0] == '-' ? "no such option" : "no such subcommand");
    }
    return run(subcommand, words + 1, count - 1);
}

int main(int argc, char **argv) {
    return (int)finish(dispatch(argv + 1, argc > 0 ? (size_t)argc - 1 : 0));
}
