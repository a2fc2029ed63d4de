/* tackacorn help: what the command does, and each of its subcommands. */
#include "command.h"

/* What every help begins with: the one thing that an owner of saves must know. */
static void print_warning(void) {
    fputs("A save that was cut short may parse: it may end behind any value at the top level, and inside\n"
          "an object that stands there, which then counts as closed. Nothing is refused. Hold its length\n"
          "or a checksum against what was sent before you book from it.\n\n",
          stdout);
}

/* How a subcommand is called. */
static void print_usage(const struct subcommand *subcommand) {
    printf("usage: tackacorn %s %s\n", subcommand->name, subcommand->usage);
}

/* What holds of every subcommand: of their files and scalars, options, refusals and statuses. */
static void print_common(void) {
    printf("FILE and SAVE are saves, SHEET is a sheet file. Each is read whole; '-' is standard input,\n"
           "and so is no file at all. A save may have %d bytes, a sheet file as many as such a\n"
           "save can give. A first line of letters and digits that ends in 'txt', as HOI4txt, is no part\n"
           "of the save and is passed over. Lines, columns and offsets are the file's: lines and columns\n"
           "count from 1, a column is a byte, and a BOM has none. SCALAR, FROM, TO and COUNT are no files\n"
           "but the bytes of a value, and '-' is one. Options come before the file or the scalar, and '--'\n"
           "ends them. In a script always write it before values, as in 'date -- \"$value\"': a value of\n"
           "-h or --help prints the help, with status 0, and of --numbers is an option. The options are:\n"
           "  --raw      leave the first line to the parser, which takes it for a key\n"
           "  --numbers  print a refusal as 'refused NUMBER PLACE' on standard output, not in words\n\n"
           "A refusal is one line of standard error: FILE:LINE:COLUMN: refusal NUMBER: WORDS, and of\n"
           "write, where the save parses, and of a sheet file FILE: refusal NUMBER: WORDS; of a scalar\n"
           "SCALAR: refusal NUMBER: WORDS\n\n"
           "Status: 0 all was well; 1 a save, a sheet file or a scalar is refused; 2 a wrong call; 3 the\n"
           "system refused (a file is missing, unreadable or too large, no memory, the output cannot be\n"
           "written); 4 get found nothing.\n",
           TACKACORN_TEXT_LIMIT);
}

/* Prints what the command does. */
void print_overview(void) {
    fputs("tackacorn looks at text saves, checks them, gets values out of them, writes them back, keeps\n"
          "their tokens on file, reads the number that a scalar begins with, and reads dates and counts\n"
          "their days.\n\n",
          stdout);
    print_warning();
    for (size_t i = 0; i < subcommand_count; i++) {
        printf("  tackacorn %s %s\n      %s\n", subcommands[i].name, subcommands[i].usage, subcommands[i].about);
    }
    fputs("  tackacorn --version\n\n", stdout);
    print_common();
}

/* Prints what one subcommand does. */
void print_subcommand(const struct subcommand *subcommand) {
    print_usage(subcommand);
    printf("tackacorn %s: %s.\n\n", subcommand->name, subcommand->about);
    if (subcommand->run != help) {
        print_warning();
        printf("%s\n", subcommand->help);
        print_common();
    }
}

/* Prints the help, whole or of one subcommand. */
enum status help(const struct call *call) {
    if (call->count == 0) {
        print_overview();
        return STATUS_WELL;
    }
    const struct subcommand *subcommand = named(call->words[0]);
    if (subcommand == NULL) {
        return wrong_call(call->words[0], "no such subcommand");
    }
    print_subcommand(subcommand);
    return STATUS_WELL;
}
