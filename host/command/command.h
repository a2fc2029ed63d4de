/* What the parts of the command `tackacorn` share. Each subcommand is one function in a file of its own, but that
 * those on dates share one, and one line of the table in main.c. */
#ifndef COMMAND_H
#define COMMAND_H

#include "tackacorn.h"

#include <stdio.h>

/* How the command ends. Of several files or scalars the greatest counts. */
enum status {
    STATUS_WELL = 0,      /* all was well */
    STATUS_REFUSED = 1,   /* a save, a sheet file or a scalar is refused, or a save cannot be written */
    STATUS_CALL = 2,      /* the command was called wrongly */
    STATUS_SYSTEM = 3,    /* the system refused: a missing file, no memory, a full disk */
    STATUS_NOT_FOUND = 4  /* get: the save is well, and has no such value */
};

/* A call of a subcommand: its options, and the words behind them. */
struct call {
    bool numbers;
    bool raw;
    char **words;
    size_t count;
};

/* A line of the table of subcommands. */
struct subcommand {
    const char *name;
    const char *usage; /* the words behind the name */
    const char *about; /* what it does, in a line */
    const char *help;  /* the rest that a person wants to know */
    size_t least;      /* how many words it takes */
    size_t most;
    bool parses;       /* whether it parses saves, and takes --raw */
    enum status (*run)(const struct call *call);
};

/* main.c: the table, how many lines it has, and the line of a name or NULL. */
extern const struct subcommand subcommands[];
extern const size_t subcommand_count;
const struct subcommand *named(const char *name);
enum status wrong_call(const char *word, const char *what);

/* help.c */
void print_overview(void);
void print_subcommand(const struct subcommand *subcommand);

/* What was read of a file: its name, for a person to read, and its bytes. */
struct input {
    const char *name;
    uint8_t *bytes;
    size_t length;
};

/* A save: its bytes, the tape that is lent to the parser, and what the parser answered; or the writer, whose
 * refusals have no place. A sheet that was read from a file is one without the bytes: of its text it has the length.
 * A scalar that is refused is told as one, with its name and the refusal alone. */
struct save {
    const char *name;
    uint8_t *text;
    size_t length;
    uint32_t *words;
    size_t word_count;
    uint32_t count;
    uint32_t bom;
    uint32_t refusal;
    size_t place;
};

/* A token's words. */
struct token {
    uint32_t code;
    uint32_t a;
    uint32_t b;
};

/* input.c */
enum status read_input(struct input *input, const char *file, size_t limit, const char *no_memory);

/* save.c */
enum status load(struct save *save, const char *file, const struct call *call);
void drop(struct save *save);
struct token token_at(const struct save *save, size_t index);

/* sheet.c */
enum status load_sheet(struct save *sheet, const char *file);

/* look.c */
const char *name_of(uint32_t code);
void print_tokens(const struct save *save);

/* say.c */
enum status complain(const char *name, const char *what);
enum status finish(enum status status);
void show(FILE *out, const uint8_t *bytes, size_t length);
void show_name(FILE *out, const char *name);
void tell_refusal(const struct save *save, const struct call *call);
enum status refuse_scalar(const char *word, uint32_t refusal, const struct call *call);
enum status worse(enum status one, enum status other);
enum status each_word(const struct call *call, enum status (*with)(const char *word, const struct call *call));

/* The subcommands. */
enum status look(const struct call *call);
enum status check(const struct call *call);
enum status get(const struct call *call);
enum status write_back(const struct call *call); /* `write` is the C library's */
enum status pack(const struct call *call);
enum status unpack(const struct call *call);
enum status verify(const struct call *call);
enum status number(const struct call *call);
enum status date(const struct call *call);
enum status days(const struct call *call);
enum status day(const struct call *call);
enum status help(const struct call *call);

#endif
