/* Tackacorn: the text of a save as a tape of tokens, the readings of its scalars, dates and day counts, the way
 * back to text, and sheets on file.
 *
 * BEFORE YOU BOOK FROM A SAVE
 *
 *  - A save that was cut short may parse. A text may end behind any value at the top level, and inside
 *    an object that stands there, which then counts as closed: "GER={ fighter=19" is 5 tokens and no
 *    refusal, though the file may have said 190. The Rust does the same. Of the places where a deep save
 *    can be cut about one in forty is such, of a flat one far more. Hold the length or a checksum of the
 *    file against what was sent; parsing does not tell.
 *  - What stands in quotes has one of two codes, TACKACORN_QUOTED or, with a backslash in it,
 *    TACKACORN_QUOTED_ESCAPE. A program that asks for the first alone passes over "Flotte \"Nord\"", and
 *    one that asks for codes up to TACKACORN_HEADER too. The bytes stand as in the save: to show a
 *    name, drop each backslash and keep the byte behind it.
 *  - tackacorn_to_f64 takes "18446744073709551616.5" for 0.5. See there for why, and for what to do. It
 *    takes the airframe "109f" for 109, and tackacorn_to_i64 takes "-" for 0: ask tackacorn_kind first,
 *    to which these are names.
 *  - tackacorn_to_i64_part takes the airframe "109E4" for 109 with 2 bytes left over, and the second part of
 *    the version "1.-.2" for 0. See there for what must be looked at. It is not for dates: those are read by
 *    tackacorn_to_date.
 *  - The calendar of the dates has no leap years: a day count is none of the world's calendar, and nothing for
 *    time_t. It leaves the hour out, and the counts of two dates must be subtracted in a signed type. See
 *    tackacorn_to_date before you reckon with dates.
 *  - A text save of the game begins with a line like "HOI4txt", which is no part of the format: the
 *    parser takes it for a key, and what follows for something else than it is. Before you parse, write
 *    spaces over that line, so that every offset stays the file's; or pass the text behind the line and
 *    add the line's length to every offset and place. (The command `tackacorn` does the former.)
 *  - A call that refuses still writes: tackacorn_parse leaves the whole tape, the count and the BOM zero
 *    and tells the place, tackacorn_write leaves buffer, scratch and length zero, tackacorn_sheet_write
 *    buffer and length, tackacorn_sheet_read words, text length and count, the readings leave their value
 *    zero, tackacorn_to_i64_part what is left over too, and the calls on dates leave zeros, though 0 is a day
 *    count as well, that of 1.1.1. What stood there before is gone, and a 0 that stands there then is no number
 *    that was read. Look at the answer of every call.
 *  - Not every save that parses can be written back, and what is written may be read otherwise by another
 *    program. See tackacorn_write before you hand its text to the game.
 *  - A sheet file holds no text, and a sound one may fit another text than yours. See tackacorn_sheet_read
 *    before you trust a sheet that somebody sent.
 *
 * WHAT IS PROMISED, AND WHAT YOU PROMISE
 *
 * Every function here but tackacorn_version and tackacorn_refusal_text is proved to meet its contract for
 * every argument that its types allow: it reads and writes only what is described, it ends, and its answer
 * is the one that the format's definition gives (docs/FORMAT.md in the sources). What C's types cannot
 * say, and nothing checks, is the caller's part:
 *
 *  - A text, a scalar, a file, a tape, words, a buffer or a scratch are a pointer and how many elements (bytes,
 *    or 32-bit words, not bytes of words) stand there. All of them must be there to read, and for a tape, a
 *    buffer, a scratch and the words of tackacorn_sheet_read to write. The pointer is not NULL and is aligned
 *    for its type, also where the length is 0.
 *  - A pointer to a single number points to one number of that type, which is written and never read.
 *  - What a call writes (the tape, the buffer, the scratch, the words of tackacorn_sheet_read, each single
 *    number) overlaps nothing else that it is passed, and no other thread reads or writes it during the call.
 *    What a call only reads may be shared.
 *
 * Nothing is kept and nothing is allocated: all memory is the caller's, before, during and after a call.
 * A call takes less than 2 KB of stack, but for tackacorn_write, which goes down into the containers, to
 * TACKACORN_LEVEL_LIMIT levels, and takes less than 64 KB. The library is for x86-64 Linux, and needs nothing
 * but memset.
 *
 * Refusals are numbers, 0 for none, and every number that a call writes is written on a refusal too.
 */
#ifndef TACKACORN_H
#define TACKACORN_H

#include <stdbool.h>
#include <stddef.h>
#include <stdint.h>

#ifdef __cplusplus
extern "C" {
#endif

/* The version of this header, as words and as a number that rises: 10000 * first + 100 * second + third.
 * The first part rises where a program that was built with an older header would read a tape wrongly, and
 * with it the name of the shared library; the second where something is added; the third else. */
#define TACKACORN_VERSION "2.4.2"
#define TACKACORN_VERSION_NUMBER 20402

/* The most bytes that a text may have. */
#define TACKACORN_TEXT_LIMIT 16777215

/* How deep containers may stand in each other for tackacorn_write. */
#define TACKACORN_LEVEL_LIMIT 64

/* How many words a token takes on a tape. */
#define TACKACORN_WORDS_PER_TOKEN 3

/* Words that are room enough for any text of so many bytes: 2 * bytes + 1 tokens. */
#define TACKACORN_WORDS_FOR(bytes) (TACKACORN_WORDS_PER_TOKEN * (2 * (size_t)(bytes) + 1))

/* Bytes that are room enough for what tackacorn_write makes of any sheet of so many tokens over a text of so
 * many bytes: the views are parts of the text that do not overlap, and a token adds at most 3 bytes to its
 * view, one before it, and two quotes or an operator's sign. More than TACKACORN_TEXT_LIMIT are never
 * wanted. */
#define TACKACORN_BYTES_FOR(bytes, count) ((size_t)(bytes) + 3 * (size_t)(count))

/* How many bytes of a sheet file stand before its tokens, and how many each token takes. */
#define TACKACORN_FILE_HEAD 12
#define TACKACORN_FILE_TOKEN 9

/* The bytes of a sheet file of so many tokens. */
#define TACKACORN_FILE_BYTES_FOR(count) (TACKACORN_FILE_HEAD + TACKACORN_FILE_TOKEN * (size_t)(count))

/* Words that are room enough for the tokens of any sheet file of so many bytes: it has fewer than
 * bytes / TACKACORN_FILE_TOKEN. */
#define TACKACORN_FILE_WORDS_FOR(bytes) (TACKACORN_WORDS_PER_TOKEN * ((size_t)(bytes) / TACKACORN_FILE_TOKEN))

/* The last day that has a count: that of 9999.12.31. Day 0 is 1.1.1. */
#define TACKACORN_LAST_DAY 3649634

/* Why a text, a view, a reading, a sheet, a file or a date is refused. tackacorn_refusal_text has these in
 * words. */
enum tackacorn_refusal {
    TACKACORN_OK = 0,
    TACKACORN_TOO_LONG = 1,          /* the text has more than TACKACORN_TEXT_LIMIT bytes */
    TACKACORN_EOF = 2,               /* the text ends too early */
    TACKACORN_STACK_EMPTY = 3,       /* a '}' with nothing open */
    TACKACORN_NO_HEADER = 4,         /* a '{' with neither a key nor a header before it */
    TACKACORN_NO_VALUE = 5,          /* a '}' where a value is due */
    TACKACORN_MIXED_PARAMETER = 6,   /* a '[' that opens a mixed container */
    TACKACORN_NOTHING_PRECEDES = 7,  /* an operator with no scalar before it */
    TACKACORN_UNKNOWN_OPERATOR = 8,  /* bytes that begin as an operator and are none */
    TACKACORN_NO_PARAMETER = 9,      /* a '[' that no '[' follows */
    TACKACORN_OPEN_NAME = 10,        /* a parameter's name that no ']' ends */
    TACKACORN_FULL = 11,             /* a token finds no room on the tape */
    TACKACORN_NO_SCALAR = 12,        /* no view: see tackacorn_view */
    TACKACORN_ALL_DIGITS = 21,       /* the bytes are no number of this form */
    TACKACORN_OVERFLOW = 22,         /* the number is too large */
    TACKACORN_INVALID_BOOL = 23,     /* neither 'yes' nor 'no' */
    TACKACORN_PRECISION_LOSS = 24,   /* no double is this number: the nearest is given */
    TACKACORN_FILE_LENGTH = 31,      /* a file has under 12 bytes, or another length than it says */
    TACKACORN_UNKNOWN_VERSION = 32,  /* a file of another version */
    TACKACORN_FILE_NOT_SOUND = 33,   /* tackacorn_check says no to the sheet that is written or read */
    TACKACORN_FILE_NO_ROOM = 34,     /* the buffer is under the file, or the words are under its tokens */
    TACKACORN_FILE_TOO_LARGE = 35,   /* the text's length or the file's own is too large for its field */
    TACKACORN_FILE_COUNT = 36,       /* a file's length is not that of a file of so many tokens */
    TACKACORN_NOT_SOUND = 41,        /* tackacorn_check says no */
    TACKACORN_TOO_DEEP = 42,         /* containers stand in each other deeper than TACKACORN_LEVEL_LIMIT */
    TACKACORN_WRITTEN_TOO_LONG = 43, /* the text to write has more than TACKACORN_TEXT_LIMIT bytes */
    TACKACORN_NO_ROOM = 44,          /* the buffer is under the text, or the scratch under the tokens */
    TACKACORN_READS_OTHERWISE = 45,  /* the text to write does not parse to the sheet */
    TACKACORN_OTHER_FORM = 46,       /* a parameter, or pairs that are none: see tackacorn_write */
    TACKACORN_NOT_A_DATE = 51,       /* no three or four numbers with points between them: see tackacorn_to_date */
    TACKACORN_OUT_OF_RANGE = 52      /* a part of a date, or a day count, that the calendar does not have */
};

/* What a token is: the first of its three words. a and b are the second and the third. */
enum tackacorn_code {
    TACKACORN_NOTHING = 0,              /* no token */
    TACKACORN_ARRAY = 1,                /* a: index of its End, b: whether it is mixed, 0 or 1 */
    TACKACORN_OBJECT = 2,               /* the same */
    TACKACORN_MIXED_CONTAINER = 3,      /* a, b: 0 */
    TACKACORN_UNQUOTED = 4,             /* a: offset in the text, b: length, in bytes */
    TACKACORN_QUOTED = 5,               /* the same, without the quotes; no backslash is in it */
    TACKACORN_PARAMETER = 6,            /* as Unquoted */
    TACKACORN_UNDEFINED_PARAMETER = 7,  /* as Unquoted */
    TACKACORN_OPERATOR = 8,             /* a: a tackacorn_operator, b: 0 */
    TACKACORN_END = 9,                  /* a: index of its opener, b: 0 */
    TACKACORN_HEADER = 10,              /* as Unquoted; a container is next */
    TACKACORN_QUOTED_ESCAPE = 11        /* as Quoted, with a backslash in it; escapes stand as they are */
};

/* A key and its value with '=' between them have no operator on the tape, except in an array that holds
 * both entries and pairs (behind a MixedContainer), where '=' is TACKACORN_EQUAL. */
enum tackacorn_operator {
    TACKACORN_LESS_THAN = 1,
    TACKACORN_LESS_THAN_EQUAL = 2,
    TACKACORN_GREATER_THAN = 3,
    TACKACORN_GREATER_THAN_EQUAL = 4,
    TACKACORN_NOT_EQUAL = 5,
    TACKACORN_EXACT = 6,
    TACKACORN_EQUAL = 7,
    TACKACORN_EXISTS = 8
};

enum tackacorn_scalar_kind {
    TACKACORN_BOOL = 1,
    TACKACORN_WHOLE = 2,
    TACKACORN_DECIMAL = 3,
    TACKACORN_NAME = 4
};

/* TACKACORN_VERSION of the library that the program runs with, which for a shared library may be another
 * than that of the header. And a refusal in a person's words, without a full stop: "a '}' where a value is
 * due"; for 0 "no refusal", and for a number that is none "no such refusal". Both answer words that stay,
 * that nobody frees or changes, and that a zero ends. They are plain C (host/library/words.c), compiled
 * into the static and the shared library beside what is proved. */
const char *tackacorn_version(void);
const char *tackacorn_refusal_text(uint32_t number);

/* Parses a text onto a tape.
 *
 * Reads the text. Writes every word of the tape, whatever stood there: on success the tokens, three
 * words each, from the first word on, and zeros behind them; on a refusal zeros.
 *
 * Answers TACKACORN_OK: *count is how many tokens were laid, *bom is 1 if the text began with the bytes
 * ef bb bf and else 0, *place is 0. Or answers a refusal from 1 to 11: *count and *bom are 0, and *place
 * is the offset in the text where the refusal stands, 0 for TOO_LONG, EOF and FULL, which have none. For
 * NOTHING_PRECEDES and UNKNOWN_OPERATOR it is one before the operator, as in the Rust.
 *
 * TACKACORN_OK does not say that the text is whole: see the first lines above.
 *
 * Offsets count from the first byte of the text, the BOM included. The tape has room for tape_length / 3
 * tokens. TACKACORN_WORDS_FOR(text_length) words are enough for any text (24 bytes for each byte of text);
 * half a word for each byte is enough for many saves (3 bytes with the text) and a word for most (5), and
 * FULL says when it was not. */
uint32_t tackacorn_parse(const uint8_t *text, size_t text_length, uint32_t *tape, size_t tape_length,
                         uint32_t *count, uint32_t *bom, size_t *place);

/* Whether the first count tokens of the words are a sound sheet for a text of text_length bytes: that
 * every token has a form of the table above, every opener and its End name each other, containers lie in
 * each other, every view lies in the text and after the view before it, and so on. It is true for what
 * tackacorn_parse leaves; ask it of words that come from elsewhere before you trust them.
 *
 * Reads 3 * count words, or none where there are fewer, and nothing of the text. Writes nothing. */
bool tackacorn_check(size_t text_length, const uint32_t *words, size_t words_length, size_t count);

/* The three words of token index of a sheet of count tokens, or zeros where index is not below count
 * or the words are not there. Writes *code, *a and *b. */
void tackacorn_token(const uint32_t *words, size_t words_length, size_t count, size_t index, uint32_t *code,
                     uint32_t *a, uint32_t *b);

/* Where token index of a sheet of count tokens lies in the text.
 *
 * Answers TACKACORN_OK: the scalar is the *size bytes from text + *offset on, which are within the
 * text. They are a part of your text, as it stands there: it is no copy, and no zero ends it. Or answers
 * TACKACORN_NO_SCALAR, with *offset and *size 0: index is not below count, 3 * count is over
 * words_length, the token is no scalar (codes 4, 5, 6, 7, 10, 11), or it reaches out of the text. */
uint32_t tackacorn_view(const uint8_t *text, size_t text_length, const uint32_t *words, size_t words_length,
                        size_t count, size_t index, size_t *offset, size_t *size);

/* Writes a sheet as save text: the first count tokens of the words, whose views lie in the text.
 *
 * Reads the text and the words. Writes every byte of the buffer out and every word of the scratch, whatever
 * stood there: on success the text written, from the first byte on, and zeros behind it; on a refusal zeros.
 * The scratch is zero afterwards, whatever is answered: the text written is parsed on it once more.
 *
 * Answers TACKACORN_OK: *written is the length of the text written. It parses, by tackacorn_parse, to a
 * tape with the same codes, the same links, flags and operators, and the same bytes in each scalar; offsets
 * are its own. Or answers a refusal, and *written is 0. Each is looked for in the whole sheet before the
 * next:
 *
 *   NOT_SOUND         tackacorn_check(text_length, words, words_length, count) is false
 *   OTHER_FORM        a token is a Parameter or an UndefinedParameter; or at the top level or in an object,
 *                     before its first MixedContainer, a key is no Unquoted, Quoted or QuotedEscape, or no
 *                     entry follows a key and at most one operator
 *   TOO_DEEP          containers stand in each other more than TACKACORN_LEVEL_LIMIT deep, an empty one
 *                     counted
 *   WRITTEN_TOO_LONG  the text written would have more than TACKACORN_TEXT_LIMIT bytes
 *   NO_ROOM           out_length is under the text, or scratch_length / TACKACORN_WORDS_PER_TOKEN under count
 *   READS_OTHERWISE   the text written would be refused by tackacorn_parse, or parse to something else
 *
 * What is written: at the top level and in an object each key, then '=', or where an operator stands there
 * its sign with a space on either side, then the entry, up to a MixedContainer, which writes nothing and
 * behind which entries follow as in an array; in an array each entry, and an operator's sign as one. One
 * space stands between entries or pairs. A Header, a space and its container are one entry. Braces stand
 * round containers, quotes round Quoted and QuotedEscape, whose escapes stand as they are:
 * GER={name="Luftwaffe" amount > 3 depot={3 12 reserve = yes}}.
 *
 * For out TACKACORN_BYTES_FOR(text_length, count) bytes are always enough, for the scratch
 * TACKACORN_WORDS_PER_TOKEN * count words: then NO_ROOM does not come. out, scratch and written overlap
 * nothing.
 *
 * BEFORE YOU HAND THE TEXT TO THE GAME
 *
 *  - Some saves parse and cannot be written back: those with parameters (OTHER_FORM), deep ones (TOO_DEEP),
 *    those whose text would pass the limit, as that of many quoted entries side by side (WRITTEN_TOO_LONG),
 *    and by READS_OTHERWISE those with a value or a Header that is the one byte '=' behind '=' ("a= =",
 *    "a= ={b}"); those with a pair of '=' and no container for its value, where pairs begin anew behind a
 *    container of a mixed part ("a b{}c=d"); those where a container lost its only content behind a Header
 *    ("a=b{{}}") or at the begin of an array ("a={{{}}}"); and those whose first key begins with a second BOM.
 *    Never refused by READS_OTHERWISE is a plain sheet: key and entry in turn, no operator, MixedContainer,
 *    flag, Header or QuotedEscape, unquoted bytes only ASCII letters, digits, '_', '.' and '-', quoted bytes
 *    any but quote and backslash, no empty object, no array that begins with an empty container.
 *  - A save that was cut short is written with its last object closed, and nothing shows any more that it
 *    was: "GER={ fighter=19" becomes "GER={fighter=19}".
 *  - Nothing is written but the tokens. A BOM, comments, and blanks and line ends between tokens are gone, no
 *    LF ends the text, and a program that wants them must write them itself. So is the line "HOI4txt" of the
 *    file where you kept it from the parser. Where you did not, it is a key, nothing need be refused, and it
 *    is written as one: "HOI4txt GER = {fighter=19}".
 *  - The text reads the same for this parser. A key or value in which a '!' stands, as "a!", is written as
 *    it is, and "a!=b" is the key "a!" here, but may be "a" and the operator "!=" to the Rust and to the
 *    game. Look for '!', 0x0b and 0x0c in unquoted scalars that come from a stranger.
 *
 * BEFORE YOU EDIT A SHEET
 *
 *  - The text is held against the sheet, not against what you meant. A pair that loses its key or its entry
 *    takes the next token for it, and nothing is refused: "a=1 b=2 c=3" without its tokens 1 and 3 is written
 *    as "a=b c=3". Take out key, operator and entry together.
 *  - A token that is taken out or put in moves all that stand behind it, and every link to one of them, the a
 *    of an opener or an End, must follow.
 *  - An object that is left empty must become an Array, which "{}" reads as, and a container whose
 *    MixedContainer goes must lose its flag; else the answer is READS_OTHERWISE.
 *  - A view must lie in the text, behind the view before it. For a new value, copy the views into a text of
 *    their own, one behind the other with a byte between them, and let the tokens name their new places. A
 *    quoted one with a backslash in it is code 11, and code 5 without. examples/edit_order.c does this. */
uint32_t tackacorn_write(const uint8_t *text, size_t text_length, const uint32_t *words, size_t words_length,
                         size_t count, uint8_t *out, size_t out_length, uint32_t *scratch,
                         size_t scratch_length, size_t *written);

/* Writes a sheet as a sheet file, to be kept or sent: the first count tokens of the words, of a text of
 * text_length bytes.
 *
 * Reads 3 * count words, or none where there are fewer, and nothing of the text. Writes every byte of the
 * buffer out, whatever stood there: on success the file, from the first byte on, and zeros behind it; on a
 * refusal zeros.
 *
 * Answers TACKACORN_OK: *written is the file's length, which is TACKACORN_FILE_BYTES_FOR(count). From these
 * bytes tackacorn_sheet_read reads the same text length, count and words. Or answers a refusal, and *written
 * is 0. The first of these that holds:
 *
 *   FILE_NOT_SOUND  tackacorn_check(text_length, words, words_length, count) is false
 *   FILE_TOO_LARGE  text_length is over 16777215, or the file would have more than 4294967295 bytes
 *   FILE_NO_ROOM    out_length is under TACKACORN_FILE_BYTES_FOR(count)
 *
 * The check knows no limit of a text's length: a sheet may be sound and be refused by FILE_TOO_LARGE.
 *
 * A file has these fields, each number with its highest byte first: the file's own length in four bytes, the
 * version, which is 1, in one, the text's length in three, the count in four; then for each token its code in
 * one byte, a in four and b in four. The text is not in it, and not whether it began with a BOM: keep or send
 * the text beside it. */
uint32_t tackacorn_sheet_write(size_t text_length, const uint32_t *words, size_t words_length, size_t count,
                               uint8_t *out, size_t out_length, size_t *written);

/* Reads a sheet from a sheet file, whatever its bytes are.
 *
 * Reads the file. Writes every word, whatever stood there: on success the tokens, three words each, from the
 * first word on, and zeros behind them; on a refusal zeros.
 *
 * Answers TACKACORN_OK: *text_length is the length of the text that the sheet is of, *count is how many tokens
 * it has, and tackacorn_check(*text_length, words, words_length, *count) is true. tackacorn_sheet_write makes
 * the same bytes of them again: no two files hold one sheet. Or answers a refusal, and *text_length and *count
 * are 0. The first of these that holds:
 *
 *   FILE_LENGTH      file_length is under TACKACORN_FILE_HEAD, or the file says another length
 *   UNKNOWN_VERSION  the version is not 1
 *   FILE_COUNT       file_length is not TACKACORN_FILE_BYTES_FOR of the count that the file says
 *   FILE_NOT_SOUND   tackacorn_check is false of what the file holds
 *   FILE_NO_ROOM     words_length is under TACKACORN_WORDS_PER_TOKEN times the count
 *
 * A file that finds no room was checked before: FILE_NO_ROOM says that it is sound. For words
 * TACKACORN_FILE_WORDS_FOR(file_length) are always enough: then FILE_NO_ROOM does not come.
 *
 * BEFORE YOU TRUST A SHEET FROM A FILE
 *
 *  - You must bring the right text. A file holds none, and nothing of its bytes: over another text of the same
 *    length every view is a part of that one, wrong and not refused. Hold *text_length against the text that
 *    you have, which tells a text of another length, and a checksum of the text against what was sent, which
 *    tells the others. It is the text that was parsed: its BOM counts, and so do the spaces over a first line
 *    like "HOI4txt".
 *  - A sheet from a stranger may be sound and yet be no parse of any text. A Quoted may have a backslash in its
 *    bytes, or no quotes round them; an Unquoted may have blanks in it; a flag may be set where no
 *    MixedContainer is; a key may have no value; and operators and MixedContainers may stand by the million
 *    over a text of no bytes. Where that matters, parse the text, and hold its words against what was read.
 *  - A file proves nothing of who wrote it. One that was cut short, or that grew, is refused; one in which a
 *    byte was changed may be as sound as before. Hold a checksum of the file against what was sent.
 *  - A sheet of no tokens is sound, and its file has 12 bytes: a count of 0 is no refusal, and a refusal leaves
 *    one. Only the answer tells.
 *  - A file may have up to 4294967295 bytes and be sound. tackacorn_parse lays at most 2 * n + 1 tokens of a
 *    text of n bytes, so a larger file than TACKACORN_FILE_BYTES_FOR(2 * n + 1) is no parse of it: bound what
 *    you read into memory.
 *  - A file of version 1 may have TACKACORN_QUOTED_ESCAPE, code 11, which is taken here. A reader of version 1
 *    that is older than that code calls such a file not sound. */
uint32_t tackacorn_sheet_read(const uint8_t *file, size_t file_length, uint32_t *words, size_t words_length,
                              size_t *text_length, uint32_t *count);

/* The readings of a scalar's bytes. Each reads the bytes and writes *value: what it reads, or 0 on a
 * refusal, but for PRECISION_LOSS. They answer as the Rust does, also where that surprises:
 *
 *  - A lone sign is a number: "-" is 0 to to_i64, to_i64_part and to_f64, "+" is 0 to to_u64 as well. So are
 *    ".", "-." and ".f" to to_f64 (0, -0 and 0), and "+f" and "-f". "f" alone is none. If a number must have a
 *    digit, ask tackacorn_kind first: none of these is a number to it. For to_i64_part see there.
 *  - -2^63, "-9223372036854775808", is OVERFLOW to to_i64 and to_i64_part, and to to_f64 where it has no
 *    point: the digits are read before the minus.
 *  - No letter is an exponent: "109E4" is ALL_DIGITS to every reading but to_i64_part, which reads the 109
 *    and leaves "E4" over. A closing 'f' is part of a decimal: to_f64 reads "109f" as 109, though it may be
 *    an airframe. tackacorn_kind calls it a Name. */

/* 'yes' is 1 and 'no' is 0; all else is INVALID_BOOL. */
uint32_t tackacorn_to_bool(const uint8_t *scalar, size_t length, uint32_t *value);

/* An optional '+' and digits. ALL_DIGITS for any other byte, '-' included, and for no byte at all;
 * else OVERFLOW above 2^64 - 1. */
uint32_t tackacorn_to_u64(const uint8_t *scalar, size_t length, uint64_t *value);

/* An optional sign and digits. OVERFLOW where the digits are above 2^63 - 1, also after a minus and
 * before other bytes; else ALL_DIGITS where another byte follows them, and for no byte at all. */
uint32_t tackacorn_to_i64(const uint8_t *scalar, size_t length, int64_t *value);

/* The number that a scalar begins with, and how many bytes are left over behind it: an optional sign, digits,
 * and whatever stands after them.
 *
 * Answers TACKACORN_OK: *value is the number, and the rest is the last *left bytes of the scalar. It begins at
 * scalar + (length - *left), and with no digit. Or answers a refusal, and *value and *left are 0: OVERFLOW
 * where the digits are above 2^63 - 1, also after a minus and whatever follows them; ALL_DIGITS for no byte at
 * all, and where the first is neither a sign nor a digit.
 *
 * "1.14.2" is 1 and leaves ".14.2", "12" is 12 and leaves nothing. tackacorn_to_i64 is this reading where
 * nothing is left, and ALL_DIGITS where bytes are.
 *
 * BEFORE YOU TAKE THE NUMBER
 *
 *  - Nothing of the rest is looked at: "109E4" is 109 and leaves "E4", "12.5" is 12 and leaves ".5". Where the
 *    whole scalar must be the number, ask tackacorn_kind and tackacorn_to_i64.
 *  - A refusal leaves 0 bytes too: *left does not tell whether all was read. Only the answer does.
 *  - A sign with no digit behind it is the number 0: "-" is 0 and leaves nothing, "-x" is 0 and leaves "x", and
 *    "1.-.2" has a 0 for its second part, with no refusal. Where a part must have a digit, look at the byte
 *    that it begins with.
 *  - Each part may have a sign, and zeros before its digits: the parts of "1.-14.02" are 1, -14 and 2.
 *  - It knows no calendar, and OVERFLOW tells no rest. A date like "1936.1.12" is read by tackacorn_to_date.
 *
 * This reads the three parts of a game version like "1.14.2": each begins with a digit, a point stands before
 * the second and the third, and nothing behind them. Where it answers false, the parts say nothing. A version of
 * two parts or of four is answered false, as is one with a letter behind it, "1.14.2b", and one with a part above
 * 2^63 - 1: where you want these, read them in the same way.
 *
 *     static bool read_version(const uint8_t *scalar, size_t length, int64_t parts[3]) {
 *         size_t at = 0;
 *         for (size_t i = 0; i < 3; i++) {
 *             size_t left;
 *             if (i > 0 && (at == length || scalar[at++] != '.')) {
 *                 return false;
 *             }
 *             if (at == length || scalar[at] < '0' || scalar[at] > '9') {
 *                 return false;
 *             }
 *             if (tackacorn_to_i64_part(scalar + at, length - at, &parts[i], &left) != TACKACORN_OK) {
 *                 return false;
 *             }
 *             at = length - left;
 *         }
 *         return at == length;
 *     }
 */
uint32_t tackacorn_to_i64_part(const uint8_t *scalar, size_t length, int64_t *value, size_t *left);

/* A sign, digits, a point, digits and a closing 'f', each as it may be left out. ALL_DIGITS for any other
 * form, OVERFLOW for a number too large or over 22 digits behind the point. A number without a point
 * that is over 2^53 - 1 is PRECISION_LOSS, and *value is the nearest double.
 *
 * With a point, a whole part over 2^64 - 1 is taken modulo 2^64 and NOT refused: "18446744073709551616.5"
 * answers TACKACORN_OK and 0.5. The Rust gathers the digits before the point without a look at their
 * size, and begins to look behind it; this library answers as the Rust. It takes 20 digits before the
 * point at the least. So, before you trust a scalar of more than 20 bytes that tackacorn_kind calls a
 * Decimal, ask tackacorn_to_u64 of the digits between the sign and the point: where that answers OVERFLOW,
 * the value is not what was written. */
uint32_t tackacorn_to_f64(const uint8_t *scalar, size_t length, double *value);

/* What an unquoted scalar is, a tackacorn_scalar_kind, by its form and size alone. 'yes' and 'no' are a Bool.
 * A number is an optional sign, digits and at most one point, with at least one digit; an 'f' may close it
 * only where there is a point. Without a point it is Whole up to 2^63 - 1, and Decimal above that, up to
 * 2^64 - 1 and never with a minus. With a point it is Decimal where at most 22 digits stand behind it and
 * to_f64 does not answer OVERFLOW. All else is a Name.
 *
 * So "10.0f", "5." and ".5" are Decimals, and "109f", "109E4", "-", "+" and "." are Names. What is Whole
 * to_i64 answers, and what is a Decimal to_f64 answers or gives PRECISION_LOSS. The readings take more for
 * numbers: they answer "109f", "-" and "." as well, so that a scalar must be Whole or Decimal here before
 * what they answer is an amount. A Decimal of more than 20 bytes can still be another number than was
 * written: see to_f64. */
uint32_t tackacorn_kind(const uint8_t *scalar, size_t length);

/* A date: "1936.1.12", year, month and day, or with an hour behind them "1939.9.1.24".
 *
 * It is three or four parts with a point between them, and nothing else. A part is one digit or more and has no
 * sign; zeros in front count for nothing, however many. Years run from 1 to 9999, months from 1 to 12, days as far
 * as the month has them, hours from 1 to 24. Every year has 365 days, and its months have 31, 28, 31, 30, 31, 30,
 * 31, 31, 30, 31, 30 and 31.
 *
 * Reads the bytes. Writes *year, *month, *day and *hour, whatever it answers.
 *
 * Answers TACKACORN_OK: they are the parts, and *hour is 0 where no fourth one stands. Or answers a refusal, and
 * all four are 0: NOT_A_DATE where the scalar has not that shape, which is looked for over the whole of it first;
 * else OUT_OF_RANGE where a part is out of range, however large it is. "1936.1", "1936..12", "1936.1.12.",
 * "1936.1.12.3.4", "-1936.1.12", " 1936.1.12" and "" are NOT_A_DATE. "1936.2.29", "0.1.1", "1936.13.1",
 * "1936.1.12.0", "1936.1.12.25" and "99999999999999999999.1.1" are OUT_OF_RANGE, and
 * "99999999999999999999.1.x" is NOT_A_DATE.
 *
 * BEFORE YOU RECKON WITH DATES
 *
 *  - NOT_A_DATE comes before OUT_OF_RANGE: "1936.13.x" is the former, and says nothing of the month.
 *  - All four pointers are wanted, to four different numbers, and none is NULL, also where you do not want the hour.
 *  - An hour of 0 says that none stands there. No hour that stands there is read as 0: "1936.1.12.0" is OUT_OF_RANGE.
 *  - The hour is left out of the count: "1936.1.12.1" and "1936.1.12.24" are the same day, and 0 days lie between
 *    them. Where that matters, hold the hours against each other, too. Where one of the hours is 0, nothing is known
 *    of which of the two is the earlier.
 *  - There are no leap years: this is not the world's calendar. "1936.2.29" is no date, and from "1936.2.28" to
 *    "1936.3.1" it is one day. Never hand a count to the arithmetic of time_t, nor a count of that to
 *    tackacorn_from_days.
 *  - Zeros in front are read: "1936.1.12" and "1936.01.012" are the same date. Hold parts or counts against each
 *    other, never the bytes.
 *  - Counts have no sign, and a later date has the larger one. Subtract them in a signed type,
 *    (int64_t)b - (int64_t)a: as they are, from day 1 to day 0 it would be 4294967295 days.
 *  - A refusal leaves zeros, and 0 is a day count as well: day 0 is 1.1.1. Only the answer tells.
 *  - tackacorn_kind calls a date a Name. Ask this call, not the kind, whether a scalar is one.
 *
 * This call is not the Rust's, whose own dates were not at hand and may answer otherwise.
 *
 * This tells how many days it is from one date to another, below 0 where the second is the earlier. Where it
 * answers false, at least one of them is refused, and *between stays as it was.
 *
 *     static bool days_between(const uint8_t *from, size_t from_length, const uint8_t *to, size_t to_length,
 *                              int64_t *between) {
 *         uint32_t year, month, day, hour, first, second;
 *         if (tackacorn_to_date(from, from_length, &year, &month, &day, &hour) != TACKACORN_OK
 *             || tackacorn_to_days(year, month, day, &first) != TACKACORN_OK
 *             || tackacorn_to_date(to, to_length, &year, &month, &day, &hour) != TACKACORN_OK
 *             || tackacorn_to_days(year, month, day, &second) != TACKACORN_OK) {
 *             return false;
 *         }
 *         *between = (int64_t)second - (int64_t)first;
 *         return true;
 *     }
 */
uint32_t tackacorn_to_date(const uint8_t *scalar, size_t length, uint32_t *year, uint32_t *month, uint32_t *day,
                           uint32_t *hour);

/* The day count of a date: how many days it stands behind 1.1.1, which is day 0. The next day has the next count.
 *
 * Answers TACKACORN_OK: *days is the count, at most TACKACORN_LAST_DAY. Or answers OUT_OF_RANGE, and *days is 0:
 * the calendar has no such day. Any numbers may be asked for; those that tackacorn_to_date answers with
 * TACKACORN_OK are never refused, and the zeros that it leaves on a refusal always are. */
uint32_t tackacorn_to_days(uint32_t year, uint32_t month, uint32_t day, uint32_t *days);

/* The date of a day count: the way back. It knows of no hour.
 *
 * Answers TACKACORN_OK: *year, *month and *day are the date whose count is days. Or answers OUT_OF_RANGE, and all
 * three are 0: days is above TACKACORN_LAST_DAY. A count from which some days too many were taken has wrapped, and
 * is refused, but one that took a larger step may have wrapped into the range: to go on or back from a day, reckon
 * in an int64_t, and look at the sum before it becomes a uint32_t. */
uint32_t tackacorn_from_days(uint32_t days, uint32_t *year, uint32_t *month, uint32_t *day);

#ifdef __cplusplus
}
#endif

#endif
