/* The library's part in plain C: its version, and its refusals in words. Nothing of it is proved; all else
 * that the header declares is crate `capi`. */
#include "tackacorn.h"

#define QUOTE(macro) #macro
#define WORDS_OF(macro) QUOTE(macro)

/* The version that this library was built as. */
const char *tackacorn_version(void) {
    return TACKACORN_VERSION;
}

/* A refusal's number in a person's words. */
const char *tackacorn_refusal_text(uint32_t number) {
    switch (number) {
    case TACKACORN_OK: return "no refusal";
    case TACKACORN_TOO_LONG: return "the text has more than " WORDS_OF(TACKACORN_TEXT_LIMIT) " bytes";
    case TACKACORN_EOF: return "the text ends too early";
    case TACKACORN_STACK_EMPTY: return "a '}' with nothing open";
    case TACKACORN_NO_HEADER: return "a '{' with neither a key nor a header before it";
    case TACKACORN_NO_VALUE: return "a '}' where a value is due";
    case TACKACORN_MIXED_PARAMETER: return "a '[' that opens a mixed container";
    case TACKACORN_NOTHING_PRECEDES: return "an operator with no scalar before it";
    case TACKACORN_UNKNOWN_OPERATOR: return "bytes that begin as an operator and are none";
    case TACKACORN_NO_PARAMETER: return "a '[' that no '[' follows";
    case TACKACORN_OPEN_NAME: return "a parameter's name that no ']' ends";
    case TACKACORN_FULL: return "a token finds no room on the tape";
    case TACKACORN_NO_SCALAR: return "no scalar stands there";
    case TACKACORN_ALL_DIGITS: return "the bytes are no number of this form";
    case TACKACORN_OVERFLOW: return "the number is too large";
    case TACKACORN_INVALID_BOOL: return "neither 'yes' nor 'no'";
    case TACKACORN_PRECISION_LOSS: return "no double is this number: the nearest is given";
    case TACKACORN_FILE_LENGTH: return "the file is cut short or has another length than it says";
    case TACKACORN_UNKNOWN_VERSION: return "the file is of a version that is not known";
    case TACKACORN_FILE_NOT_SOUND: return "the sheet of the file is not sound";
    case TACKACORN_FILE_NO_ROOM: return "no room for the file, or for its tokens";
    case TACKACORN_FILE_TOO_LARGE: return "the text or the file is too large for a sheet file";
    case TACKACORN_FILE_COUNT: return "the file's length disagrees with its count of tokens";
    case TACKACORN_NOT_SOUND: return "the sheet is not sound";
    case TACKACORN_TOO_DEEP: return "containers stand in each other over " WORDS_OF(TACKACORN_LEVEL_LIMIT) " deep";
    case TACKACORN_WRITTEN_TOO_LONG: return "the text to write has more than " WORDS_OF(TACKACORN_TEXT_LIMIT) " bytes";
    case TACKACORN_NO_ROOM: return "no room for the text to write, or for its tokens";
    case TACKACORN_READS_OTHERWISE: return "the text to write would read differently";
    case TACKACORN_OTHER_FORM: return "a parameter, or pairs that are none, which cannot be written";
    case TACKACORN_NOT_A_DATE: return "the bytes do not have the shape of a date";
    case TACKACORN_OUT_OF_RANGE: return "a part of the date, or the day count, is out of range";
    default: return "no such refusal";
    }
}
