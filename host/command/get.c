/* tackacorn get: the values that stand at a path of keys. It is the worked example of the calls: how a tape is
 * walked, what is a key and what a value, and how a scalar is read. */
#include "command.h"

#include <stdlib.h>
#include <string.h>

/* A place in a container's direct tokens: where the next entry stands, where they end, and whether keys and
 * values take turns, as in an object and at the top level up to a MixedContainer. */
struct cursor {
    size_t at;
    size_t end;
    bool pairs;
};

/* An entry: its value, and where it has a key the key and the operator between them, 0 for a plain '='. */
struct entry {
    bool has_key;
    size_t key;
    uint32_t sign;
    size_t value;
};

/* Whether a token opens a container. */
static bool is_container(struct token token) {
    return token.code == TACKACORN_ARRAY || token.code == TACKACORN_OBJECT;
}

/* Whether a token stands in quotes. */
static bool is_quoted(struct token token) {
    return token.code == TACKACORN_QUOTED || token.code == TACKACORN_QUOTED_ESCAPE;
}

/* Whether a token may be a key: a scalar that is no header of a container. */
static bool is_key(struct token token) {
    return is_quoted(token) || token.code == TACKACORN_UNQUOTED || token.code == TACKACORN_PARAMETER
           || token.code == TACKACORN_UNDEFINED_PARAMETER;
}

/* The container that a value is, behind its header if it has one; the value itself where it is none. */
static size_t container_of(const struct save *save, size_t value) {
    return token_at(save, value).code == TACKACORN_HEADER ? value + 1 : value;
}

/* The index behind a value: a container names its End. */
static size_t behind(const struct save *save, size_t value) {
    const size_t inner = container_of(save, value);
    const struct token token = token_at(save, inner);
    return is_container(token) ? (size_t)token.a + 1 : inner + 1;
}

/* The direct tokens of a container. */
static struct cursor inside(const struct save *save, size_t container) {
    const struct token token = token_at(save, container);
    return (struct cursor){container + 1, token.a, token.code == TACKACORN_OBJECT};
}

/* Takes the next entry: key and value with an operator between them, key and value where the two take turns,
 * or else a value alone. */
static bool next_entry(const struct save *save, struct cursor *cursor, struct entry *entry) {
    while (cursor->at < cursor->end && token_at(save, cursor->at).code == TACKACORN_MIXED_CONTAINER) {
        cursor->pairs = false;
        cursor->at++;
    }
    if (cursor->at >= cursor->end) {
        return false;
    }
    *entry = (struct entry){false, cursor->at, 0, cursor->at};
    if (is_key(token_at(save, cursor->at)) && cursor->at + 1 < cursor->end) {
        const struct token next = token_at(save, cursor->at + 1);
        const bool signed_pair = next.code == TACKACORN_OPERATOR && cursor->at + 2 < cursor->end;
        entry->sign = signed_pair ? next.a : 0;
        entry->has_key = signed_pair || cursor->pairs;
        entry->value = cursor->at + (signed_pair ? 2 : cursor->pairs ? 1 : 0);
    }
    cursor->at = behind(save, entry->value);
    return true;
}

/* Whether an entry has this key, byte for byte. */
static bool keyed(const struct save *save, const struct entry *entry, const char *key) {
    size_t offset, size;
    return entry->has_key
           && tackacorn_view(save->text, save->length, save->words, save->word_count, save->count, entry->key,
                             &offset, &size) == TACKACORN_OK
           && size == strlen(key) && memcmp(save->text + offset, key, size) == 0;
}

/* Prints a container: what it is, and how many entries stand directly in it. */
static void print_container(const struct save *save, size_t container) {
    struct cursor cursor = inside(save, container);
    struct entry entry;
    size_t entries = 0;
    while (next_entry(save, &cursor, &entry)) {
        entries++;
    }
    printf("%s %zu %s\n", token_at(save, container).code == TACKACORN_OBJECT ? "Object" : "Array", entries,
           entries == 1 ? "entry" : "entries");
}

/* Prints a scalar: its kind, the operator where it is no '=', and its bytes as they stand in the text. */
static void print_scalar(const struct save *save, const struct entry *entry) {
    static const char *const kinds[] = {"", "Bool", "Whole", "Decimal", "Name"};
    static const char *const signs[] = {"", "< ", "<= ", "> ", ">= ", "!= ", "== ", "", "?= "};
    size_t offset, size;
    if (tackacorn_view(save->text, save->length, save->words, save->word_count, save->count, entry->value,
                       &offset, &size) != TACKACORN_OK) {
        return;
    }
    const uint8_t *bytes = save->text + offset;
    const struct token token = token_at(save, entry->value);
    const bool quoted = is_quoted(token);
    printf("%s %s%s", quoted ? name_of(token.code) : kinds[tackacorn_kind(bytes, size)], signs[entry->sign], quoted ? "\"" : "");
    show(stdout, bytes, size);
    puts(quoted ? "\"" : "");
}

/* Prints a value: a scalar, or a container with its header if it has one. */
static void print_value(const struct save *save, const struct entry *entry) {
    const size_t inner = container_of(save, entry->value);
    if (!is_container(token_at(save, inner))) {
        print_scalar(save, entry);
        return;
    }
    size_t offset, size;
    if (inner != entry->value
        && tackacorn_view(save->text, save->length, save->words, save->word_count, save->count, entry->value,
                          &offset, &size) == TACKACORN_OK) {
        fputs("Header ", stdout);
        show(stdout, save->text + offset, size);
        putc(' ', stdout);
    }
    print_container(save, inner);
}

/* Walks the entries that the path leads through, a cursor for each of its keys, and prints every value at its
 * end. Answers how many there were. */
static size_t print_found(const struct save *save, char **keys, size_t key_count, struct cursor *cursors) {
    size_t depth = 0, found = 0;
    struct entry entry;
    cursors[0] = (struct cursor){0, save->count, true};
    while (!ferror(stdout)) {
        if (!next_entry(save, &cursors[depth], &entry)) {
            if (depth == 0) {
                return found;
            }
            depth--;
        } else if (!keyed(save, &entry, keys[depth])) {
            continue;
        } else if (depth + 1 == key_count) {
            print_value(save, &entry);
            found++;
        } else if (is_container(token_at(save, container_of(save, entry.value)))) {
            depth++;
            cursors[depth] = inside(save, container_of(save, entry.value));
        }
    }
    return found;
}

/* Says that nothing stands at the path. */
static enum status tell_nothing(const struct save *save, char **keys, size_t key_count) {
    fflush(stdout);
    show_name(stderr, save->name);
    fputs(": nothing found at", stderr);
    for (size_t i = 0; i < key_count; i++) {
        putc(' ', stderr);
        show_name(stderr, keys[i]);
    }
    putc('\n', stderr);
    return STATUS_NOT_FOUND;
}

/* Looks for the path in a save that parsed. */
static enum status find(const struct save *save, char **keys, size_t key_count) {
    struct cursor *cursors = key_count > SIZE_MAX / sizeof *cursors ? NULL : malloc(key_count * sizeof *cursors);
    if (cursors == NULL) {
        return complain(save->name, "no memory for the path");
    }
    const size_t found = print_found(save, keys, key_count, cursors);
    free(cursors);
    return found > 0 ? STATUS_WELL : tell_nothing(save, keys, key_count);
}

/* Prints the values at a path of keys: the first word is the file, the others are the keys. */
enum status get(const struct call *call) {
    struct save save;
    enum status status = load(&save, call->words[0], call);
    if (status == STATUS_WELL) {
        status = find(&save, call->words + 1, call->count - 1);
    } else if (status == STATUS_REFUSED) {
        tell_refusal(&save, call);
    }
    drop(&save);
    return status;
}
