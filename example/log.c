#include "log.h"

#include <string.h>

/* ------------------------------------------------------------------------ */
/* Words                                                                    */
/* ------------------------------------------------------------------------ */

enum { WORDS_MAX = 5 };

static const char blanks[] = " \t\r";

struct words {
    unsigned count;
    char *word[WORDS_MAX];
};

/* Parts a line at its blanks; false where there are too many words. */
static bool split(char *line, struct words *words)
{
    words->count = 0;
    for (char *word = strtok(line, blanks); word != NULL; word = strtok(NULL, blanks)) {
        if (words->count == WORDS_MAX)
            return false;
        words->word[words->count++] = word;
    }
    return true;
}

/* A decimal number. */
static bool read_number(const char *word, uint32_t most, uint32_t *number)
{
    uint64_t value = 0;
    for (const char *c = word; *c != '\0'; c++) {
        if (*c < '0' || *c > '9' || value > most)
            return false;
        value = 10 * value + (uint64_t)(*c - '0');
    }
    *number = (uint32_t)value;
    return *word != '\0' && value <= most;
}

/* A hexadecimal digit's value, or 16. */
static unsigned digit_value(char c)
{
    static const char digits[] = "0123456789abcdef";
    const char *at = c == '\0' ? NULL : strchr(digits, c);
    return at == NULL ? 16 : (unsigned)(at - digits);
}

/* Two digits a byte, or - for no bytes. */
static bool read_bytes(const char *word, struct bytes *bytes)
{
    bytes->length = 0;
    if (strcmp(word, "-") == 0)
        return true;
    for (; *word != '\0'; word += 2) {
        unsigned high = digit_value(word[0]), low = digit_value(word[1]);
        if (high == 16 || low == 16 || bytes->length == FRAME_MAX)
            return false;
        bytes->byte[bytes->length++] = (uint8_t)(16 * high + low);
    }
    return true;
}

/* The digits of some priorities. */
static bool read_priorities(const char *word, uint8_t *set)
{
    *set = 0;
    for (; *word != '\0'; word++) {
        gomxeli_answer answer = gomxeli_priority_set_insert(*set, (uint8_t)(*word - '0'));
        if (!gomxeli_accepted(answer))
            return false;
        *set = gomxeli_byte(answer);
    }
    return true;
}

/* ------------------------------------------------------------------------ */
/* Lines                                                                    */
/* ------------------------------------------------------------------------ */

/*
 * The forms of lines. Arguments: k a registry that has addresses, r the one that has
 * none, x any, t one that transmits; e an entry, o the other; a an address; f where a frame
 * comes from; d bytes; p a priority, s some.
 */
static const struct form {
    const char *word, *arguments;
    enum what what;
} forms[] = {
    {"join", "kea", JOIN},
    {"join", "re", JOIN},
    {"leave", "xe", LEAVE},
    {"once", "eo", ONCE},
    {"message", "afd", MESSAGE},
    {"request", "afd", REQUEST},
    {"send", "tepd", SEND},
    {"drop", "te", DROP},
    {"room", "s", ROOM},
    {"idle", "", IDLE},
    {"damage", "x", DAMAGE},
};

static bool read_kind(const char *word, char which, enum kind *kind)
{
    for (*kind = REG; *kind < KINDS; ++*kind)
        if (strcmp(word, name_of(*kind)) == 0)
            break;
    switch (which) {
    case 'k':
        return *kind < TXR;
    case 'r':
        return *kind == TXR;
    case 't':
        return *kind == TXM || *kind == TXR;
    default:
        return *kind < KINDS;
    }
}

static bool read_source(const char *word, bool *loop_back)
{
    *loop_back = strcmp(word, "loop") == 0;
    return *loop_back || strcmp(word, "bus") == 0;
}

static bool read_priority(const char *word, uint8_t *priority)
{
    uint32_t number = 0;
    bool read = read_number(word, UINT8_MAX, &number);
    *priority = (uint8_t)number;
    return read;
}

static bool read_argument(const char *word, char argument, struct event *event)
{
    switch (argument) {
    case 'e':
        return read_number(word, UINT32_MAX, &event->entry);
    case 'o':
        return read_number(word, UINT32_MAX, &event->other);
    case 'a':
        return read_number(word, UINT32_MAX, &event->address);
    case 'f':
        return read_source(word, &event->loop_back);
    case 'd':
        return read_bytes(word, &event->data);
    case 'p':
        return read_priority(word, &event->priority);
    case 's':
        return read_priorities(word, &event->priorities);
    default:
        return read_kind(word, argument, &event->kind);
    }
}

/* Whether the words have the form; the event is what they say. */
static bool read_form(const struct words *words, const struct form *form, struct event *event)
{
    if (strcmp(words->word[0], form->word) != 0 || words->count != 1 + strlen(form->arguments))
        return false;
    memset(event, 0, sizeof *event);
    event->what = form->what;
    for (unsigned i = 1; i < words->count; i++)
        if (!read_argument(words->word[i], form->arguments[i - 1], event))
            return false;
    return true;
}

static bool read_words(const struct words *words, struct event *event)
{
    for (unsigned i = 0; i < sizeof forms / sizeof forms[0]; i++)
        if (read_form(words, &forms[i], event))
            return true;
    return false;
}

/* Reads a line, or as much as has room; false at the end of the log. */
static bool read_line(FILE *log, char *line, const char **why)
{
    size_t length = 0;
    int c = getc(log);
    *why = NULL;
    if (c == EOF)
        return false;
    for (; c != EOF && c != '\n'; c = getc(log)) {
        if (c == '\0')
            *why = "a zero byte";
        else if (length == LINE_MAX_LENGTH)
            *why = "too long";
        else
            line[length++] = (char)c;
    }
    line[length] = '\0';
    return true;
}

/* Nothing, or a comment. */
static bool is_empty(const char *text)
{
    char first = text[strspn(text, blanks)];
    return first == '\0' || first == '#';
}

enum line read_event(FILE *log, struct event *event, char text[LINE_MAX_LENGTH + 1],
                     const char **why)
{
    char line[LINE_MAX_LENGTH + 1];
    struct words words;
    if (!read_line(log, text, why))
        return END_OF_LOG;
    if (*why != NULL)
        return BAD_LINE;
    if (is_empty(text))
        return EMPTY_LINE;
    strcpy(line, text);
    *why = "no such event";
    return split(line, &words) && read_words(&words, event) ? EVENT_LINE : BAD_LINE;
}
