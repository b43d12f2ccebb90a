/*
 * Reads one call a line, makes it, and prints its answer, one a line. A line that
 * is no call prints ?.
 *
 * Words are parted by one blank. A number is 1 to 10 decimal digits and fits the
 * call's argument. Only a line feed ends a line; the last line may go without.
 */
#include "replay.h"

#include <inttypes.h>
#include <stdio.h>
#include <stdlib.h>
#include <string.h>

enum { MOST_LINE = 1 << 20, MOST_WORDS = 3 + MOST_NUMBERS };

/* The calls of one kind of state. */
struct kind {
    const char *word;
    const struct verb *verbs;
    struct state state;
};

static struct kind kinds[] = {
    {"reg", reg_verbs, {NULL, 0}},
    {"lb", lb_verbs, {NULL, 0}},
    {"req", req_verbs, {NULL, 0}},
    {"txm", txm_verbs, {NULL, 0}},
    {"txr", txr_verbs, {NULL, 0}},
    {"img", img_verbs, {NULL, 0}},
    {"mcq", mcq_verbs, {NULL, 0}},
    {"iq", iq_verbs, {NULL, 0}},
};

enum { KINDS = sizeof kinds / sizeof kinds[0] };

/* ------------------------------------------------------------------------ */
/* States                                                                   */
/* ------------------------------------------------------------------------ */

static void set_length(struct state *state, size_t len)
{
    uint8_t *bytes = NULL;
    if (len > 0) {
        bytes = malloc(len);
        if (bytes == NULL) {
            perror("replay");
            exit(2);
        }
    }
    free(state->bytes);
    state->bytes = bytes;
    state->len = len;
}

void open_state(struct state *state, size_t len, call_function *open, const uint32_t *n)
{
    struct state opened = {NULL, 0};
    set_length(&opened, len);
    if (len > 0)
        memset(opened.bytes, 0xa5, len);
    gomxeli_answer answer = open(opened.bytes, opened.len, n);
    print_done(answer);
    if (gomxeli_number(answer) != GOMXELI_ACCEPTED) {
        free(opened.bytes);
        return;
    }
    free(state->bytes);
    *state = opened;
}

/* ------------------------------------------------------------------------ */
/* Answers                                                                  */
/* ------------------------------------------------------------------------ */

bool print_refusal(gomxeli_answer answer)
{
    unsigned number = gomxeli_number(answer);
    if (number == GOMXELI_ACCEPTED)
        return false;
    printf("%u", number);
    if (number == GOMXELI_NOT_TAKEN)
        printf(" %u %" PRIu32, (unsigned)gomxeli_first(answer), gomxeli_second(answer));
    return true;
}

void print_done(gomxeli_answer answer)
{
    if (!print_refusal(answer))
        printf("0");
}

void print_flag(gomxeli_answer answer)
{
    if (!print_refusal(answer))
        printf("0 %u", gomxeli_what(answer));
}

static void print_field(gomxeli_answer answer, uint32_t field)
{
    if (print_refusal(answer))
        return;
    if (gomxeli_what(answer) == 0)
        printf("0 -");
    else
        printf("0 %" PRIu32, field);
}

void print_first(gomxeli_answer answer)
{
    print_field(answer, gomxeli_first(answer));
}

void print_second(gomxeli_answer answer)
{
    print_field(answer, gomxeli_second(answer));
}

void print_list(const uint8_t *numbers, unsigned count)
{
    if (count == 0)
        printf("-");
    for (unsigned i = 0; i < count; i++)
        printf("%s%u", i == 0 ? "" : ",", (unsigned)numbers[i]);
}

void print_entries(const char *name, const struct list *list)
{
    printf(" %s=", name);
    print_list(list->entry, list->count);
}

void print_classes(const struct lists *lists, void (*print_name)(unsigned cls))
{
    const char *before = "";
    printf("q=");
    for (unsigned c = 0; c < lists->classes; c++) {
        const struct list *list = &lists->list[c];
        if (list->count == 0)
            continue;
        printf("%s", before);
        print_name(c);
        printf("=");
        print_list(list->entry, list->count);
        before = ";";
    }
    printf("%s", *before == '\0' ? "-" : "");
}

/* ------------------------------------------------------------------------ */
/* Raw bytes                                                                */
/* ------------------------------------------------------------------------ */

static void print_bytes(const struct state *state)
{
    if (state->len == 0)
        printf("-");
    for (size_t i = 0; i < state->len; i++)
        printf("%02x", (unsigned)state->bytes[i]);
}

/* A hexadecimal digit's value, or 16. */
static unsigned digit_value(char c)
{
    static const char digits[] = "0123456789abcdef0123456789ABCDEF";
    const char *at = c == '\0' ? NULL : strchr(digits, c);
    return at == NULL ? 16 : (unsigned)(at - digits) % 16;
}

static bool is_hex(const char *word)
{
    size_t len = strlen(word);
    for (size_t i = 0; i < len; i++)
        if (digit_value(word[i]) == 16)
            return false;
    return len > 0 && len % 2 == 0;
}

/* Takes the bytes over from a word; false where the word is none. */
static bool replace_bytes(struct state *state, const char *word)
{
    bool empty = strcmp(word, "-") == 0;
    if (!empty && !is_hex(word))
        return false;
    set_length(state, empty ? 0 : strlen(word) / 2);
    for (size_t i = 0; i < state->len; i++)
        state->bytes[i] = (uint8_t)(16 * digit_value(word[2 * i]) + digit_value(word[2 * i + 1]));
    return true;
}

/* ------------------------------------------------------------------------ */
/* Lines                                                                    */
/* ------------------------------------------------------------------------ */

struct words {
    unsigned count;
    char *word[MOST_WORDS];
};

/* Parts the line at its blanks; false where there are too many words. */
static bool split(char *line, struct words *words)
{
    words->count = 0;
    for (char *word = line; word != NULL;) {
        char *blank = strchr(word, ' ');
        if (words->count == MOST_WORDS)
            return false;
        words->word[words->count++] = word;
        if (blank != NULL)
            *blank++ = '\0';
        word = blank;
    }
    return true;
}

/* Reads a number; false where the word is none or it is above the largest. */
static bool read_number(const char *word, uint32_t largest, uint32_t *number)
{
    size_t len = strlen(word);
    uint64_t value = 0;
    if (len < 1 || len > 10)
        return false;
    for (size_t i = 0; i < len; i++) {
        if (word[i] < '0' || word[i] > '9')
            return false;
        value = 10 * value + (uint64_t)(word[i] - '0');
    }
    *number = (uint32_t)value;
    return value <= largest;
}

static const struct verb *find_verb(const struct verb *verbs, const char *word)
{
    while (verbs->word != NULL && strcmp(verbs->word, word) != 0)
        verbs++;
    return verbs->word == NULL ? NULL : verbs;
}

/* Runs the verb that stands at a place among the words; false where none does. */
static bool run_verb(const struct verb *verbs, struct state *state, const struct words *words,
                     unsigned at)
{
    uint32_t numbers[MOST_NUMBERS] = {0};
    const struct verb *verb = at < words->count ? find_verb(verbs, words->word[at]) : NULL;
    if (verb == NULL || words->count != at + 1 + verb->count)
        return false;
    for (unsigned i = 0; i < verb->count; i++)
        if (!read_number(words->word[at + 1 + i], verb->largest[i], &numbers[i]))
            return false;
    if (verb->run != NULL)
        verb->run(state, numbers);
    else
        verb->print(verb->call(state->bytes, state->len, numbers));
    return true;
}

static struct kind *find_kind(const char *word)
{
    for (unsigned i = 0; i < KINDS; i++)
        if (strcmp(kinds[i].word, word) == 0)
            return &kinds[i];
    return NULL;
}

/* `KIND X` and `KIND B HEX`, which all kinds have. */
static bool run_raw(struct state *state, const struct words *words)
{
    if (words->count == 2 && strcmp(words->word[1], "X") == 0) {
        print_bytes(state);
        return true;
    }
    if (words->count == 3 && strcmp(words->word[1], "B") == 0) {
        bool replaced = replace_bytes(state, words->word[2]);
        if (replaced)
            printf("0");
        return replaced;
    }
    return false;
}

/* Makes the line's call and prints its answer; false where it is no call. */
static bool run_line(char *line)
{
    struct words words;
    if (!split(line, &words))
        return false;
    struct kind *kind = find_kind(words.word[0]);
    if (kind == NULL)
        return run_verb(frame_verbs, NULL, &words, 0);
    return run_raw(&kind->state, &words) || run_verb(kind->verbs, &kind->state, &words, 1);
}

enum line { NO_LINE, BAD_LINE, GOOD_LINE };

/* Reads a line; a bad one is too long or holds a zero byte. */
static enum line read_line(char *line)
{
    size_t len = 0;
    bool bad = false;
    int c = getchar();
    if (c == EOF)
        return NO_LINE;
    for (; c != EOF && c != '\n'; c = getchar()) {
        bad = bad || c == '\0' || len == MOST_LINE;
        if (!bad)
            line[len++] = (char)c;
    }
    line[len] = '\0';
    return bad ? BAD_LINE : GOOD_LINE;
}

int main(void)
{
    static char line[MOST_LINE + 1];
    setvbuf(stdout, NULL, _IOLBF, BUFSIZ);
    for (enum line read = read_line(line); read != NO_LINE; read = read_line(line)) {
        bool is_call = read == GOOD_LINE && run_line(line);
        puts(is_call ? "" : "?");
    }
    for (unsigned i = 0; i < KINDS; i++)
        free(kinds[i].state.bytes);
    return ferror(stdin) || fflush(stdout) != 0 || ferror(stdout) ? 2 : 0;
}
