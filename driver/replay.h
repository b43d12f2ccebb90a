/*
 * The replay program: one call a line in, one answer a line out. A kind of state
 * describes its calls as a table of verbs; replay.c reads the lines, keeps one
 * state of each kind, and has the words that all kinds share.
 *
 * A kind is a file replay_KIND.c with such a table, which replay.c lists.
 */
#ifndef REPLAY_H
#define REPLAY_H

#include <stdbool.h>
#include <stddef.h>
#include <stdint.h>

#include "calls.h"
#include "state_mcq.h"

/* The bytes lent to a kind's calls, an image's too; none before its first opening. */
struct state {
    uint8_t *bytes;
    size_t len;
};

struct verb {
    const char *word;
    unsigned count;                 /* how many numbers follow */
    uint32_t largest[MOST_NUMBERS]; /* what each of them may be at most */

    /* The call, and how its answer is printed. */
    call_function *call;
    void (*print)(gomxeli_answer answer);

    /* Or, where that is not all: makes the call and prints, but not the line's end. */
    void (*run)(struct state *state, const uint32_t *n);
};

#define ANY_NUMBER UINT32_MAX

/* The tables, each ended by a verb with no word. */
extern const struct verb reg_verbs[];
extern const struct verb lb_verbs[];
extern const struct verb req_verbs[];
extern const struct verb txm_verbs[];
extern const struct verb txr_verbs[];
extern const struct verb img_verbs[];
extern const struct verb mcq_verbs[];
extern const struct verb iq_verbs[];
extern const struct verb frame_verbs[];

/*
 * Opens a new state of the length that the sizes have, 0 where they are not allowed.
 * Where the opening is accepted it takes the place of the present one.
 */
void open_state(struct state *state, size_t len, call_function *open, const uint32_t *n);

/* Prints the refusal and answers yes, or prints nothing and answers no. */
bool print_refusal(gomxeli_answer answer);

/* Print the refusal, or 0 and: nothing more; the flag; the field, - where there is none. */
void print_done(gomxeli_answer answer);
void print_flag(gomxeli_answer answer);
void print_first(gomxeli_answer answer);
void print_second(gomxeli_answer answer);

/* Prints numbers parted by commas, or - if there are none. */
void print_list(const uint8_t *numbers, unsigned count);

/* Prints a blank, the name, = and the entries of a list. */
void print_entries(const char *name, const struct list *list);

/* Prints q= and the classes that hold entries, each by its name, or - if none does. */
void print_classes(const struct lists *lists, void (*print_name)(unsigned cls));

#endif
