/* What registries with an entry tree have in common: subjects, and what calls aim at. */
#ifndef BENCH_TREE_H
#define BENCH_TREE_H

#include "bench.h"
#include "state_tree.h"

/* The i-th subject, and one below it that no other has. */
enum { FIRST_SUBJECT = 10, SUBJECTS_APART = 20, BELOW = 5 };

static inline unsigned nth_subject(unsigned i)
{
    return FIRST_SUBJECT + SUBJECTS_APART * i;
}

/* The entry and the subject at a place of a tree; 0 where there is none. */
struct endpoint endpoint_at(const struct tree *tree, enum place place);

/* A subject before all others, between them, behind all, or one that is there. */
extern const char *const new_subject_places[PLACES];
unsigned new_subject(const struct tree *tree, enum place place, unsigned most);

/* A subject that is there, or one that is not. */
extern const char *const sought_subject_places[PLACES];
unsigned sought_subject(const struct tree *tree, enum place place, unsigned most);

/* How many steps a walk goes on from the start of its subject to the place. */
unsigned walk_steps(const struct tree *tree, enum place place);

#endif
