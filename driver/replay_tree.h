/* What the lines of the registries share. */
#ifndef REPLAY_TREE_H
#define REPLAY_TREE_H

#include "replay.h"
#include "state_tree.h"

/* Print the refusal, or 0 and: whether to wake; the entry named and whether more follow. */
void print_wake(gomxeli_answer answer);
void print_named(gomxeli_answer answer);

/* Makes a whole walk and prints the entries that it names. */
void print_walk(struct state *state, const uint32_t *n, call_function *start, call_function *next);

/* Prints the refusal and answers yes where the bytes are not whole, by trying a removal. */
bool print_not_whole(struct state *state, call_function *unregister);

/* Print parts of a state: walk= and the entry; the name, = and each entry and its subject. */
void print_walk_entry(unsigned walk);
void print_pairs(const char *name, const struct tree *tree);

#endif
