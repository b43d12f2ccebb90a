/*
 * What the registries' kinds share: numbers drawn near those of a tree, whole trees,
 * near misses of trees and of list queues, sweeps. A tree is told by where it stands
 * in the state.
 */
#ifndef FUZZ_TREE_H
#define FUZZ_TREE_H

#include "fuzz.h"
#include "state_mcq.h"
#include "state_tree.h"

/* Some used place of a tree, or where the bytes are too few a place of zeros. */
const uint8_t *some_place(const struct bytes *state, size_t tree);

/* Some entry of a tree, or a number at a limit. */
uint32_t draw_entry_of(const struct bytes *state, size_t tree);

/* Some entry's subject, one beside it, or one near the largest. */
uint32_t draw_subject_of(const struct bytes *state, size_t tree, uint32_t largest);

/* Registering in a state that begins with a tree: mostly an entry that is new. */
void draw_registering(const struct bytes *state, uint32_t largest, uint32_t *n);

/* Subjects that often meet and often are neighbours, or ones at the ends. */
unsigned draw_near_subject(unsigned from, unsigned span, unsigned largest);

/* How many entries, and in how many subjects they are. */
unsigned draw_count(void);
unsigned draw_span(unsigned count, unsigned largest);

/* Any entries on any subjects, in any order; no two on one where none is shared. */
void draw_tree(struct tree *tree, unsigned largest, bool shared);

/* One of these bytes is changed to one of few values. */
void spoil_byte(struct bytes *state, const uint16_t *places, unsigned count);

/* A place has another entry, often one of the other tree, or another subject. */
void spoil_place(struct bytes *state, size_t tree, size_t other, uint32_t largest);

/* A place of a tree and one of the other, which may be the same, change their bytes. */
void swap_places(struct bytes *state, size_t tree, size_t other);

/* An entry moved to the back of another list or out of all, laid out over the bytes. */
void spoil_lists(struct lists *lists, unsigned entry, uint8_t *bytes);

/*
 * A link of a whole list queue of so many nodes leads elsewhere, or two nodes exchange
 * what follows them, so that all cycles close, and two are one or one is two.
 */
void spoil_links(uint8_t *bytes, unsigned nodes);

/* One of these ways, or all bytes at random, for a state that begins with a tree. */
void spoil_tree(struct bytes *state, const uint16_t *places, unsigned count, uint32_t largest);

/* The calls but for the opening, in turn. */
struct call *call_in_turn(const struct kind *kind, uint64_t at);

/* Each byte of a whole state with each value. */
void sweep_bytes(struct kind *kind);

/* A subject among the first or the last. */
enum { SMALL_SUBJECTS = 5 };

unsigned small_subject(unsigned i, unsigned largest);

/* Takes a digit off a number. */
unsigned digit(uint32_t *rest, unsigned base);

/* The trees of so few entries, each in no place or on a small subject, whole or not. */
enum { SMALL_ENTRIES = 3 };
enum { SMALL_TREES = (1 + SMALL_SUBJECTS) * (1 + SMALL_SUBJECTS) * (1 + SMALL_SUBJECTS) };

void small_tree(struct tree *tree, uint32_t at, unsigned largest);

/* Each call some times on a meaning of the kind, laid out over random bytes. */
void sweep_laid(struct kind *kind, const void *meaning);

#endif
