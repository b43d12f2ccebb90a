/*
 * The lists of a MultiClassQueue as plain arrays: their bytes read into them and
 * laid out from them by docs/STATES.md, and the changes that the calls make.
 */
#ifndef STATE_MCQ_H
#define STATE_MCQ_H

#include <stddef.h>
#include <stdint.h>

#include "gomxeli.h"

/* No class: list_class's answer for an entry that stands in none. */
#define NO_CLASS GOMXELI_MCQ_CLASSES_MAX

struct list {
    unsigned count;
    uint8_t entry[GOMXELI_MCQ_ENTRIES_MAX]; /* from the front on */
};

struct lists {
    unsigned classes;
    unsigned entries;
    struct list list[GOMXELI_MCQ_CLASSES_MAX];
};

/* All lists empty. */
void lists_clear(struct lists *lists, unsigned classes, unsigned entries);

/* The lists of a whole state's bytes. */
void lists_read(const uint8_t *bytes, struct lists *lists);

/* The bytes of these lists: all of a state. */
void lists_lay(const struct lists *lists, uint8_t *bytes);

/* The class that the entry stands in, or NO_CLASS. */
unsigned lists_class(const struct lists *lists, unsigned entry);

/* Takes the entry out of its list, if it is in one. */
void lists_remove(struct lists *lists, unsigned entry);

/* Put an entry that stands in no list at the front or the back of one. */
void list_push_front(struct list *list, unsigned entry);
void list_push_back(struct list *list, unsigned entry);

#endif
