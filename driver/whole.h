/*
 * Whether bytes are a whole state of a kind: written from document 01's words and
 * docs/STATES.md, apart from the library's own test, to hold it to account.
 */
#ifndef WHOLE_H
#define WHOLE_H

#include <stdbool.h>
#include <stddef.h>
#include <stdint.h>

bool whole_mcq(const uint8_t *state, size_t len);
bool whole_iq(const uint8_t *state, size_t len);
bool whole_reg(const uint8_t *state, size_t len);
bool whole_lb(const uint8_t *state, size_t len);
bool whole_req(const uint8_t *state, size_t len);
bool whole_txm(const uint8_t *state, size_t len);
bool whole_txr(const uint8_t *state, size_t len);

/* Whether bytes are a filter image. */
bool whole_img(const uint8_t *image, size_t len);

/*
 * "Every cycle closes both ways and holds just one class or is a lone unbound
 * entry", of the nodes of a list queue: next and prev of each class, then of each
 * entry.
 */
bool whole_cycles(const uint8_t *nodes, unsigned classes, unsigned entries);

/* Marks the entries that stand in a class, in nodes whose cycles are whole. */
void mark_class(const uint8_t *nodes, unsigned classes, unsigned cls, bool *marks);

/*
 * A registry's tree: a count and 128 places, each an entry and its subject; in the
 * tree of requests, its service.
 */
static inline unsigned count_of(const uint8_t *tree)
{
    return tree[0];
}

static inline unsigned entry_at(const uint8_t *tree, unsigned place)
{
    return tree[1 + 3 * place];
}

static inline unsigned subject_at(const uint8_t *tree, unsigned place)
{
    return tree[2 + 3 * place] + 256u * tree[3 + 3 * place];
}

unsigned times_in(const uint8_t *tree, unsigned entry);

/* At most 128 entries, up to 127, with subjects up to the largest, which are in order. */
bool whole_tree(const uint8_t *tree, unsigned largest);

/* No two places have the same subject. */
bool shares_no_subject(const uint8_t *tree);

/* A walk points at an entry of the tree or at none. */
bool whole_walk(const uint8_t *tree, unsigned walk);

#endif
