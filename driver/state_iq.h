/*
 * The meaning of an IndexQueue's bytes as a plain table of entries and two lists,
 * read and laid out by docs/STATES.md.
 */
#ifndef STATE_IQ_H
#define STATE_IQ_H

#include <stdbool.h>

#include "state_mcq.h"

enum { QUEUE_CLASS, FREE_CLASS, KEYS_CLASSES };

/* No entry: keys_find's answer for a key that is not there. */
#define NO_ENTRY GOMXELI_IQ_ENTRIES_MAX

struct keyed {
    bool has_key;
    bool spent; /* the key's value was handed back */
    uint16_t key;
    uint32_t value;
};

struct keys {
    unsigned k_max;
    unsigned entries;
    struct keyed entry[GOMXELI_IQ_ENTRIES_MAX];
    struct lists lists;
};

/* No keys; all entries free, in order. */
void keys_clear(struct keys *keys, unsigned k_max, unsigned entries);

/* The meaning of a whole state's bytes. */
void keys_read(const uint8_t *bytes, struct keys *keys);

/*
 * Lays the meaning out over bytes of its length. What says nothing of the new
 * meaning is left: another encoding of 'no key' or 'no entry' that stands there
 * already, the value of an entry that has none, the bytes after the index.
 */
void keys_lay(const struct keys *keys, uint8_t *bytes);

/* The entry that has the key, or NO_ENTRY. */
unsigned keys_find(const struct keys *keys, uint32_t key);

#endif
