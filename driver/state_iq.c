#include "state_iq.h"

#include "state_number.h"

/*
 * Bytes 0 and 1 K_MAX, then a list queue of 2 classes and N entries, N key words,
 * N values, K_MAX + 1 index bytes, 0 to 3 bytes more.
 */
enum { LISTS_AT = 2, LISTS_END = 8 };

/* A key word: the key, or SPENT + key, or any word from NO_KEY on. */
enum { SPENT = 8192, NO_KEY = 16384, NO_KEY_WRITTEN = 65535 };

enum { NO_INDEX_WRITTEN = 255 };

static size_t word_at(unsigned entries, unsigned entry)
{
    return LISTS_END + 2 * (size_t)entries + 2 * (size_t)entry;
}

static size_t value_at(unsigned entries, unsigned entry)
{
    return LISTS_END + 4 * (size_t)entries + 4 * (size_t)entry;
}

static size_t index_at(unsigned entries, unsigned key)
{
    return LISTS_END + 8 * (size_t)entries + key;
}

void keys_clear(struct keys *keys, unsigned k_max, unsigned entries)
{
    keys->k_max = k_max;
    keys->entries = entries;
    lists_clear(&keys->lists, KEYS_CLASSES, entries);
    for (unsigned i = 0; i < entries; i++) {
        keys->entry[i].has_key = false;
        list_push_back(&keys->lists.list[FREE_CLASS], i);
    }
}

static struct keyed keyed_read(const uint8_t *bytes, unsigned entries, unsigned entry)
{
    unsigned word = number_read(bytes + word_at(entries, entry), 2);
    struct keyed keyed = {
        .has_key = word < NO_KEY,
        .spent = SPENT <= word && word < NO_KEY,
        .key = (uint16_t)(word % SPENT),
        .value = number_read(bytes + value_at(entries, entry), 4),
    };
    return keyed;
}

void keys_read(const uint8_t *bytes, struct keys *keys)
{
    keys->k_max = number_read(bytes, 2);
    lists_read(bytes + LISTS_AT, &keys->lists);
    keys->entries = keys->lists.entries;
    for (unsigned i = 0; i < keys->entries; i++)
        keys->entry[i] = keyed_read(bytes, keys->entries, i);
}

static void lay_keyed(const struct keyed *keyed, uint8_t *word, uint8_t *value)
{
    if (keyed->has_key)
        number_lay(word, 2, keyed->key + (keyed->spent ? SPENT : 0u));
    else if (number_read(word, 2) < NO_KEY)
        number_lay(word, 2, NO_KEY_WRITTEN);
    if (keyed->has_key && !keyed->spent)
        number_lay(value, 4, keyed->value);
}

static void lay_index(const struct keys *keys, uint8_t *index)
{
    uint8_t holder[GOMXELI_IQ_KEY_MAX + 1];
    for (unsigned k = 0; k <= keys->k_max; k++)
        holder[k] = NO_ENTRY;
    for (unsigned i = 0; i < keys->entries; i++)
        if (keys->entry[i].has_key)
            holder[keys->entry[i].key] = (uint8_t)i;
    for (unsigned k = 0; k <= keys->k_max; k++) {
        if (holder[k] != NO_ENTRY)
            index[k] = holder[k];
        else if (index[k] < keys->entries)
            index[k] = NO_INDEX_WRITTEN;
    }
}

void keys_lay(const struct keys *keys, uint8_t *bytes)
{
    unsigned n = keys->entries;
    number_lay(bytes, 2, keys->k_max);
    lists_lay(&keys->lists, bytes + LISTS_AT);
    for (unsigned i = 0; i < n; i++)
        lay_keyed(&keys->entry[i], bytes + word_at(n, i), bytes + value_at(n, i));
    lay_index(keys, bytes + index_at(n, 0));
}

unsigned keys_find(const struct keys *keys, uint32_t key)
{
    for (unsigned i = 0; i < keys->entries; i++)
        if (keys->entry[i].has_key && keys->entry[i].key == key)
            return i;
    return NO_ENTRY;
}
