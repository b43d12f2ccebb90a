#include "state_mcq.h"

#include <string.h>

/*
 * Byte 0 the classes C, byte 1 the entries, then next and prev of each node.
 * Node c below C is class c, node C + e is entry e.
 */
enum { NODES_AT = 2 };

static unsigned next_of(const uint8_t *bytes, unsigned node)
{
    return bytes[NODES_AT + 2 * node];
}

static void link_nodes(uint8_t *bytes, unsigned node, unsigned next)
{
    bytes[NODES_AT + 2 * node] = (uint8_t)next;
    bytes[NODES_AT + 2 * next + 1] = (uint8_t)node;
}

void lists_clear(struct lists *lists, unsigned classes, unsigned entries)
{
    lists->classes = classes;
    lists->entries = entries;
    for (unsigned c = 0; c < classes; c++)
        lists->list[c].count = 0;
}

void lists_read(const uint8_t *bytes, struct lists *lists)
{
    unsigned classes = bytes[0];
    lists_clear(lists, classes, bytes[1]);
    for (unsigned c = 0; c < classes; c++) {
        unsigned node = next_of(bytes, c);
        while (node >= classes) {
            list_push_back(&lists->list[c], node - classes);
            node = next_of(bytes, node);
        }
    }
}

static void list_lay(const struct list *list, unsigned class_node, unsigned classes, uint8_t *bytes)
{
    unsigned node = class_node;
    for (unsigned i = 0; i < list->count; i++) {
        unsigned next = classes + list->entry[i];
        link_nodes(bytes, node, next);
        node = next;
    }
    link_nodes(bytes, node, class_node);
}

void lists_lay(const struct lists *lists, uint8_t *bytes)
{
    bytes[0] = (uint8_t)lists->classes;
    bytes[1] = (uint8_t)lists->entries;
    for (unsigned e = 0; e < lists->entries; e++)
        link_nodes(bytes, lists->classes + e, lists->classes + e);
    for (unsigned c = 0; c < lists->classes; c++)
        list_lay(&lists->list[c], c, lists->classes, bytes);
}

/* The entry's place in the list, or the list's count. */
static unsigned list_find(const struct list *list, unsigned entry)
{
    unsigned i = 0;
    while (i < list->count && list->entry[i] != entry)
        i++;
    return i;
}

unsigned lists_class(const struct lists *lists, unsigned entry)
{
    for (unsigned c = 0; c < lists->classes; c++)
        if (list_find(&lists->list[c], entry) < lists->list[c].count)
            return c;
    return NO_CLASS;
}

void lists_remove(struct lists *lists, unsigned entry)
{
    unsigned c = lists_class(lists, entry);
    if (c == NO_CLASS)
        return;
    struct list *list = &lists->list[c];
    unsigned i = list_find(list, entry);
    memmove(list->entry + i, list->entry + i + 1, list->count - i - 1);
    list->count--;
}

void list_push_front(struct list *list, unsigned entry)
{
    memmove(list->entry + 1, list->entry, list->count);
    list->entry[0] = (uint8_t)entry;
    list->count++;
}

void list_push_back(struct list *list, unsigned entry)
{
    list->entry[list->count++] = (uint8_t)entry;
}
