#include "whole.h"

/*
 * Two trees at 0 and 385, each a count and 128 places of an entry and its subject;
 * a list queue of 2 classes, clean-up and activation, and 128 entries at 770; the
 * last-gap flag at 1034, the walk at 1035.
 */
struct registry_parts {
    const uint8_t *active;
    const uint8_t *inactive;
    bool cleaned[128];   /* stands in the clean-up queue */
    bool activated[128]; /* stands in the activation queue */
    bool last_gap;
    unsigned walk;
};

/* No entry twice, and each in the queues that its tree allows it. */
static bool entries_agree(const struct registry_parts *parts)
{
    for (unsigned e = 0; e < 128; e++) {
        unsigned active = times_in(parts->active, e);
        unsigned inactive = times_in(parts->inactive, e);
        if (active + inactive > 1)
            return false;
        if (parts->activated[e] != (inactive == 1))
            return false;
        if (parts->cleaned[e] && active == 0)
            return false;
    }
    return true;
}

/*
 * Whether a mark may stand at this active place: the first of its subject, above
 * subject 0, and no active entry on the subject just below.
 */
static bool may_be_marked(const uint8_t *active, unsigned place)
{
    unsigned subject = subject_at(active, place);
    if (subject == 0)
        return false;
    for (unsigned i = 0; i < count_of(active); i++)
        if ((i < place && subject_at(active, i) == subject) || subject_at(active, i) == subject - 1)
            return false;
    return true;
}

static bool marks_agree(const struct registry_parts *parts)
{
    for (unsigned i = 0; i < count_of(parts->active); i++)
        if (parts->cleaned[entry_at(parts->active, i)] && !may_be_marked(parts->active, i))
            return false;
    return true;
}

static bool last_gap_agrees(const struct registry_parts *parts)
{
    unsigned count = count_of(parts->active);
    return !parts->last_gap || count == 0 || subject_at(parts->active, count - 1) < 8191;
}

bool whole_reg(const uint8_t *state, size_t len)
{
    if (len != 1036 || state[770] != 2 || state[771] != 128)
        return false;
    const uint8_t *nodes = state + 772;
    struct registry_parts parts = {
        .active = state,
        .inactive = state + 385,
        .last_gap = state[1034] != 0,
        .walk = state[1035],
    };
    if (!whole_tree(parts.active, 8191) || !whole_tree(parts.inactive, 8191) ||
        !whole_cycles(nodes, 2, 128))
        return false;
    mark_class(nodes, 2, 0, parts.cleaned);
    mark_class(nodes, 2, 1, parts.activated);
    return entries_agree(&parts) && marks_agree(&parts) && last_gap_agrees(&parts) &&
           whole_walk(parts.active, parts.walk);
}

bool whole_img(const uint8_t *image, size_t len)
{
    (void)image;
    return len == 1024;
}
