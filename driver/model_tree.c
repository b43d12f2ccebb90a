#include "model_tree.h"

#include "tally.h"

gomxeli_answer refuse_registering(const struct tree *tree, const uint32_t *n, uint32_t largest)
{
    if (n[0] >= REGISTRY_ENTRIES)
        return refusal(GOMXELI_ENTRY_RANGE);
    if (n[1] > largest)
        return refusal(GOMXELI_RANGE);
    return refusal(tree_has_entry(tree, n[0]) ? GOMXELI_REGISTERED : GOMXELI_ACCEPTED);
}

gomxeli_answer refuse_removing(const struct tree *tree, const uint32_t *n)
{
    if (n[0] >= REGISTRY_ENTRIES)
        return refusal(GOMXELI_ENTRY_RANGE);
    return refusal(tree_has_entry(tree, n[0]) ? GOMXELI_ACCEPTED : GOMXELI_NOT_REGISTERED);
}

unsigned walk_after(const struct tree *tree, unsigned place, enum walk_end end)
{
    unsigned next = place + 1;
    if (next == tree->count || (end == BEFORE_HEAD && tree_is_head(tree, next)))
        return NO_WALK;
    return tree->at[next].entry;
}

gomxeli_answer walk_start(const struct tree *tree, unsigned *walk, uint32_t subject)
{
    if (subject > GOMXELI_SUBJECT_ID_MAX)
        return refusal(GOMXELI_RANGE);
    bool found = tree_has_subject(tree, subject);
    *walk = found ? tree->at[tree_first_on(tree, subject)].entry : (unsigned)NO_WALK;
    return yes_or_no(found);
}

gomxeli_answer walk_next(const struct tree *tree, unsigned *walk, enum walk_end end)
{
    unsigned named = *walk;
    if (named == NO_WALK)
        return done();
    *walk = walk_after(tree, tree_find(tree, named), end);
    return answer(GOMXELI_ACCEPTED, 1, named, *walk != NO_WALK);
}
