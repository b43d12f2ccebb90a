#include "model_lb.h"

#include "model_tree.h"
#include "state_lb.h"
#include "whole.h"

struct branch lb_branches[LB_BRANCHES] = {
    [LB_JOINS_EQUALS] = {"registered behind an equal", 0},
    [LB_JOINS_BEFORE] = {"registered before another", 0},
    [LB_WALK_MOVES] = {"a walk moved by a removal, on its subject", 0},
    [LB_WALK_MOVES_ON] = {"a walk moved by a removal, to another subject", 0},
    [LB_WALK_ENDS] = {"a walk ended by a removal", 0},
    [LB_NAMES_EQUAL] = {"an entry named, more of its subject follow", 0},
    [LB_NAMES_OTHER] = {"an entry named, more of other subjects follow", 0},
    [LB_NAMES_LAST] = {"an entry named, no more follow", 0},
};

/* ------------------------------------------------------------------------ */
/* The meaning                                                              */
/* ------------------------------------------------------------------------ */

static struct loop_back plain_loop_back;

static void read_bytes(const uint8_t *state, void *meaning)
{
    loop_back_read(state, meaning);
}

static void lay_bytes(const void *meaning, uint8_t *state)
{
    loop_back_lay(meaning, state);
}

const struct model lb_model = {whole_lb, &plain_loop_back, read_bytes, lay_bytes};

/* ------------------------------------------------------------------------ */
/* The calls                                                                */
/* ------------------------------------------------------------------------ */

gomxeli_answer model_lb_register(void *meaning, const uint32_t *n)
{
    struct tree *entries = &((struct loop_back *)meaning)->entries;
    gomxeli_answer refused = refuse_registering(entries, n, GOMXELI_SUBJECT_ID_MAX);
    if (refused != done())
        return refused;
    lb_branches[LB_JOINS_EQUALS].count += tree_has_subject(entries, n[1]);
    tree_insert(entries, n[0], n[1]);
    lb_branches[LB_JOINS_BEFORE].count += tree_find(entries, n[0]) + 1 < entries->count;
    return done();
}

/* Counts how a walk goes on from a place. */
static void meet_after(const struct tree *entries, unsigned place, enum lb_branch on_subject,
                       enum lb_branch to_other, enum lb_branch ends)
{
    bool is_last = place + 1 == entries->count;
    enum lb_branch goes_on = is_last || !tree_is_head(entries, place + 1) ? on_subject : to_other;
    lb_branches[is_last ? ends : goes_on].count++;
}

gomxeli_answer model_lb_unregister(void *meaning, const uint32_t *n)
{
    struct loop_back *loop_back = meaning;
    struct tree *entries = &loop_back->entries;
    gomxeli_answer refused = refuse_removing(entries, n);
    if (refused != done())
        return refused;
    unsigned place = tree_find(entries, n[0]);
    if (loop_back->walk == n[0]) {
        meet_after(entries, place, LB_WALK_MOVES, LB_WALK_MOVES_ON, LB_WALK_ENDS);
        loop_back->walk = walk_after(entries, place, AT_END);
    }
    tree_remove(entries, place);
    return done();
}

gomxeli_answer model_lb_hub_push_start(void *meaning, const uint32_t *n)
{
    struct loop_back *loop_back = meaning;
    return walk_start(&loop_back->entries, &loop_back->walk, n[0]);
}

gomxeli_answer model_lb_hub_push_next(void *meaning, const uint32_t *n)
{
    struct loop_back *loop_back = meaning;
    const struct tree *entries = &loop_back->entries;
    (void)n;
    if (loop_back->walk != NO_WALK)
        meet_after(entries, tree_find(entries, loop_back->walk), LB_NAMES_EQUAL, LB_NAMES_OTHER,
                   LB_NAMES_LAST);
    return walk_next(entries, &loop_back->walk, AT_END);
}
