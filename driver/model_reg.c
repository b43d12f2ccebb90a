#include "model_reg.h"

#include "model_tree.h"
#include "state_reg.h"

struct branch reg_branches[REG_BRANCHES] = {
    [JOINS_WAITING] = {"registered behind a waiting entry", 0},
    [JOINS_ACTIVE] = {"registered as active", 0},
    [TAKES_SLOT] = {"registered with a slot", 0},
    [LEAVES_WAITING] = {"a waiting entry removed", 0},
    [LEAVES_NON_HEAD] = {"a non-head removed", 0},
    [LEAVES_LAST] = {"a head removed, none after it", 0},
    [LEAVES_MARK_TO_EQUAL] = {"a marked head removed, its equal marked", 0},
    [LEAVES_MARK_TO_NEXT] = {"a head removed, the next head marked", 0},
    [LEAVES_BEFORE_MARKED] = {"a head removed, the next head marked before", 0},
    [LEAVES_TO_EQUAL] = {"an unmarked head removed, its equal head", 0},
    [WALK_MOVES] = {"a walk moved by a removal", 0},
    [WALK_ENDS] = {"a walk ended by a removal", 0},
    [POLLS_MARK] = {"a mark polled", 0},
    [POLLS_LAST_GAP] = {"the last gap polled", 0},
    [POLLS_AGAIN] = {"an add polled after other inner steps", 0},
    [POLLS_AGAIN_IN_VAIN] = {"nothing polled after other inner steps", 0},
    [NAMES_MORE] = {"an entry named, more follow", 0},
    [NAMES_LAST] = {"an entry named, no more follow", 0},
};

static void meet(enum reg_branch branch)
{
    reg_branches[branch].count++;
}

static struct list *clean_up(struct registry *registry)
{
    return &registry->queues.list[CLEAN_UP_CLASS];
}

static struct list *activation(struct registry *registry)
{
    return &registry->queues.list[ACTIVATION_CLASS];
}

/* ------------------------------------------------------------------------ */
/* Registering                                                              */
/* ------------------------------------------------------------------------ */

static void wait_for(struct registry *registry, unsigned entry, unsigned subject)
{
    tree_insert(&registry->inactive, entry, subject);
    list_push_back(activation(registry), entry);
}

gomxeli_answer model_reg_register(void *meaning, const uint32_t *n)
{
    struct registry *registry = meaning;
    if (n[0] > GOMXELI_REG_ENTRY_MAX)
        return refusal(GOMXELI_ENTRY_RANGE);
    if (n[1] > GOMXELI_SUBJECT_ID_MAX)
        return refusal(GOMXELI_RANGE);
    if (tree_has_entry(&registry->active, n[0]) || tree_has_entry(&registry->inactive, n[0]))
        return refusal(GOMXELI_REGISTERED);
    if (tree_has_subject(&registry->inactive, n[1])) {
        meet(JOINS_WAITING);
        wait_for(registry, n[0], n[1]);
        return yes_or_no(false);
    }
    if (tree_has_subject(&registry->active, n[1])) {
        meet(JOINS_ACTIVE);
        tree_insert(&registry->active, n[0], n[1]);
        return yes_or_no(false);
    }
    if (registry->slots == 0)
        return refusal(GOMXELI_NO_SUBJECT_SLOT);
    meet(TAKES_SLOT);
    registry->slots--;
    wait_for(registry, n[0], n[1]);
    return yes_or_no(true);
}

/* ------------------------------------------------------------------------ */
/* Removing                                                                 */
/* ------------------------------------------------------------------------ */

/* A walk at the entry of an active place moves to the next one if that is no head. */
static void move_walk(struct registry *registry, unsigned place)
{
    const struct tree *active = &registry->active;
    if (registry->walk != active->at[place].entry)
        return;
    registry->walk = walk_after(active, place, BEFORE_HEAD);
    meet(registry->walk == NO_WALK ? WALK_ENDS : WALK_MOVES);
}

/* The active entry leaves; its mark, if any, is withdrawn. */
static void leave(struct registry *registry, unsigned place)
{
    move_walk(registry, place);
    lists_remove(&registry->queues, registry->active.at[place].entry);
    tree_remove(&registry->active, place);
}

static gomxeli_answer remove_last(struct registry *registry, unsigned place)
{
    if (registry->slots == GOMXELI_REG_SLOTS_MAX)
        return refusal(GOMXELI_SLOTS_FULL);
    meet(LEAVES_LAST);
    leave(registry, place);
    registry->slots++;
    registry->last_gap = true;
    return yes_or_no(true);
}

/* A head that has an active entry after it. */
static gomxeli_answer remove_before(struct registry *registry, unsigned place)
{
    unsigned next = registry->active.at[place + 1].entry;
    bool was_marked = registry_is_marked(registry, registry->active.at[place].entry);
    bool next_was_head = tree_is_head(&registry->active, place + 1);
    bool next_is_marked = registry_is_marked(registry, next);
    if ((!was_marked && !next_was_head) || next_is_marked) {
        meet(next_is_marked ? LEAVES_BEFORE_MARKED : LEAVES_TO_EQUAL);
        leave(registry, place);
        return yes_or_no(false);
    }
    if (registry->slots == GOMXELI_REG_SLOTS_MAX)
        return refusal(GOMXELI_SLOTS_FULL);
    meet(next_was_head ? LEAVES_MARK_TO_NEXT : LEAVES_MARK_TO_EQUAL);
    leave(registry, place);
    registry->slots++;
    list_push_back(clean_up(registry), next);
    return yes_or_no(true);
}

static gomxeli_answer remove_active(struct registry *registry, unsigned place)
{
    if (!tree_is_head(&registry->active, place)) {
        meet(LEAVES_NON_HEAD);
        leave(registry, place);
        return yes_or_no(false);
    }
    if (place + 1 == registry->active.count)
        return remove_last(registry, place);
    return remove_before(registry, place);
}

static gomxeli_answer remove_inactive(struct registry *registry, unsigned place)
{
    meet(LEAVES_WAITING);
    lists_remove(&registry->queues, registry->inactive.at[place].entry);
    tree_remove(&registry->inactive, place);
    return yes_or_no(false);
}

gomxeli_answer model_reg_unregister(void *meaning, const uint32_t *n)
{
    struct registry *registry = meaning;
    if (n[0] > GOMXELI_REG_ENTRY_MAX)
        return refusal(GOMXELI_ENTRY_RANGE);
    if (tree_has_entry(&registry->active, n[0]))
        return remove_active(registry, tree_find(&registry->active, n[0]));
    if (tree_has_entry(&registry->inactive, n[0]))
        return remove_inactive(registry, tree_find(&registry->inactive, n[0]));
    return refusal(GOMXELI_NOT_REGISTERED);
}

/* ------------------------------------------------------------------------ */
/* Polling                                                                  */
/* ------------------------------------------------------------------------ */

/* The first subject after all active ones that are below the limit. */
static unsigned after_active_below(const struct tree *active, unsigned limit)
{
    unsigned from = 0;
    for (unsigned i = 0; i < active->count; i++)
        if (active->at[i].subject < limit && active->at[i].subject >= from)
            from = active->at[i].subject + 1u;
    return from;
}

static gomxeli_answer removed_range(unsigned first, unsigned last)
{
    return answer(GOMXELI_ACCEPTED, 2, first, last);
}

static gomxeli_answer pop_mark(struct registry *registry)
{
    const struct tree *active = &registry->active;
    unsigned entry = clean_up(registry)->entry[0];
    unsigned subject = active->at[tree_find(active, entry)].subject;
    meet(POLLS_MARK);
    lists_remove(&registry->queues, entry);
    return removed_range(after_active_below(active, subject), subject - 1);
}

static gomxeli_answer pop_last_gap(struct registry *registry)
{
    meet(POLLS_LAST_GAP);
    registry->last_gap = false;
    return removed_range(after_active_below(&registry->active, GOMXELI_SUBJECT_ID_MAX + 1),
                         GOMXELI_SUBJECT_ID_MAX);
}

/* The front of the activation queue becomes active. */
static struct endpoint activate_front(struct registry *registry)
{
    unsigned place = tree_find(&registry->inactive, activation(registry)->entry[0]);
    struct endpoint endpoint = registry->inactive.at[place];
    lists_remove(&registry->queues, endpoint.entry);
    tree_remove(&registry->inactive, place);
    tree_insert(&registry->active, endpoint.entry, endpoint.subject);
    return endpoint;
}

gomxeli_answer model_reg_poll_pop(void *meaning, const uint32_t *n)
{
    struct registry *registry = meaning;
    (void)n;
    if (clean_up(registry)->count > 0)
        return pop_mark(registry);
    if (registry->last_gap)
        return pop_last_gap(registry);
    for (bool again = false; activation(registry)->count > 0; again = true) {
        struct endpoint endpoint = activate_front(registry);
        const struct tree *active = &registry->active;
        unsigned first = tree_first_on(active, endpoint.subject);
        if (active->at[first].entry == endpoint.entry) {
            reg_branches[POLLS_AGAIN].count += again;
            return some_first(endpoint.subject);
        }
        reg_branches[POLLS_AGAIN_IN_VAIN].count += activation(registry)->count == 0;
    }
    return done();
}

/* ------------------------------------------------------------------------ */
/* Walking                                                                  */
/* ------------------------------------------------------------------------ */

gomxeli_answer model_reg_hub_push_start(void *meaning, const uint32_t *n)
{
    struct registry *registry = meaning;
    return walk_start(&registry->active, &registry->walk, n[0]);
}

gomxeli_answer model_reg_hub_push_next(void *meaning, const uint32_t *n)
{
    struct registry *registry = meaning;
    gomxeli_answer named = walk_next(&registry->active, &registry->walk, BEFORE_HEAD);
    (void)n;
    if (gomxeli_what(named) == 1)
        meet(gomxeli_second(named) == 1 ? NAMES_MORE : NAMES_LAST);
    return named;
}
