#include "model_req.h"

#include "model_tree.h"
#include "whole.h"

struct branch req_branches[REQ_BRANCHES] = {
    [REQ_JOINS_BEFORE] = {"registered before another", 0},
    [REQ_LOOP_BACK] = {"a loop-back frame of a service with an entry", 0},
    [REQ_NO_ENTRY] = {"a frame of a service without entry", 0},
};

/* ------------------------------------------------------------------------ */
/* The meaning                                                              */
/* ------------------------------------------------------------------------ */

static struct tree plain_services;

static void read_bytes(const uint8_t *state, void *meaning)
{
    tree_read(state, meaning);
}

static void lay_bytes(const void *meaning, uint8_t *state)
{
    tree_lay(meaning, state);
}

const struct model req_model = {whole_req, &plain_services, read_bytes, lay_bytes};

/* ------------------------------------------------------------------------ */
/* The calls                                                                */
/* ------------------------------------------------------------------------ */

gomxeli_answer model_req_register(void *meaning, const uint32_t *n)
{
    struct tree *services = meaning;
    gomxeli_answer refused = refuse_registering(services, n, GOMXELI_SERVICE_ID_MAX);
    if (refused != done())
        return refused;
    if (tree_has_subject(services, n[1]))
        return refusal(GOMXELI_OCCUPIED);
    tree_insert(services, n[0], n[1]);
    req_branches[REQ_JOINS_BEFORE].count += tree_find(services, n[0]) + 1 < services->count;
    return done();
}

gomxeli_answer model_req_unregister(void *meaning, const uint32_t *n)
{
    struct tree *services = meaning;
    gomxeli_answer refused = refuse_removing(services, n);
    if (refused != done())
        return refused;
    tree_remove(services, tree_find(services, n[0]));
    return done();
}

gomxeli_answer model_req_poll_push(void *meaning, const uint32_t *n)
{
    const struct tree *services = meaning;
    if (n[0] > GOMXELI_SERVICE_ID_MAX)
        return refusal(GOMXELI_RANGE);
    bool has_entry = tree_has_subject(services, n[0]);
    req_branches[REQ_NO_ENTRY].count += !has_entry;
    req_branches[REQ_LOOP_BACK].count += has_entry && n[1] != 0;
    return has_entry && n[1] == 0 ? some_first(services->at[tree_first_on(services, n[0])].entry)
                                  : done();
}
