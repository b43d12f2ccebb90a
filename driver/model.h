/*
 * A kind of state by its plain meaning: written from document 01's words, apart from
 * the library, to hold its calls to account.
 */
#ifndef MODEL_H
#define MODEL_H

#include <stdbool.h>
#include <stddef.h>
#include <stdint.h>

#include "gomxeli.h"

struct model {
    /* Document 01's test, not the library's. */
    bool (*whole)(const uint8_t *state, size_t len);

    /* A meaning, read from whole bytes, and laid out over bytes of its length. */
    void *meaning;
    void (*read)(const uint8_t *state, void *meaning);
    void (*lay)(const void *meaning, uint8_t *state);
};

/* A call on a meaning; where it is refused, the meaning is not to be used. */
typedef gomxeli_answer model_call(void *meaning, const uint32_t *n);

/* What a call answers on a whole state, which becomes what the call leaves. */
gomxeli_answer model_expect(const struct model *model, model_call *call, uint8_t *state,
                            const uint32_t *n);

#endif
