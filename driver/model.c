#include "model.h"

gomxeli_answer model_expect(const struct model *model, model_call *call, uint8_t *state,
                            const uint32_t *n)
{
    model->read(state, model->meaning);
    gomxeli_answer expected = call(model->meaning, n);
    if (gomxeli_number(expected) == GOMXELI_ACCEPTED)
        model->lay(model->meaning, state);
    return expected;
}
