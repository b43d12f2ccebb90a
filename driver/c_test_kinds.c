/* Every call on whole states of the other kinds. */
#include <string.h>

#include "c_test.h"

/* The calls of each kind, with numbers that are right, and the refusal of other bytes. */
static const struct {
    const char *kind;
    call_function *call;
    uint32_t n[MOST_NUMBERS];
    unsigned number;
} calls[] = {
    {"reg", reg_open, {9}, GOMXELI_NOT_WHOLE},
    {"reg", reg_register, {0, 100}, GOMXELI_NOT_WHOLE},
    {"reg", reg_unregister, {0}, GOMXELI_NOT_WHOLE},
    {"reg", reg_poll_pop, {0}, GOMXELI_NOT_WHOLE},
    {"reg", reg_hub_push_start, {100}, GOMXELI_NOT_WHOLE},
    {"reg", reg_hub_push_next, {0}, GOMXELI_NOT_WHOLE},
    {"lb", lb_open, {0}, GOMXELI_NOT_WHOLE},
    {"lb", lb_register, {0, 100}, GOMXELI_NOT_WHOLE},
    {"lb", lb_unregister, {0}, GOMXELI_NOT_WHOLE},
    {"lb", lb_hub_push_start, {100}, GOMXELI_NOT_WHOLE},
    {"lb", lb_hub_push_next, {0}, GOMXELI_NOT_WHOLE},
    {"req", req_open, {0}, GOMXELI_NOT_WHOLE},
    {"req", req_register, {0, 100}, GOMXELI_NOT_WHOLE},
    {"req", req_unregister, {0}, GOMXELI_NOT_WHOLE},
    {"req", req_poll_push, {100, 0}, GOMXELI_NOT_WHOLE},
    {"txm", txm_open, {0}, GOMXELI_NOT_WHOLE},
    {"txm", txm_register, {0, 100, 1}, GOMXELI_NOT_WHOLE},
    {"txm", txm_unregister, {0}, GOMXELI_NOT_WHOLE},
    {"txm", txm_update, {0, 1}, GOMXELI_NOT_WHOLE},
    {"txm", txm_pick, {255, 8}, GOMXELI_NOT_WHOLE},
    {"txm", txm_settle, {0, 1, 0, 0, 0}, GOMXELI_NOT_WHOLE},
    {"txr", txr_open, {0}, GOMXELI_NOT_WHOLE},
    {"txr", txr_register, {0, 1}, GOMXELI_NOT_WHOLE},
    {"txr", txr_unregister, {0}, GOMXELI_NOT_WHOLE},
    {"txr", txr_update, {0, 1}, GOMXELI_NOT_WHOLE},
    {"txr", txr_pick, {255, 8}, GOMXELI_NOT_WHOLE},
    {"txr", txr_settle, {0, 1, 0, 0, 0}, GOMXELI_NOT_WHOLE},
    {"mcq", mcq_open, {2, 100}, GOMXELI_NOT_WHOLE},
    {"mcq", mcq_open, {0, 1}, GOMXELI_SIZE},
    {"mcq", mcq_front, {0}, GOMXELI_NOT_WHOLE},
    {"mcq", mcq_back, {0}, GOMXELI_NOT_WHOLE},
    {"mcq", mcq_is_empty, {0}, GOMXELI_NOT_WHOLE},
    {"mcq", mcq_is_front, {0}, GOMXELI_NOT_WHOLE},
    {"mcq", mcq_is_back, {0}, GOMXELI_NOT_WHOLE},
    {"mcq", mcq_remove, {0}, GOMXELI_NOT_WHOLE},
    {"mcq", mcq_move_front, {0, 0}, GOMXELI_NOT_WHOLE},
    {"mcq", mcq_move_back, {0, 0}, GOMXELI_NOT_WHOLE},
    {"iq", iq_open, {0, 128}, GOMXELI_NOT_WHOLE},
    {"iq", iq_open, {8192, 0}, GOMXELI_SIZE},
    {"iq", iq_contains, {0}, GOMXELI_NOT_WHOLE},
    {"iq", iq_get, {0}, GOMXELI_NOT_WHOLE},
    {"iq", iq_get_mut, {0, 1}, GOMXELI_NOT_WHOLE},
    {"iq", iq_insert, {0, 1}, GOMXELI_NOT_WHOLE},
    {"iq", iq_remove, {0}, GOMXELI_NOT_WHOLE},
    {"iq", iq_front, {0}, GOMXELI_NOT_WHOLE},
    {"iq", iq_back, {0}, GOMXELI_NOT_WHOLE},
    {"iq", iq_enqueue_front, {0}, GOMXELI_NOT_WHOLE},
    {"iq", iq_enqueue_back, {0}, GOMXELI_NOT_WHOLE},
    {"iq", iq_dequeue, {0}, GOMXELI_NOT_WHOLE},
    {"img", img_open, {0}, GOMXELI_BAD_IMAGE},
    {"img", img_add_subject, {0}, GOMXELI_BAD_IMAGE},
    {"img", img_remove_subject_range, {0, 8191}, GOMXELI_BAD_IMAGE},
    {"img", img_has_subject, {0}, GOMXELI_BAD_IMAGE},
};

/* States, each opened with the numbers; lists and keys also of lengths near the registries'. */
static const struct {
    const char *kind;
    size_t len;
    call_function *open;
    uint32_t n[MOST_NUMBERS];
} states[] = {
    {"reg", GOMXELI_REG_LENGTH, reg_open, {9}},
    {"lb", GOMXELI_LB_LENGTH, lb_open, {0}},
    {"req", GOMXELI_REQ_LENGTH, req_open, {0}},
    {"txm", GOMXELI_TXM_LENGTH, txm_open, {0}},
    {"txr", GOMXELI_TXR_LENGTH, txr_open, {0}},
    {"img", GOMXELI_IMG_LENGTH, img_open, {0}},
    {"mcq", GOMXELI_MCQ_LENGTH(1, 190), mcq_open, {1, 190}},
    {"mcq", GOMXELI_MCQ_LENGTH(1, 191), mcq_open, {1, 191}},
    {"mcq", GOMXELI_MCQ_LENGTH(1, 192), mcq_open, {1, 192}},
    {"mcq", GOMXELI_MCQ_LENGTH(1, 193), mcq_open, {1, 193}},
    {"mcq", GOMXELI_MCQ_LENGTH(16, 128), mcq_open, {16, 128}},
    {"mcq", GOMXELI_MCQ_LENGTH(32, 224), mcq_open, {32, 224}},
    {"iq", GOMXELI_IQ_LENGTH(3, 46), iq_open, {3, 46}},
    {"iq", GOMXELI_IQ_LENGTH(0, 47), iq_open, {0, 47}},
    {"iq", GOMXELI_IQ_LENGTH(3, 47), iq_open, {3, 47}},
    {"iq", GOMXELI_IQ_LENGTH(0, 83), iq_open, {0, 83}},
    {"iq", GOMXELI_IQ_LENGTH(3, 83), iq_open, {3, 83}},
    {"iq", GOMXELI_IQ_LENGTH(0, 131), iq_open, {0, 131}},
    {"iq", GOMXELI_IQ_LENGTH(3, 131), iq_open, {3, 131}},
    {"iq", GOMXELI_IQ_LENGTH(8191, 222), iq_open, {8191, 222}},
};

void test_kinds(void)
{
    static struct state state;
    for (unsigned i = 0; i < sizeof states / sizeof states[0]; i++) {
        state.len = states[i].len;
        CHECK(gomxeli_number(states[i].open(LENT(&state), states[i].n)) == GOMXELI_ACCEPTED);
        for (unsigned c = 0; c < sizeof calls / sizeof calls[0]; c++)
            if (strcmp(calls[c].kind, states[i].kind) != 0)
                CHECK(refuses(calls[c].call, &state, calls[c].n, calls[c].number));
    }
}
