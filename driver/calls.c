#include "calls.h"

#define CALL(name, ...) \
    gomxeli_answer name(uint8_t *state, size_t len, const uint32_t *n) \
    { \
        (void)n; \
        return gomxeli_##name(__VA_ARGS__); \
    }

CALL(reg_open, state, len, n[0])
CALL(reg_register, state, len, n[0], n[1])
CALL(reg_unregister, state, len, n[0])
CALL(reg_poll_pop, state, len)
CALL(reg_hub_push_start, state, len, n[0])
CALL(reg_hub_push_next, state, len)

CALL(lb_open, state, len)
CALL(lb_register, state, len, n[0], n[1])
CALL(lb_unregister, state, len, n[0])
CALL(lb_hub_push_start, state, len, n[0])
CALL(lb_hub_push_next, state, len)

CALL(req_open, state, len)
CALL(req_register, state, len, n[0], n[1])
CALL(req_unregister, state, len, n[0])
CALL(req_poll_push, state, len, n[0], (uint8_t)n[1])

CALL(txm_open, state, len)
CALL(txm_register, state, len, n[0], n[1], (uint8_t)n[2])
CALL(txm_unregister, state, len, n[0])
CALL(txm_update, state, len, n[0], (uint8_t)n[1])
CALL(txm_pick, state, len, (uint8_t)n[0], n[1])
CALL(txm_settle, state, len, (uint8_t)n[0], (uint8_t)n[1], n[2], n[3], (uint8_t)n[4])

CALL(txr_open, state, len)
CALL(txr_register, state, len, n[0], (uint8_t)n[1])
CALL(txr_unregister, state, len, n[0])
CALL(txr_update, state, len, n[0], (uint8_t)n[1])
CALL(txr_pick, state, len, (uint8_t)n[0], n[1])
CALL(txr_settle, state, len, (uint8_t)n[0], (uint8_t)n[1], n[2], n[3], (uint8_t)n[4])

CALL(img_open, state, len)
CALL(img_add_subject, state, len, n[0])
CALL(img_remove_subject_range, state, len, n[0], n[1])
CALL(img_has_subject, state, len, n[0])

CALL(mcq_open, state, len, n[0], n[1])
CALL(mcq_front, state, len, n[0])
CALL(mcq_back, state, len, n[0])
CALL(mcq_is_empty, state, len, n[0])
CALL(mcq_is_front, state, len, n[0])
CALL(mcq_is_back, state, len, n[0])
CALL(mcq_remove, state, len, n[0])
CALL(mcq_move_front, state, len, n[0], n[1])
CALL(mcq_move_back, state, len, n[0], n[1])

CALL(iq_open, state, len, n[0], n[1])
CALL(iq_contains, state, len, (uint16_t)n[0])
CALL(iq_get, state, len, (uint16_t)n[0])
CALL(iq_get_mut, state, len, (uint16_t)n[0], n[1])
CALL(iq_insert, state, len, (uint16_t)n[0], n[1])
CALL(iq_remove, state, len, (uint16_t)n[0])
CALL(iq_front, state, len)
CALL(iq_back, state, len)
CALL(iq_enqueue_front, state, len, (uint16_t)n[0])
CALL(iq_enqueue_back, state, len, (uint16_t)n[0])
CALL(iq_dequeue, state, len, (uint16_t)n[0])
