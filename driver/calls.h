/*
 * The exported calls that have a state or an image, all of one shape, for tables:
 * the lent bytes and the call's numbers in the header's order. Numbers that a call
 * does not take are not read.
 */
#ifndef CALLS_H
#define CALLS_H

#include <stddef.h>
#include <stdint.h>

#include "gomxeli.h"

/* The most numbers that a call takes. */
enum { MOST_NUMBERS = 5 };

typedef gomxeli_answer call_function(uint8_t *state, size_t len, const uint32_t *n);

call_function reg_open, reg_register, reg_unregister, reg_poll_pop, reg_hub_push_start,
    reg_hub_push_next;

call_function lb_open, lb_register, lb_unregister, lb_hub_push_start, lb_hub_push_next;

call_function req_open, req_register, req_unregister, req_poll_push;

call_function txm_open, txm_register, txm_unregister, txm_update, txm_pick, txm_settle;

call_function txr_open, txr_register, txr_unregister, txr_update, txr_pick, txr_settle;

call_function img_open, img_add_subject, img_remove_subject_range, img_has_subject;

call_function mcq_open, mcq_front, mcq_back, mcq_is_empty, mcq_is_front, mcq_is_back, mcq_remove,
    mcq_move_front, mcq_move_back;

call_function iq_open, iq_contains, iq_get, iq_get_mut, iq_insert, iq_remove, iq_front, iq_back,
    iq_enqueue_front, iq_enqueue_back, iq_dequeue;

#endif
