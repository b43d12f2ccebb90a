/* The calls without state: identifiers, priorities and their sets, the tail byte. */
#include "bench.h"

/* The identifiers' and the numbers' ends. */
enum { BYTE = UINT8_MAX, WORD = UINT16_MAX, PRIORITY = GOMXELI_PRIORITY_MAX };

#define LEAF(name, ...) \
    static gomxeli_answer name(const uint32_t *n) \
    { \
        return gomxeli_##name(__VA_ARGS__); \
    }
#define LEAF_OF_BYTE(name) LEAF(name, (uint8_t)n[0])
#define LEAF_OF_BYTES(name) LEAF(name, (uint8_t)n[0], (uint8_t)n[1])
#define LEAF_OF_WORD(name) LEAF(name, (uint16_t)n[0])

LEAF_OF_WORD(subject_id_new)
LEAF_OF_WORD(service_id_new)
LEAF_OF_BYTE(node_id_new)
LEAF_OF_BYTE(transfer_id_new)
LEAF_OF_BYTE(priority_try_from_u8)
LEAF_OF_WORD(subject_id_from_u16_truncating)
LEAF_OF_WORD(service_id_from_u16_truncating)
LEAF_OF_BYTE(node_id_from_u8_truncating)
LEAF_OF_BYTE(transfer_id_from_u8_truncating)
LEAF_OF_BYTE(priority_from_u8_truncating)
LEAF_OF_BYTE(transfer_id_next)
LEAF_OF_BYTE(priority_next)
LEAF_OF_BYTE(priority_prev)
LEAF_OF_BYTE(priority_set_new_eq)
LEAF_OF_BYTE(priority_set_new_ge)
LEAF_OF_BYTE(priority_set_new_le)
LEAF_OF_BYTE(priority_set_new_gt)
LEAF_OF_BYTE(priority_set_new_lt)
LEAF_OF_BYTES(priority_set_contains)
LEAF_OF_BYTES(priority_set_insert)
LEAF_OF_BYTES(priority_set_remove)
LEAF_OF_BYTE(priority_set_first)
LEAF_OF_BYTE(priority_set_last)
LEAF_OF_BYTE(priority_set_is_empty)
LEAF_OF_BYTE(priority_set_complement)
LEAF_OF_BYTE(priority_set_not)
LEAF_OF_BYTES(priority_set_bitand)
LEAF_OF_BYTES(priority_set_bitor)
LEAF_OF_BYTE(priority_set_iter_next)
LEAF(tail_byte_new, (uint8_t)n[0], (uint8_t)n[1], (uint8_t)n[2], (uint8_t)n[3])
LEAF_OF_BYTE(tail_byte_sot)
LEAF_OF_BYTE(tail_byte_eot)
LEAF_OF_BYTE(tail_byte_toggle)
LEAF_OF_BYTE(tail_byte_transfer_id)

/* Of a frame of 8 bytes, by its last. */
static gomxeli_answer is_eot_frame(const uint32_t *n)
{
    const uint8_t frame[8] = {[7] = (uint8_t)n[0]};
    return gomxeli_is_eot_frame(frame, sizeof frame);
}

const struct leaf leaves[] = {
    {CALLED(subject_id_new), {WORD}},
    {CALLED(service_id_new), {WORD}},
    {CALLED(node_id_new), {BYTE}},
    {CALLED(transfer_id_new), {BYTE}},
    {CALLED(priority_try_from_u8), {BYTE}},
    {CALLED(subject_id_from_u16_truncating), {WORD}},
    {CALLED(service_id_from_u16_truncating), {WORD}},
    {CALLED(node_id_from_u8_truncating), {BYTE}},
    {CALLED(transfer_id_from_u8_truncating), {BYTE}},
    {CALLED(priority_from_u8_truncating), {BYTE}},
    {CALLED(transfer_id_next), {BYTE}},
    {CALLED(priority_next), {PRIORITY}},
    {CALLED(priority_prev), {PRIORITY}},
    {CALLED(priority_set_new_eq), {PRIORITY}},
    {CALLED(priority_set_new_ge), {PRIORITY}},
    {CALLED(priority_set_new_le), {PRIORITY}},
    {CALLED(priority_set_new_gt), {PRIORITY}},
    {CALLED(priority_set_new_lt), {PRIORITY}},
    {CALLED(priority_set_contains), {BYTE, PRIORITY}},
    {CALLED(priority_set_insert), {BYTE, PRIORITY}},
    {CALLED(priority_set_remove), {BYTE, PRIORITY}},
    {CALLED(priority_set_first), {BYTE}},
    {CALLED(priority_set_last), {BYTE}},
    {CALLED(priority_set_is_empty), {BYTE}},
    {CALLED(priority_set_complement), {BYTE}},
    {CALLED(priority_set_not), {BYTE}},
    {CALLED(priority_set_bitand), {BYTE, BYTE}},
    {CALLED(priority_set_bitor), {BYTE, BYTE}},
    {CALLED(priority_set_iter_next), {BYTE}},
    {CALLED(tail_byte_new), {1, 1, 1, GOMXELI_TRANSFER_ID_MAX}},
    {CALLED(tail_byte_sot), {BYTE}},
    {CALLED(tail_byte_eot), {BYTE}},
    {CALLED(tail_byte_toggle), {BYTE}},
    {CALLED(tail_byte_transfer_id), {BYTE}},
    {CALLED(is_eot_frame), {BYTE}},
    {.name = NULL},
};
