#include "random_tx.h"

#include "random.h"
#include "state_tx.h"

uint8_t random_set(void)
{
    uint8_t one = (uint8_t)(1u << below(one_in(2) ? 3 : PRIORITIES));
    switch (below(6)) {
    case 0:
        return 0;
    case 1:
        return (uint8_t)random_bits();
    case 2:
        return (uint8_t)(one | (uint8_t)random_bits());
    default:
        return one;
    }
}

uint8_t random_mask(void)
{
    return one_in(3) ? UINT8_MAX : random_set();
}

uint32_t random_mtu(void)
{
    uint32_t mtu = one_in(2) ? 8 : 64;
    switch (below(16)) {
    case 0:
        return mtu - 1 + 2 * below(2);
    case 1:
        return mtu + (256u << (8 * below(3)));
    case 2:
        return number_near(65);
    default:
        return mtu;
    }
}

uint8_t random_frame(void)
{
    return one_in(2) ? one_in(2) : (uint8_t)random_bits();
}

uint8_t random_last(void)
{
    return (uint8_t)random_bits();
}

const uint8_t *tx_queue_in(const uint8_t *bytes, size_t len)
{
    bool has_queue = len == GOMXELI_TXM_LENGTH || len == GOMXELI_TXR_LENGTH;
    return has_queue ? bytes + len - TX_QUEUE_LENGTH : NULL;
}

uint32_t random_entry(const uint8_t *queue)
{
    uint32_t entry = below(REGISTRY_ENTRIES);
    if (queue == NULL || one_in(4))
        return number_near(REGISTRY_ENTRIES);
    for (unsigned i = 0; i < REGISTRY_ENTRIES && queue[REGISTERED_AT + entry] == 0; i++)
        entry = (entry + 1) % REGISTRY_ENTRIES;
    return entry;
}

/* The first class of the pick's mask whose node is not alone. */
static unsigned pick_priority(const uint8_t *queue)
{
    unsigned c = 0;
    while (c < TX_CLASSES - 1 &&
           !(set_has(queue[PICK_MASK_AT], class_priority(c)) && queue[2 + 2 * c] != c))
        c++;
    return class_priority(c);
}

uint32_t random_priority(const uint8_t *queue)
{
    return queue == NULL || one_in(6) ? number_near(PRIORITIES) : pick_priority(queue);
}

uint32_t random_length(const uint8_t *queue)
{
    uint32_t mtu = queue == NULL || queue[PICK_MTU_AT] == 0 ? 8 : queue[PICK_MTU_AT];
    switch (below(10)) {
    case 0:
        return 0;
    case 1:
        return mtu + below(2);
    case 2:
        return number_near(65);
    default:
        return 1 + below(mtu);
    }
}
