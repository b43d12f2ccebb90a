#include "state_lb.h"

void loop_back_clear(struct loop_back *loop_back)
{
    loop_back->entries.count = 0;
    loop_back->walk = NO_WALK;
}

void loop_back_read(const uint8_t *bytes, struct loop_back *loop_back)
{
    tree_read(bytes, &loop_back->entries);
    loop_back->walk = walk_read(bytes[LB_WALK_AT]);
}

void loop_back_lay(const struct loop_back *loop_back, uint8_t *bytes)
{
    tree_lay(&loop_back->entries, bytes);
    walk_lay(loop_back->walk, &bytes[LB_WALK_AT]);
}
