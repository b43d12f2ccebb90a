/* Lines about a frame: `eot length last`. */
#include <stdio.h>

#include "replay.h"

enum { MOST_FRAME = 65535 };

/* A frame of zero bytes but for the last. */
static void run_eot(struct state *state, const uint32_t *n)
{
    static uint8_t frame[MOST_FRAME];
    size_t len = n[0];
    (void)state;
    if (len > 0)
        frame[len - 1] = (uint8_t)n[1];
    gomxeli_answer answer = gomxeli_is_eot_frame(frame, len);
    if (len > 0)
        frame[len - 1] = 0;
    if (gomxeli_what(answer) == 0)
        printf("-");
    else
        printf("%u", (unsigned)gomxeli_first(answer));
}

const struct verb frame_verbs[] = {
    {"eot", 2, {MOST_FRAME, 255}, NULL, NULL, run_eot},
    {NULL, 0, {0}, NULL, NULL, NULL},
};
