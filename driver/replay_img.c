/* Lines of the filter image: `img ..`. */
#include "replay.h"

static void run_open(struct state *image, const uint32_t *n)
{
    open_state(image, GOMXELI_IMG_LENGTH, img_open, n);
}

#define ANY ANY_NUMBER

const struct verb img_verbs[] = {
    {"open", 0, {0}, NULL, NULL, run_open},
    {"add", 1, {ANY}, img_add_subject, print_done, NULL},
    {"remove", 2, {ANY, ANY}, img_remove_subject_range, print_done, NULL},
    {"has", 1, {ANY}, img_has_subject, print_flag, NULL},
    {NULL, 0, {0}, NULL, NULL, NULL},
};
