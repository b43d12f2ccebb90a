#include "driver.h"

#include <stdio.h>

/* ------------------------------------------------------------------------ */
/* The filter task                                                          */
/* ------------------------------------------------------------------------ */

static bool filter_woken;

void wake_filter_task(void)
{
    if (!filter_woken)
        printf("  filter task: woken\n");
    filter_woken = true;
}

static void add_subject(uint16_t subject)
{
    if (!refused("filter", gomxeli_img_add_subject(LENT(filter), subject)))
        printf("  filter: add %u\n", (unsigned)subject);
}

static void remove_range(uint16_t first, uint16_t last)
{
    if (!refused("filter", gomxeli_img_remove_subject_range(LENT(filter), first, last)))
        printf("  filter: remove %u to %u\n", (unsigned)first, (unsigned)last);
}

/* Puts an update into the filter; false where there is none. */
static bool put_update(gomxeli_answer answer)
{
    switch (gomxeli_update(answer)) {
    case GOMXELI_ADD:
        add_subject(gomxeli_subject(answer));
        return true;
    case GOMXELI_REMOVE:
        remove_range(gomxeli_range_first(answer), gomxeli_range_last(answer));
        return true;
    default:
        printf("  filter: nothing to do\n");
        return false;
    }
}

/* Polls until there is nothing: then the filter passes just the subjects that are heard. */
void filter_task(void)
{
    gomxeli_answer answer;
    if (!filter_woken)
        return;
    filter_woken = false;
    do
        answer = gomxeli_reg_poll_pop(LENT(reg));
    while (accepted(REG, answer) && put_update(answer));
}

/* A hardware filter would do this by itself. */
static bool filter_passes(uint32_t subject)
{
    gomxeli_answer answer = gomxeli_img_has_subject(LENT(filter), subject);
    if (refused("filter", answer))
        return false;
    if (!gomxeli_yes(answer))
        printf("  filter: does not pass %u\n", (unsigned)subject);
    return gomxeli_yes(answer);
}

/* ------------------------------------------------------------------------ */
/* Messages from the bus                                                    */
/* ------------------------------------------------------------------------ */

/* Whether a frame has an entry; says a refusal, and that it has none. */
static bool has_entry(enum kind kind, gomxeli_answer answer)
{
    if (!accepted(kind, answer))
        return false;
    if (!gomxeli_some(answer))
        printf("  %s: for nobody\n", name_of(kind));
    return gomxeli_some(answer);
}

/* Who leaves when an entry hears its next message. */
static struct {
    bool set;
    uint32_t entry;
} leaves_then[ENTRIES];

void leave_when_heard(uint32_t entry, uint32_t other)
{
    if (entry > GOMXELI_ENTRY_MAX) {
        printf("  reg: no entry %lu\n", (unsigned long)entry);
        return;
    }
    leaves_then[entry].set = true;
    leaves_then[entry].entry = other;
}

/* An endpoint may join, leave and let others leave while it hears a frame. */
static void hear(uint16_t entry, const struct bytes *frame)
{
    printf("  reg: entry %u hears", (unsigned)entry);
    print_frame(frame->byte, frame->length);
    if (leaves_then[entry].set) {
        leaves_then[entry].set = false;
        leave(REG, leaves_then[entry].entry);
    }
}

/* The walk goes on while more follow; one that has left on the way is not named. */
static void walk_regular(uint32_t subject, const struct bytes *frame)
{
    gomxeli_answer answer = gomxeli_reg_hub_push_start(LENT(reg), subject);
    bool more = has_entry(REG, answer);
    while (more) {
        answer = gomxeli_reg_hub_push_next(LENT(reg));
        if (accepted(REG, answer) && gomxeli_some(answer))
            hear(gomxeli_entry(answer), frame);
        more = gomxeli_more(answer);
    }
}

/* ------------------------------------------------------------------------ */
/* Messages that this node has sent                                         */
/* ------------------------------------------------------------------------ */

/* A loop-back walk goes on past its subject: entries of other subjects are left out here. */
static void hear_own(uint16_t entry, uint32_t subject, const struct bytes *frame)
{
    if (address_of(LB, entry) != subject) {
        printf("  lb: entry %u is on another subject\n", (unsigned)entry);
        return;
    }
    printf("  lb: entry %u hears", (unsigned)entry);
    print_frame(frame->byte, frame->length);
}

static void walk_loop_back(uint32_t subject, const struct bytes *frame)
{
    gomxeli_answer answer = gomxeli_lb_hub_push_start(LENT(lb), subject);
    bool more = has_entry(LB, answer);
    while (more) {
        answer = gomxeli_lb_hub_push_next(LENT(lb));
        if (accepted(LB, answer) && gomxeli_some(answer))
            hear_own(gomxeli_entry(answer), subject, frame);
        more = gomxeli_more(answer);
    }
}

/* ------------------------------------------------------------------------ */
/* Frames                                                                   */
/* ------------------------------------------------------------------------ */

/* A frame has a tail byte at least. */
static bool is_frame(const struct bytes *frame)
{
    if (gomxeli_some(gomxeli_is_eot_frame(frame->byte, frame->length)))
        return true;
    printf("  a frame without tail byte is dropped\n");
    return false;
}

void message_in(uint32_t subject, bool loop_back, const struct bytes *frame)
{
    if (!is_frame(frame))
        return;
    if (loop_back)
        walk_loop_back(subject, frame);
    else if (filter_passes(subject))
        walk_regular(subject, frame);
}

void request_in(uint32_t service, bool loop_back, const struct bytes *frame)
{
    if (!is_frame(frame))
        return;
    gomxeli_answer answer = gomxeli_req_poll_push(LENT(req), service, loop_back);
    if (!has_entry(REQ, answer))
        return;
    uint8_t tail = frame->byte[frame->length - 1];
    note_request(gomxeli_entry(answer), gomxeli_byte(gomxeli_tail_byte_transfer_id(tail)));
    printf("  req: entry %u serves", (unsigned)gomxeli_entry(answer));
    print_frame(frame->byte, frame->length);
}
