/*
 * gomxeli.h: the registries and queues of a Cyphal/CAN node, over bytes that the
 * caller lends.
 *
 * A node's endpoints join and leave: they hear messages, serve requests, send
 * messages and responses. The registries say which endpoint a received frame is for,
 * which subjects the bus filter has to pass, and which endpoint sends the next frame.
 * Reading and writing the bus, the payloads and the waiting are the caller's.
 *
 * The functions are written and proved in Rattle. `driver/archive_build` puts them
 * into target/staticlib/libgomxeli.a; a program includes this header and links that
 * archive. example/ has a whole driver.
 *
 * CONTENTS
 *
 *     Numbers and limits
 *     Answers and refusals
 *     Regular message reception      gomxeli_reg_...
 *     The filter image               gomxeli_img_...
 *     Loop-back message reception    gomxeli_lb_...
 *     Requests                       gomxeli_req_...
 *     Message transmission           gomxeli_txm_...
 *     Response transmission          gomxeli_txr_...
 *     Lists                          gomxeli_mcq_...
 *     Key queues                     gomxeli_iq_...
 *     Identifiers                    gomxeli_subject_id_..., and so on
 *     Priorities and sets of them    gomxeli_priority_...
 *     The tail byte of a frame       gomxeli_tail_byte_..., gomxeli_is_eot_frame
 *
 * A driver needs the registries, the filter image and, to cut frames, the last three
 * parts. The lists and the key queues are for its own buffers.
 *
 * QUICK START
 *
 * A registry of messages and the bus filter. Open both once; register an endpoint;
 * put the filter's updates into its image; deliver a frame.
 *
 *     #include "gomxeli.h"
 *
 *     static uint8_t reg[GOMXELI_REG_LENGTH], filter[GOMXELI_IMG_LENGTH];
 *
 *     gomxeli_reg_open(reg, sizeof reg, 4);        // 4 subject slots
 *     gomxeli_img_open(filter, sizeof filter);
 *
 *     // entry 0 is to hear subject 100
 *     gomxeli_answer a = gomxeli_reg_register(reg, sizeof reg, 0, 100);
 *     if (!gomxeli_accepted(a))
 *         report(gomxeli_refusal_text(gomxeli_number(a)));
 *
 *     // after a wake: the filter's updates, until there are none
 *     if (gomxeli_wakes(a)) {
 *         do {
 *             a = gomxeli_reg_poll_pop(reg, sizeof reg);
 *             if (gomxeli_update(a) == GOMXELI_ADD)
 *                 gomxeli_img_add_subject(filter, sizeof filter, gomxeli_subject(a));
 *             if (gomxeli_update(a) == GOMXELI_REMOVE)
 *                 gomxeli_img_remove_subject_range(filter, sizeof filter,
 *                                                  gomxeli_range_first(a),
 *                                                  gomxeli_range_last(a));
 *         } while (gomxeli_update(a) != GOMXELI_NOTHING);
 *     }
 *
 *     // a frame on subject 100: to each of its entries
 *     bool more = gomxeli_some(gomxeli_reg_hub_push_start(reg, sizeof reg, 100));
 *     while (more) {
 *         a = gomxeli_reg_hub_push_next(reg, sizeof reg);
 *         if (gomxeli_some(a))
 *             deliver(gomxeli_entry(a));           // entry 0; it may unregister here
 *         more = gomxeli_more(a);
 *     }
 *
 * STATES
 *
 * A state is an array of bytes that the caller owns and lends to each call as a
 * pointer and a length. The library keeps nothing between calls: no globals, no heap,
 * no pointer into a state. So a state may be copied, stored, sent and restored as
 * plain bytes, and needs no alignment. Each kind of state has lengths that no other
 * kind has at any size.
 *
 * An opening call comes first. It writes every byte of a state, whatever the bytes
 * held; there is nothing to close. The other calls first test that the bytes are
 * whole, that is, that they are a state of their kind by docs/STATES.md; bytes that
 * are not are refused with GOMXELI_NOT_WHOLE, so a state may come from anywhere. The
 * test takes a time linear in the length. A state that is not whole is opened anew,
 * or restored from a copy.
 *
 * The pointer must be valid for the length given with it. It may be NULL where the
 * length is 0. A call writes no byte but those of a state or an image that it takes
 * without const. A filter image is lent in the same way; any bytes of its length are
 * one.
 *
 * THREADS
 *
 * Calls on different states may run at the same time. On one state they may not, nor
 * may an interrupt call while a call on the same state is under way: a lock around
 * each state is the caller's. No call waits, allocates, calls back or calls itself;
 * docs/ARCHIVE.md says how much stack each kind of call takes.
 *
 * REFUSALS
 *
 * Any argument may have any value, and no call aborts. A call that cannot be done is
 * refused: gomxeli_accepted says so, gomxeli_number says why, gomxeli_refusal_text puts
 * it into words, and every lent byte is as it was. Arguments that say yes or no are
 * bytes, no where they are 0.
 *
 * The header is C99, and C++98 where that has <stdint.h>.
 */
#ifndef GOMXELI_H
#define GOMXELI_H

#ifndef __cplusplus
#include <stdbool.h>
#endif
#include <stddef.h>
#include <stdint.h>

#ifdef __cplusplus
extern "C" {
#endif

/* ------------------------------------------------------------------------ */
/* Numbers and limits                                                       */
/* ------------------------------------------------------------------------ */

/* An entry of a registry is a number that the caller chooses for an endpoint. */
#define GOMXELI_ENTRY_MAX 127

#define GOMXELI_SUBJECT_ID_MAX 8191
#define GOMXELI_SERVICE_ID_MAX 511
#define GOMXELI_NODE_ID_MAX 127
#define GOMXELI_TRANSFER_ID_MAX 31
#define GOMXELI_PRIORITY_MAX 7

/* The most bytes of a frame, its tail byte included. A pick takes one of these two. */
#define GOMXELI_MTU_CAN_CLASSIC 8
#define GOMXELI_MTU_CAN_FD 64

/* The priorities, the most urgent first. */
enum gomxeli_priority {
    GOMXELI_PRIORITY_EXCEPTIONAL = 0,
    GOMXELI_PRIORITY_IMMEDIATE = 1,
    GOMXELI_PRIORITY_FAST = 2,
    GOMXELI_PRIORITY_HIGH = 3,
    GOMXELI_PRIORITY_NOMINAL = 4,
    GOMXELI_PRIORITY_LOW = 5,
    GOMXELI_PRIORITY_SLOW = 6,
    GOMXELI_PRIORITY_OPTIONAL = 7
};

/*
 * Sets of priorities are bytes: priority p is in the set where bit p is 1. The set of
 * one priority, and the set of all, as constants.
 */
#define GOMXELI_PRIORITY_SET_OF(priority) ((uint8_t)(1u << (priority)))
#define GOMXELI_PRIORITY_SET_ALL ((uint8_t)0xff)

/* ------------------------------------------------------------------------ */
/* Answers and refusals                                                     */
/* ------------------------------------------------------------------------ */

/*
 * Every call answers one 64-bit number of four fields: bits 0 to 7 the number, 8 to 15
 * what, 16 to 31 the first field, 32 to 63 the second. The functions below take it
 * apart.
 *
 * The number is 0 where the call was accepted, and else the refusal's. A refused call
 * leaves every lent byte as it was, and its other fields are 0; only
 * GOMXELI_NOT_TAKEN has the key first and the value second.
 *
 * Each call's comment says after `Answer:` what an accepted call answers, by the names
 * of these functions without gomxeli_; a call without such a line answers no more than
 * that it was accepted, and a field that is not mentioned is 0. Below that come the
 * refusals that the call can give. Where several apply, the answer is the one listed
 * first.
 */
typedef uint64_t gomxeli_answer;

/*
 * The refusals of all kinds of state, in the order in which a call looks for them,
 * which is not that of their numbers. Opening a list or a key queue looks for
 * GOMXELI_SIZE first.
 */
enum gomxeli_refusal {
    GOMXELI_ACCEPTED = 0,
    GOMXELI_NOT_WHOLE = 1,       /* the bytes are not a whole state of the kind */
    GOMXELI_ENTRY_RANGE = 2,     /* registry entry above 127 */
    GOMXELI_RANGE = 3,           /* subject, service, priority or opening slots past
                                    its end; a range whose first passes its last;
                                    an mtu other than 8 or 64 */
    GOMXELI_BAD_IMAGE = 4,       /* a filter image of other than 1,024 bytes */
    GOMXELI_PICK_OPEN = 10,      /* a pick is open, and the call neither settles nor opens */
    GOMXELI_NO_PICK = 11,        /* settlement with no pick open */
    GOMXELI_BAD_FRAME = 12,      /* settlement: the frame is empty, longer than the
                                    pick's mtu, or of another priority */
    GOMXELI_REGISTERED = 5,      /* registering: the entry is registered already */
    GOMXELI_NO_SUBJECT_SLOT = 6, /* registering: no subject slot is left */
    GOMXELI_OCCUPIED = 7,        /* registering: the service or subject is occupied */
    GOMXELI_NOT_REGISTERED = 8,  /* removing, new readiness: the entry is not registered */
    GOMXELI_SLOTS_FULL = 9,      /* removing: the slot counter would pass 65,535 */
    GOMXELI_SIZE = 13,           /* class or list entry past the size; a list or key
                                    queue size, or K_MAX, that is not allowed */
    GOMXELI_NOT_TAKEN = 14,      /* insert: key above K_MAX, or key new and no entry free */
    GOMXELI_NO_KEY = 15,         /* enqueue, dequeue: there is no such key */
    GOMXELI_VALUE_GONE = 16,     /* insert, remove: the key's value was handed back before */
    GOMXELI_NO_CALL = 17         /* a program's line is not a call; no function answers it */
};

/* The fields. */

/* 0: accepted; else one of enum gomxeli_refusal. */
static inline unsigned gomxeli_number(gomxeli_answer answer)
{
    return (unsigned)(answer & 0xffu);
}

/* A flag, whether there is a value, or which update. */
static inline unsigned gomxeli_what(gomxeli_answer answer)
{
    return (unsigned)((answer >> 8) & 0xffu);
}

/* An entry, a subject, a class, a key, an identifier, a set, a range's first. */
static inline uint16_t gomxeli_first(gomxeli_answer answer)
{
    return (uint16_t)((answer >> 16) & 0xffffu);
}

/* A value, a priority, a range's last, whether more follow. */
static inline uint32_t gomxeli_second(gomxeli_answer answer)
{
    return (uint32_t)(answer >> 32);
}

/* What they mean. On a refusal, each of those that say yes or no says no. */

/* Whether the call was accepted. */
static inline bool gomxeli_accepted(gomxeli_answer answer)
{
    return gomxeli_number(answer) == GOMXELI_ACCEPTED;
}

/* Registering, removing, new readiness, settling: the task that polls or picks has work. */
static inline bool gomxeli_wakes(gomxeli_answer answer)
{
    return gomxeli_what(answer) == 1;
}

/* A search, a step of a walk, a pick: there is one. */
static inline bool gomxeli_some(gomxeli_answer answer)
{
    return gomxeli_what(answer) == 1;
}

/* A question: yes. */
static inline bool gomxeli_yes(gomxeli_answer answer)
{
    return gomxeli_what(answer) == 1;
}

/* A step of a walk, a pick, a settlement, a request, a list: the entry. */
static inline uint16_t gomxeli_entry(gomxeli_answer answer)
{
    return gomxeli_first(answer);
}

/* A step of a walk: whether more entries follow. */
static inline bool gomxeli_more(gomxeli_answer answer)
{
    return gomxeli_some(answer) && gomxeli_second(answer) == 1;
}

/* A pick: the priority of the frame that is to be sent. */
static inline uint8_t gomxeli_picked_priority(gomxeli_answer answer)
{
    return (uint8_t)gomxeli_second(answer);
}

/* A poll: what is to be done to the filter. On a refusal it is GOMXELI_NOTHING. */
enum gomxeli_filter_update {
    GOMXELI_NOTHING = 0,
    GOMXELI_ADD = 1,   /* of one subject */
    GOMXELI_REMOVE = 2 /* of a range of subjects */
};

static inline enum gomxeli_filter_update gomxeli_update(gomxeli_answer answer)
{
    return (enum gomxeli_filter_update)gomxeli_what(answer);
}

/* A poll's GOMXELI_ADD: the subject. */
static inline uint16_t gomxeli_subject(gomxeli_answer answer)
{
    return gomxeli_first(answer);
}

/* A poll's GOMXELI_REMOVE: the first subject and the last, which belong to the range. */
static inline uint16_t gomxeli_range_first(gomxeli_answer answer)
{
    return gomxeli_first(answer);
}

static inline uint16_t gomxeli_range_last(gomxeli_answer answer)
{
    return (uint16_t)gomxeli_second(answer);
}

/* A key queue: the key's value. */
static inline uint32_t gomxeli_value(gomxeli_answer answer)
{
    return gomxeli_second(answer);
}

/* A call without state: the set, the priority, the identifier or the tail byte. */
static inline uint8_t gomxeli_byte(gomxeli_answer answer)
{
    return (uint8_t)gomxeli_first(answer);
}

/* A refusal in words, for people to read. */
static inline const char *gomxeli_refusal_text(unsigned number)
{
    switch (number) {
    case GOMXELI_ACCEPTED:
        return "accepted";
    case GOMXELI_NOT_WHOLE:
        return "the state is not whole";
    case GOMXELI_ENTRY_RANGE:
        return "no such entry";
    case GOMXELI_RANGE:
        return "a number is out of range";
    case GOMXELI_BAD_IMAGE:
        return "not the length of a filter image";
    case GOMXELI_PICK_OPEN:
        return "a pick is open";
    case GOMXELI_NO_PICK:
        return "no pick is open";
    case GOMXELI_BAD_FRAME:
        return "not a frame of the open pick";
    case GOMXELI_REGISTERED:
        return "the entry is registered already";
    case GOMXELI_NO_SUBJECT_SLOT:
        return "no subject slot is left";
    case GOMXELI_OCCUPIED:
        return "the service or subject is occupied";
    case GOMXELI_NOT_REGISTERED:
        return "the entry is not registered";
    case GOMXELI_SLOTS_FULL:
        return "the slot counter is full";
    case GOMXELI_SIZE:
        return "past the size, or a size that is not allowed";
    case GOMXELI_NOT_TAKEN:
        return "the key is not taken";
    case GOMXELI_NO_KEY:
        return "there is no such key";
    case GOMXELI_VALUE_GONE:
        return "the key's value was handed back before";
    case GOMXELI_NO_CALL:
        return "not a call";
    default:
        return "not a refusal";
    }
}

/* ------------------------------------------------------------------------ */
/* Regular message reception: RegularInner                                  */
/* ------------------------------------------------------------------------ */

/*
 * Endpoints that hear messages. An entry is a number from 0 to 127 that the caller
 * chooses; registered, it has one subject, and several entries may have the same.
 * An entry on a subject that the bus filter does not pass yet waits; polls hand
 * out the filter's updates and make the waiting entries active. Frames are for the
 * active entries of their subject, which a walk names one by one, in the order in
 * which they became active.
 *
 * A subject that is new to the registry takes a subject slot, of which there are as many
 * as opening says. Removals give slots back, though not one for each subject:
 * docs/DIFFERENCES.md has the cases.
 *
 * The quick start at the top of this file uses one. A driver that hands a frame to
 * its endpoints may let them register and unregister on the way: the walk stays right,
 * but the entry that was to follow may be gone, and then there is none.
 */
#define GOMXELI_REG_ENTRY_MAX GOMXELI_ENTRY_MAX
#define GOMXELI_REG_SLOTS_MAX 65535

/* The length of a state. */
#define GOMXELI_REG_LENGTH ((size_t)1036)

/*
 * Opens a state: no entries, no walk, and the slot counter at the given number.
 * Writes every byte and looks at none.
 *
 * GOMXELI_NOT_WHOLE  len is not GOMXELI_REG_LENGTH
 * GOMXELI_RANGE      slots above 65,535
 */
gomxeli_answer gomxeli_reg_open(uint8_t *state, size_t len, uint32_t slots);

/*
 * Registers an entry on a subject. Where others wait on the subject, it waits behind
 * them; else, where others are active on it, it is active at once; else it takes a
 * slot and waits.
 * Answer: wakes, where the task that polls has work now.
 *
 * GOMXELI_NOT_WHOLE
 * GOMXELI_ENTRY_RANGE      entry above 127
 * GOMXELI_RANGE            subject above 8,191
 * GOMXELI_REGISTERED       the entry is registered already
 * GOMXELI_NO_SUBJECT_SLOT  no entry has the subject, and the slot counter is 0
 */
gomxeli_answer gomxeli_reg_register(uint8_t *state, size_t len, uint32_t entry, uint32_t subject);

/*
 * Removes an entry. A walk that points at it moves on to the next entry of the
 * subject, or ends. Where the last active entry of a subject leaves, the subject
 * is due to be removed from the filter.
 * Answer: wakes, where the task that polls has work now.
 *
 * GOMXELI_NOT_WHOLE
 * GOMXELI_ENTRY_RANGE     entry above 127
 * GOMXELI_NOT_REGISTERED  the entry is not registered
 * GOMXELI_SLOTS_FULL      the removal would give back a slot, and the slot counter
 *                         is 65,535; the entry stays registered
 */
gomxeli_answer gomxeli_reg_unregister(uint8_t *state, size_t len, uint32_t entry);

/*
 * The next update of the filter. Removals come before additions.
 * Answer: update GOMXELI_ADD, with subject; update GOMXELI_REMOVE, with range_first and
 * range_last, both included; or update GOMXELI_NOTHING: no entry waits, and with all
 * updates put into it the filter passes just the subjects that have an entry.
 *
 * GOMXELI_NOT_WHOLE
 */
gomxeli_answer gomxeli_reg_poll_pop(uint8_t *state, size_t len);

/*
 * Points the walk at the first active entry of a subject, or ends it.
 * Answer: some, where an entry is pointed at; else the subject has no active entry.
 *
 * GOMXELI_NOT_WHOLE
 * GOMXELI_RANGE      subject above 8,191
 */
gomxeli_answer gomxeli_reg_hub_push_start(uint8_t *state, size_t len, uint32_t subject);

/*
 * Names the entry that the walk points at, and moves on to the next of its subject.
 * Answer: some, with entry, and more if others follow; else the walk points at none,
 * and nothing changes.
 *
 * GOMXELI_NOT_WHOLE
 */
gomxeli_answer gomxeli_reg_hub_push_next(uint8_t *state, size_t len);

/* ------------------------------------------------------------------------ */
/* The filter image                                                         */
/* ------------------------------------------------------------------------ */

/*
 * A set of subjects as 1,024 bytes: subject s is in the set where bit s mod 8 of
 * byte s div 8 is 1. Any bytes of this length are an image.
 */
#define GOMXELI_IMG_LENGTH ((size_t)1024)

/*
 * Opens an image: no subject is in it.
 *
 * GOMXELI_BAD_IMAGE  len is not GOMXELI_IMG_LENGTH
 */
gomxeli_answer gomxeli_img_open(uint8_t *image, size_t len);

/*
 * Puts a subject into the image.
 *
 * GOMXELI_RANGE      subject above 8,191
 * GOMXELI_BAD_IMAGE  len is not GOMXELI_IMG_LENGTH
 */
gomxeli_answer gomxeli_img_add_subject(uint8_t *image, size_t len, uint32_t subject);

/*
 * Takes the subjects from first to last out of the image, both included.
 *
 * GOMXELI_RANGE      first or last above 8,191, or first above last
 * GOMXELI_BAD_IMAGE  len is not GOMXELI_IMG_LENGTH
 */
gomxeli_answer gomxeli_img_remove_subject_range(uint8_t *image, size_t len, uint32_t first,
                                                uint32_t last);

/*
 * Whether a subject is in the image.
 * Answer: yes or no.
 *
 * GOMXELI_RANGE      subject above 8,191
 * GOMXELI_BAD_IMAGE  len is not GOMXELI_IMG_LENGTH
 */
gomxeli_answer gomxeli_img_has_subject(const uint8_t *image, size_t len, uint32_t subject);

/* ------------------------------------------------------------------------ */
/* Loop-back message reception: LoopBackInner                               */
/* ------------------------------------------------------------------------ */

/*
 * Endpoints that hear the messages which this node itself has sent. An entry is a
 * number from 0 to 127 that the caller chooses; registered, it has one subject, and
 * several entries may have the same. The registered entries stand in one list, by
 * subject, those of one subject in the order of registering. No filter is asked, so
 * no entry waits and no call wakes.
 *
 * A walk names entries one by one. It starts at the first entry of a subject and
 * goes on to the end of the list, whatever the subject: unlike a regular walk it
 * does not end with its own. A driver that wants the entries of the frame's subject
 * alone leaves the others out.
 *
 *     static uint8_t lb[GOMXELI_LB_LENGTH];
 *
 *     gomxeli_lb_open(lb, sizeof lb);
 *     gomxeli_lb_register(lb, sizeof lb, 0, 100);
 *     gomxeli_lb_register(lb, sizeof lb, 1, 200);
 *
 *     // a frame of this node comes back
 *     bool more = gomxeli_some(gomxeli_lb_hub_push_start(lb, sizeof lb, 100));
 *     while (more) {
 *         gomxeli_answer a = gomxeli_lb_hub_push_next(lb, sizeof lb);
 *         if (gomxeli_some(a) && subject_of(gomxeli_entry(a)) == 100)
 *             deliver(gomxeli_entry(a));       // entry 0; entry 1 is named too
 *         more = gomxeli_more(a);
 *     }
 */
#define GOMXELI_LB_ENTRY_MAX GOMXELI_ENTRY_MAX

/* The length of a state. */
#define GOMXELI_LB_LENGTH ((size_t)389)

/*
 * Opens a state: no entries, no walk. Writes every byte and looks at none.
 *
 * GOMXELI_NOT_WHOLE  len is not GOMXELI_LB_LENGTH
 */
gomxeli_answer gomxeli_lb_open(uint8_t *state, size_t len);

/*
 * Registers an entry on a subject, after the entries that the subject has. The walk
 * does not move.
 *
 * GOMXELI_NOT_WHOLE
 * GOMXELI_ENTRY_RANGE  entry above 127
 * GOMXELI_RANGE        subject above 8,191
 * GOMXELI_REGISTERED   the entry is registered already
 */
gomxeli_answer gomxeli_lb_register(uint8_t *state, size_t len, uint32_t entry, uint32_t subject);

/*
 * Removes an entry. A walk that points at it moves on to the next entry of the list,
 * whatever its subject, or ends.
 *
 * GOMXELI_NOT_WHOLE
 * GOMXELI_ENTRY_RANGE     entry above 127
 * GOMXELI_NOT_REGISTERED  the entry is not registered
 */
gomxeli_answer gomxeli_lb_unregister(uint8_t *state, size_t len, uint32_t entry);

/*
 * Points the walk at the first entry of a subject, or ends it.
 * Answer: some, where an entry is pointed at; else the subject has no entry.
 *
 * GOMXELI_NOT_WHOLE
 * GOMXELI_RANGE      subject above 8,191
 */
gomxeli_answer gomxeli_lb_hub_push_start(uint8_t *state, size_t len, uint32_t subject);

/*
 * Names the entry that the walk points at, and moves on to the next of the list,
 * whatever its subject.
 * Answer: some, with entry, and more if others follow; else the walk points at none,
 * and nothing changes.
 *
 * GOMXELI_NOT_WHOLE
 */
gomxeli_answer gomxeli_lb_hub_push_next(uint8_t *state, size_t len);

/* ------------------------------------------------------------------------ */
/* Requests                                                                 */
/* ------------------------------------------------------------------------ */

/*
 * Endpoints that serve requests. An entry is a number from 0 to 127 that the caller
 * chooses; registered, it has one service, and no other entry has the same. A frame
 * is for the one entry of its service; a loop-back frame is for none.
 *
 *     static uint8_t req[GOMXELI_REQ_LENGTH];
 *
 *     gomxeli_req_open(req, sizeof req);
 *     gomxeli_req_register(req, sizeof req, 3, 430);
 *
 *     // a request of a service
 *     gomxeli_answer a = gomxeli_req_poll_push(req, sizeof req, 430, 0);
 *     if (gomxeli_some(a))
 *         deliver(gomxeli_entry(a));           // entry 3
 */
#define GOMXELI_REQ_ENTRY_MAX GOMXELI_ENTRY_MAX

/* The length of a state. */
#define GOMXELI_REQ_LENGTH ((size_t)385)

/*
 * Opens a state: no entries. Writes every byte and looks at none.
 *
 * GOMXELI_NOT_WHOLE  len is not GOMXELI_REQ_LENGTH
 */
gomxeli_answer gomxeli_req_open(uint8_t *state, size_t len);

/*
 * Registers an entry on a service.
 *
 * GOMXELI_NOT_WHOLE
 * GOMXELI_ENTRY_RANGE  entry above 127
 * GOMXELI_RANGE        service above 511
 * GOMXELI_REGISTERED   the entry is registered already
 * GOMXELI_OCCUPIED     the service has an entry
 */
gomxeli_answer gomxeli_req_register(uint8_t *state, size_t len, uint32_t entry, uint32_t service);

/*
 * Removes an entry; its service has none then.
 *
 * GOMXELI_NOT_WHOLE
 * GOMXELI_ENTRY_RANGE     entry above 127
 * GOMXELI_NOT_REGISTERED  the entry is not registered
 */
gomxeli_answer gomxeli_req_unregister(uint8_t *state, size_t len, uint32_t entry);

/*
 * The entry that a frame of a service is for. It is a loop-back frame where loop_back
 * is not 0. Changes nothing.
 * Answer: some, with entry; else the service has no entry, or it is a loop-back frame.
 *
 * GOMXELI_NOT_WHOLE
 * GOMXELI_RANGE      service above 511, of a loop-back frame too
 */
gomxeli_answer gomxeli_req_poll_push(const uint8_t *state, size_t len, uint32_t service,
                                     uint8_t loop_back);

/* ------------------------------------------------------------------------ */
/* Message transmission                                                     */
/* ------------------------------------------------------------------------ */

/*
 * Endpoints that send messages. An entry is a number from 0 to 127 that the caller
 * chooses; registered, it has one subject, and no other entry has the same.
 *
 * The caller tells each entry's readiness, the set of the priorities of which it has
 * frames to send. It comes with registering, with an update, and with a settlement. An
 * entry with a readiness that is not empty stands in one queue, that of its most urgent
 * ready priority: among the started ones, if it has sent part of a transfer of this
 * priority, or else among the finished ones. An entry that comes into a queue goes to its
 * back; one whose queue stays does not move.
 *
 * A pick asks which entry is to send the next frame: the front one of the most
 * urgent priority of those in its mask, started before finished. The pick is then
 * open, and every call but opening and settling is refused. The settlement closes
 * it. It says what came of the pick: a frame, with its priority, its length and its
 * last byte, or no frame; and the entry's readiness from now on. After the last
 * frame of a transfer the entry goes to the back, after another frame it stays in
 * front of those of its priority, so that it is picked again.
 *
 * A pick that finds nothing stores its mask, which is the wake mask from then on,
 * and so does a settlement without frame. An entry that comes into a queue whose
 * priority is in the wake mask wakes the task that picks.
 *
 *     static uint8_t tx[GOMXELI_TXM_LENGTH];
 *
 *     // entry 0, on subject 100, has a message of nominal priority
 *     const uint8_t ready = GOMXELI_PRIORITY_SET_OF(GOMXELI_PRIORITY_NOMINAL);
 *     gomxeli_txm_open(tx, sizeof tx);
 *     gomxeli_txm_register(tx, sizeof tx, 0, 100, ready);
 *
 *     // room for a frame of up to 8 bytes, of any priority
 *     const uint8_t any = GOMXELI_PRIORITY_SET_ALL;
 *     gomxeli_answer a = gomxeli_txm_pick(tx, sizeof tx, any, GOMXELI_MTU_CAN_CLASSIC);
 *     if (gomxeli_some(a)) {
 *         uint16_t entry = gomxeli_entry(a);                   // entry 0
 *         uint8_t priority = gomxeli_picked_priority(a);       // the nominal one
 *         uint8_t frame[GOMXELI_MTU_CAN_CLASSIC];
 *         uint8_t length = next_frame(entry, priority, frame); // 0: it has none
 *         gomxeli_txm_settle(tx, sizeof tx, length > 0, readiness_of(entry), priority,
 *                            length, length > 0 ? frame[length - 1] : 0);
 *     }
 */
#define GOMXELI_TXM_ENTRY_MAX GOMXELI_ENTRY_MAX

/* The length of a state. */
#define GOMXELI_TXM_LENGTH ((size_t)1062)

/*
 * Opens a state: no entries, no pick, an empty wake mask. Writes every byte and
 * looks at none.
 *
 * GOMXELI_NOT_WHOLE  len is not GOMXELI_TXM_LENGTH
 */
gomxeli_answer gomxeli_txm_open(uint8_t *state, size_t len);

/*
 * Registers an entry on a subject, with no transfer started, and puts it at the back
 * of its queue, if its readiness has one.
 * Answer: wakes, where the task that picks has work now.
 *
 * GOMXELI_NOT_WHOLE
 * GOMXELI_ENTRY_RANGE  entry above 127
 * GOMXELI_RANGE        subject above 8,191
 * GOMXELI_PICK_OPEN    a pick is open
 * GOMXELI_REGISTERED   the entry is registered already
 * GOMXELI_OCCUPIED     the subject has an entry
 */
gomxeli_answer gomxeli_txm_register(uint8_t *state, size_t len, uint32_t entry, uint32_t subject,
                                    uint8_t readiness);

/*
 * Removes an entry; its subject has none then.
 *
 * GOMXELI_NOT_WHOLE
 * GOMXELI_ENTRY_RANGE     entry above 127
 * GOMXELI_PICK_OPEN       a pick is open
 * GOMXELI_NOT_REGISTERED  the entry is not registered
 */
gomxeli_answer gomxeli_txm_unregister(uint8_t *state, size_t len, uint32_t entry);

/*
 * A new readiness of an entry. It goes to the back of its queue if that is another
 * one than before.
 * Answer: wakes, where the task that picks has work now.
 *
 * GOMXELI_NOT_WHOLE
 * GOMXELI_ENTRY_RANGE     entry above 127
 * GOMXELI_PICK_OPEN       a pick is open
 * GOMXELI_NOT_REGISTERED  the entry is not registered
 */
gomxeli_answer gomxeli_txm_update(uint8_t *state, size_t len, uint32_t entry, uint8_t readiness);

/*
 * Picks the entry that is to send a frame of at most mtu bytes, with a priority of
 * the mask.
 * Answer: some, with entry and picked_priority, and the pick is open; else nothing of
 * the mask is ready, and the mask is the wake mask now, unless it is empty.
 *
 * GOMXELI_NOT_WHOLE
 * GOMXELI_RANGE      mtu other than 8 or 64
 * GOMXELI_PICK_OPEN  a pick is open
 */
gomxeli_answer gomxeli_txm_pick(uint8_t *state, size_t len, uint8_t mask, uint32_t mtu);

/*
 * Settles the open pick: with a frame where frame is not 0, and else without one, and
 * then priority, length and last are not looked at. last is the frame's last byte;
 * its bit 6 says that the frame ends a transfer. readiness is the picked entry's. A
 * settlement without frame makes the pick's mask the wake mask, after the entry has
 * come to its queue.
 * Answer: entry, the one that was picked; wakes, where the task that picks has work
 * now.
 *
 * GOMXELI_NOT_WHOLE
 * GOMXELI_RANGE      a frame, priority above 7
 * GOMXELI_NO_PICK    no pick is open
 * GOMXELI_BAD_FRAME  a frame of length 0, of more than the pick's mtu, or of another
 *                    priority than the picked one
 */
gomxeli_answer gomxeli_txm_settle(uint8_t *state, size_t len, uint8_t frame, uint8_t readiness,
                                  uint32_t priority, uint32_t length, uint8_t last);

/* ------------------------------------------------------------------------ */
/* Response transmission                                                    */
/* ------------------------------------------------------------------------ */

/*
 * Endpoints that send responses. An entry is a number from 0 to 127 that the caller
 * chooses; registered, it has no address, since a response goes where its request
 * came from. Readiness, queues, picks, settlements and the wake mask are as in
 * message transmission.
 *
 *     static uint8_t tx[GOMXELI_TXR_LENGTH];
 *
 *     gomxeli_txr_open(tx, sizeof tx);
 *     gomxeli_txr_register(tx, sizeof tx, 0, 0);
 *
 *     // nothing to send: wake for priorities 0 to 3
 *     gomxeli_txr_pick(tx, sizeof tx, 0x0f, GOMXELI_MTU_CAN_FD);
 *
 *     // entry 0 has a response
 *     uint8_t readiness = GOMXELI_PRIORITY_SET_OF(GOMXELI_PRIORITY_HIGH);
 *     if (gomxeli_wakes(gomxeli_txr_update(tx, sizeof tx, 0, readiness)))
 *         wake();
 */
#define GOMXELI_TXR_ENTRY_MAX GOMXELI_ENTRY_MAX

/* The length of a state. */
#define GOMXELI_TXR_LENGTH ((size_t)677)

/*
 * Opens a state: no entries, no pick, an empty wake mask. Writes every byte and
 * looks at none.
 *
 * GOMXELI_NOT_WHOLE  len is not GOMXELI_TXR_LENGTH
 */
gomxeli_answer gomxeli_txr_open(uint8_t *state, size_t len);

/*
 * Registers an entry, with no transfer started, and puts it at the back of its queue,
 * if its readiness has one.
 * Answer: wakes, where the task that picks has work now.
 *
 * GOMXELI_NOT_WHOLE
 * GOMXELI_ENTRY_RANGE  entry above 127
 * GOMXELI_PICK_OPEN    a pick is open
 * GOMXELI_REGISTERED   the entry is registered already
 */
gomxeli_answer gomxeli_txr_register(uint8_t *state, size_t len, uint32_t entry, uint8_t readiness);

/*
 * Removes an entry.
 *
 * GOMXELI_NOT_WHOLE
 * GOMXELI_ENTRY_RANGE     entry above 127
 * GOMXELI_PICK_OPEN       a pick is open
 * GOMXELI_NOT_REGISTERED  the entry is not registered
 */
gomxeli_answer gomxeli_txr_unregister(uint8_t *state, size_t len, uint32_t entry);

/*
 * A new readiness of an entry. It goes to the back of its queue if that is another
 * one than before.
 * Answer: wakes, where the task that picks has work now.
 *
 * GOMXELI_NOT_WHOLE
 * GOMXELI_ENTRY_RANGE     entry above 127
 * GOMXELI_PICK_OPEN       a pick is open
 * GOMXELI_NOT_REGISTERED  the entry is not registered
 */
gomxeli_answer gomxeli_txr_update(uint8_t *state, size_t len, uint32_t entry, uint8_t readiness);

/*
 * Picks the entry that is to send a frame of at most mtu bytes, with a priority of
 * the mask.
 * Answer: some, with entry and picked_priority, and the pick is open; else nothing of
 * the mask is ready, and the mask is the wake mask now, unless it is empty.
 *
 * GOMXELI_NOT_WHOLE
 * GOMXELI_RANGE      mtu other than 8 or 64
 * GOMXELI_PICK_OPEN  a pick is open
 */
gomxeli_answer gomxeli_txr_pick(uint8_t *state, size_t len, uint8_t mask, uint32_t mtu);

/*
 * Settles the open pick, as gomxeli_txm_settle does.
 * Answer: entry, the one that was picked; wakes, where the task that picks has work
 * now.
 *
 * GOMXELI_NOT_WHOLE
 * GOMXELI_RANGE      a frame, priority above 7
 * GOMXELI_NO_PICK    no pick is open
 * GOMXELI_BAD_FRAME  a frame of length 0, of more than the pick's mtu, or of another
 *                    priority than the picked one
 */
gomxeli_answer gomxeli_txr_settle(uint8_t *state, size_t len, uint8_t frame, uint8_t readiness,
                                  uint32_t priority, uint32_t length, uint8_t last);

/* ------------------------------------------------------------------------ */
/* Lists: MultiClassQueue                                                   */
/* ------------------------------------------------------------------------ */

/*
 * Some classes, each a list of entries. An entry is a number below the count of
 * entries; it stands in at most one class, and there once. The sizes are fixed
 * at opening: 1 to 32 classes, 0 to 224 entries.
 *
 *     static uint8_t queue[GOMXELI_MCQ_LENGTH(2, 8)];
 *
 *     gomxeli_mcq_open(queue, sizeof queue, 2, 8);
 *     gomxeli_mcq_move_back(queue, sizeof queue, 0, 5);
 *     gomxeli_answer a = gomxeli_mcq_front(queue, sizeof queue, 0);
 *     if (gomxeli_some(a))
 *         deliver(gomxeli_entry(a));           // entry 5
 */
#define GOMXELI_MCQ_CLASSES_MAX 32
#define GOMXELI_MCQ_ENTRIES_MAX 224

/* The length of a state of allowed sizes, as a constant for an array. */
#define GOMXELI_MCQ_LENGTH(classes, entries) \
    ((size_t)2 + 2 * ((size_t)(classes) + (size_t)(entries)))

/* The length of a state of these sizes; 0 where they are not allowed. */
static inline size_t gomxeli_mcq_length(uint32_t classes, uint32_t entries)
{
    if (classes < 1 || classes > GOMXELI_MCQ_CLASSES_MAX || entries > GOMXELI_MCQ_ENTRIES_MAX)
        return 0;
    return GOMXELI_MCQ_LENGTH(classes, entries);
}

/*
 * Opens a state: every class empty, every entry in none. Writes every byte and
 * looks at none.
 *
 * GOMXELI_SIZE       classes not 1 to 32, or entries above 224, whatever len is
 * GOMXELI_NOT_WHOLE  len is not gomxeli_mcq_length(classes, entries)
 */
gomxeli_answer gomxeli_mcq_open(uint8_t *state, size_t len, uint32_t classes, uint32_t entries);

/*
 * The entry at the front, or the back, of a class.
 * Answer: some, with entry; else the class is empty.
 *
 * GOMXELI_NOT_WHOLE
 * GOMXELI_SIZE       cls is not below the state's classes
 */
gomxeli_answer gomxeli_mcq_front(const uint8_t *state, size_t len, uint32_t cls);
gomxeli_answer gomxeli_mcq_back(const uint8_t *state, size_t len, uint32_t cls);

/*
 * Whether a class is empty.
 * Answer: yes or no.
 *
 * GOMXELI_NOT_WHOLE
 * GOMXELI_SIZE       cls is not below the state's classes
 */
gomxeli_answer gomxeli_mcq_is_empty(const uint8_t *state, size_t len, uint32_t cls);

/*
 * The class at whose front, or back, an entry stands.
 * Answer: some, and first is the class; else the entry stands at no front (no back).
 *
 * GOMXELI_NOT_WHOLE
 * GOMXELI_SIZE       entry is not below the state's entries
 */
gomxeli_answer gomxeli_mcq_is_front(const uint8_t *state, size_t len, uint32_t entry);
gomxeli_answer gomxeli_mcq_is_back(const uint8_t *state, size_t len, uint32_t entry);

/*
 * Takes an entry out of its class. Where it is in none, nothing changes.
 *
 * GOMXELI_NOT_WHOLE
 * GOMXELI_SIZE       entry is not below the state's entries
 */
gomxeli_answer gomxeli_mcq_remove(uint8_t *state, size_t len, uint32_t entry);

/*
 * Takes an entry out of its class, if it is in one, and puts it at the front,
 * or the back, of a class: another, or the same.
 *
 * GOMXELI_NOT_WHOLE
 * GOMXELI_SIZE       cls is not below the state's classes, or entry is not
 *                    below the state's entries
 */
gomxeli_answer gomxeli_mcq_move_front(uint8_t *state, size_t len, uint32_t cls, uint32_t entry);
gomxeli_answer gomxeli_mcq_move_back(uint8_t *state, size_t len, uint32_t cls, uint32_t entry);

/* ------------------------------------------------------------------------ */
/* Key queues: IndexQueue                                                   */
/* ------------------------------------------------------------------------ */

/*
 * A map from keys to values, and a queue of some of its keys. Keys are 16-bit
 * numbers from 0 to K_MAX, values 32-bit numbers. The sizes are fixed at
 * opening: K_MAX 0 to 8,191, and 0 to 222 entries, which is how many keys the
 * map holds at most.
 *
 * A second insert of a key hands back the value that the key had, and does not
 * keep the new one. From then on the key has no value: insert and remove of it
 * are refused with GOMXELI_VALUE_GONE, and nothing frees its entry but opening anew. It
 * is still contained and may still be enqueued and dequeued.
 *
 *     static uint8_t queue[GOMXELI_IQ_LENGTH(99, 8)];
 *
 *     gomxeli_iq_open(queue, sizeof queue, 99, 8);
 *     gomxeli_iq_insert(queue, sizeof queue, 42, 7000);
 *     gomxeli_iq_enqueue_back(queue, sizeof queue, 42);
 *     gomxeli_answer a = gomxeli_iq_front(queue, sizeof queue);
 *     if (gomxeli_some(a)) {
 *         uint16_t key = gomxeli_first(a);                     // key 42
 *         a = gomxeli_iq_remove(queue, sizeof queue, key);     // with value, 7,000
 *     }
 */
#define GOMXELI_IQ_KEY_MAX 8191
#define GOMXELI_IQ_ENTRIES_MAX 222

/* The length of a state of allowed sizes, as a constant for an array. */
#define GOMXELI_IQ_LENGTH(k_max, entries) \
    ((size_t)11 + 8 * (size_t)(entries) + 4 * (((size_t)(k_max) + 1) / 4))

/* The length of a state of these sizes; 0 where they are not allowed. */
static inline size_t gomxeli_iq_length(uint32_t k_max, uint32_t entries)
{
    if (k_max > GOMXELI_IQ_KEY_MAX || entries > GOMXELI_IQ_ENTRIES_MAX)
        return 0;
    return GOMXELI_IQ_LENGTH(k_max, entries);
}

/*
 * Opens a state: no keys, the queue empty. Writes every byte and looks at none.
 *
 * GOMXELI_SIZE       k_max above 8,191, or entries above 222, whatever len is
 * GOMXELI_NOT_WHOLE  len is not gomxeli_iq_length(k_max, entries)
 */
gomxeli_answer gomxeli_iq_open(uint8_t *state, size_t len, uint32_t k_max, uint32_t entries);

/*
 * Whether the key is in the map, with its value or without. A key above K_MAX
 * is not.
 * Answer: yes or no.
 *
 * GOMXELI_NOT_WHOLE
 */
gomxeli_answer gomxeli_iq_contains(const uint8_t *state, size_t len, uint16_t key);

/*
 * The key's value.
 * Answer: some, with value; else there is none, because the key is not in the map or
 * its value was handed back.
 *
 * GOMXELI_NOT_WHOLE
 */
gomxeli_answer gomxeli_iq_get(const uint8_t *state, size_t len, uint16_t key);

/*
 * Stores a value where the key has one.
 * Answer: some, where the value is stored; else the key has none (see gomxeli_iq_get),
 * and nothing changes.
 *
 * GOMXELI_NOT_WHOLE
 */
gomxeli_answer gomxeli_iq_get_mut(uint8_t *state, size_t len, uint16_t key, uint32_t value);

/*
 * Puts a new key and its value into the map; the key is not in the queue then.
 * For a key that is there already, its value is handed back and the new value
 * is not kept.
 * Answer: some, with value, where one is handed back; else the key was new and is in.
 *
 * GOMXELI_NOT_WHOLE
 * GOMXELI_NOT_TAKEN   key above K_MAX, or the key is new and no entry is free;
 *                     first is the key, second the value
 * GOMXELI_VALUE_GONE  the key's value was handed back before
 */
gomxeli_answer gomxeli_iq_insert(uint8_t *state, size_t len, uint16_t key, uint32_t value);

/*
 * Takes a key out of the map, and out of the queue if it is there. Its entry
 * becomes the last of the free ones.
 * Answer: some, with value, the key's; else the key is not in the map, and nothing
 * changes.
 *
 * GOMXELI_NOT_WHOLE
 * GOMXELI_VALUE_GONE  the key's value was handed back before
 */
gomxeli_answer gomxeli_iq_remove(uint8_t *state, size_t len, uint16_t key);

/*
 * The key at the front, or the back, of the queue.
 * Answer: some, and first is the key; else the queue is empty.
 *
 * GOMXELI_NOT_WHOLE
 */
gomxeli_answer gomxeli_iq_front(const uint8_t *state, size_t len);
gomxeli_answer gomxeli_iq_back(const uint8_t *state, size_t len);

/*
 * Puts a key at the front, or the back, of the queue; a key that is in the
 * queue moves there.
 *
 * GOMXELI_NOT_WHOLE
 * GOMXELI_NO_KEY     the key is not in the map, or above K_MAX
 */
gomxeli_answer gomxeli_iq_enqueue_front(uint8_t *state, size_t len, uint16_t key);
gomxeli_answer gomxeli_iq_enqueue_back(uint8_t *state, size_t len, uint16_t key);

/*
 * Takes a key out of the queue, not out of the map. Where it is not in the
 * queue, nothing changes.
 *
 * GOMXELI_NOT_WHOLE
 * GOMXELI_NO_KEY     the key is not in the map, or above K_MAX
 */
gomxeli_answer gomxeli_iq_dequeue(uint8_t *state, size_t len, uint16_t key);

/* ------------------------------------------------------------------------ */
/* Identifiers                                                              */
/* ------------------------------------------------------------------------ */

/*
 * A number as an identifier.
 * Answer: some, and first is the identifier, the number itself; else the number is
 * above the largest identifier. Never refused.
 */
gomxeli_answer gomxeli_subject_id_new(uint16_t value);
gomxeli_answer gomxeli_service_id_new(uint16_t value);
gomxeli_answer gomxeli_node_id_new(uint8_t value);
gomxeli_answer gomxeli_transfer_id_new(uint8_t value);
gomxeli_answer gomxeli_priority_try_from_u8(uint8_t value);

/*
 * A number's low bits as an identifier: 13 bits for a subject, 9 for a service,
 * 7 for a node, 5 for a transfer, 3 for a priority.
 * Answer: first is the identifier. Never refused.
 */
gomxeli_answer gomxeli_subject_id_from_u16_truncating(uint16_t value);
gomxeli_answer gomxeli_service_id_from_u16_truncating(uint16_t value);
gomxeli_answer gomxeli_node_id_from_u8_truncating(uint8_t value);
gomxeli_answer gomxeli_transfer_id_from_u8_truncating(uint8_t value);
gomxeli_answer gomxeli_priority_from_u8_truncating(uint8_t value);

/*
 * The transfer identifier after this one; 0 comes after 31. Of the argument only
 * the low 5 bits count.
 * Answer: first is the identifier. Never refused.
 */
gomxeli_answer gomxeli_transfer_id_next(uint8_t transfer_id);

/* ------------------------------------------------------------------------ */
/* Priorities and sets of them                                              */
/* ------------------------------------------------------------------------ */

/*
 * Priorities are numbers from 0, the most urgent, to 7. A set of them is a byte, and
 * every byte is a set: priority p is in it where bit p is 1. Where a call below has a
 * priority for argument, it is refused with
 *
 * GOMXELI_RANGE      priority above 7
 *
 * and no call is refused otherwise.
 */

/*
 * The next larger number (less urgent), and the next smaller.
 * Answer: some, with byte, the priority; else there is none, after 7 or before 0.
 */
gomxeli_answer gomxeli_priority_next(uint8_t priority);
gomxeli_answer gomxeli_priority_prev(uint8_t priority);

/*
 * The set of the priorities that are equal to the one given, from it on (ge), up
 * to it (le), above it (gt), below it (lt), by number.
 * Answer: byte is the set.
 */
gomxeli_answer gomxeli_priority_set_new_eq(uint8_t priority);
gomxeli_answer gomxeli_priority_set_new_ge(uint8_t priority);
gomxeli_answer gomxeli_priority_set_new_le(uint8_t priority);
gomxeli_answer gomxeli_priority_set_new_gt(uint8_t priority);
gomxeli_answer gomxeli_priority_set_new_lt(uint8_t priority);

/* Whether a priority is in the set. Answer: yes or no. */
gomxeli_answer gomxeli_priority_set_contains(uint8_t bits, uint8_t priority);

/* The set with the priority, and without it. Answer: byte is the set. */
gomxeli_answer gomxeli_priority_set_insert(uint8_t bits, uint8_t priority);
gomxeli_answer gomxeli_priority_set_remove(uint8_t bits, uint8_t priority);

/*
 * The smallest (most urgent) and the largest priority of the set.
 * Answer: some, with byte, the priority; else the set is empty.
 */
gomxeli_answer gomxeli_priority_set_first(uint8_t bits);
gomxeli_answer gomxeli_priority_set_last(uint8_t bits);

/* Whether the set is empty. Answer: yes or no. */
gomxeli_answer gomxeli_priority_set_is_empty(uint8_t bits);

/* The priorities that are not in the set, under two names. Answer: byte is the set. */
gomxeli_answer gomxeli_priority_set_complement(uint8_t bits);
gomxeli_answer gomxeli_priority_set_not(uint8_t bits);

/* Intersection and union. Answer: byte is the set. */
gomxeli_answer gomxeli_priority_set_bitand(uint8_t a, uint8_t b);
gomxeli_answer gomxeli_priority_set_bitor(uint8_t a, uint8_t b);

/*
 * One step of a walk over the set, from the most urgent on.
 * Answer: some, with byte, the priority, and second, the set that is left for the next
 * step; else the set is empty.
 */
gomxeli_answer gomxeli_priority_set_iter_next(uint8_t bits);

/* ------------------------------------------------------------------------ */
/* The tail byte of a frame                                                 */
/* ------------------------------------------------------------------------ */

/*
 * A frame's last byte. The toggle of a transfer's first frame is 1, and it changes with
 * each frame.
 *
 *     // the only frame of transfer 3
 *     uint8_t frame[4] = {1, 2, 3};
 *     frame[3] = gomxeli_byte(gomxeli_tail_byte_new(1, 1, 1, 3));      // 0xe3
 *     put_on_bus(frame, sizeof frame);
 */

/*
 * A tail byte of these parts: start of transfer in bit 7, end of transfer in bit
 * 6, toggle in bit 5, each set where the argument is not 0, and the low 5 bits of
 * the transfer identifier.
 * Answer: byte is the tail byte. Never refused.
 */
gomxeli_answer gomxeli_tail_byte_new(uint8_t sot, uint8_t eot, uint8_t toggle, uint8_t transfer_id);

/* A part of a tail byte. Answer: yes, where it is set, or no. Never refused. */
gomxeli_answer gomxeli_tail_byte_sot(uint8_t byte);
gomxeli_answer gomxeli_tail_byte_eot(uint8_t byte);
gomxeli_answer gomxeli_tail_byte_toggle(uint8_t byte);

/* A tail byte's transfer identifier. Answer: byte is the identifier. Never refused. */
gomxeli_answer gomxeli_tail_byte_transfer_id(uint8_t byte);

/*
 * Whether a frame, whose last byte is its tail byte, ends a transfer.
 * Answer: some, and first is 1 if it does, 0 if not; else the frame is empty and has no
 * tail byte. Never refused.
 */
gomxeli_answer gomxeli_is_eot_frame(const uint8_t *frame, size_t len);

#ifdef __cplusplus
}
#endif

#endif
