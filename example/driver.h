/*
 * The parts of the example driver.
 *
 * registries.c  the states: opening, endpoints that join and leave, refusals
 * receive.c     the filter task; frames that come in
 * transmit.c    transfers that go out, the transmit task
 * log.c         a line of the log becomes an event
 * main.c        does what each event says
 */
#ifndef DRIVER_H
#define DRIVER_H

#include <stddef.h>
#include <stdint.h>

#include "gomxeli.h"

enum {
    SUBJECT_SLOTS = 3,                 /* of the regular registry */
    BUS_MTU = GOMXELI_MTU_CAN_CLASSIC, /* of the frames that are sent */
    FRAME_MAX = GOMXELI_MTU_CAN_FD,    /* of the frames that come in */
    PAYLOAD_MAX = 32,                  /* of a transfer that is sent */
    TRANSFERS = 8,                     /* that wait to be sent, at most */
    ENTRIES = GOMXELI_ENTRY_MAX + 1
};

/* The five registries, under the names that the log has for them. */
enum kind { REG, LB, REQ, TXM, TXR, KINDS };

/* Bytes of the log: a frame with its tail byte last, or a payload. */
struct bytes {
    size_t length;
    uint8_t byte[FRAME_MAX];
};

/* ------------------------------------------------------------------------ */
/* registries.c                                                             */
/* ------------------------------------------------------------------------ */

/* The states, and the image of the bus filter, lent to each call. */
extern uint8_t reg[GOMXELI_REG_LENGTH], lb[GOMXELI_LB_LENGTH], req[GOMXELI_REQ_LENGTH],
    txm[GOMXELI_TXM_LENGTH], txr[GOMXELI_TXR_LENGTH], filter[GOMXELI_IMG_LENGTH];

/* What a state and its length are as arguments. */
#define LENT(state) (state), sizeof(state)

void open_all(void);

/* An endpoint joins on a subject or a service (for txr: neither), and leaves. */
void join(enum kind kind, uint32_t entry, uint32_t address);
void leave(enum kind kind, uint32_t entry);

/* The subject or the service of an endpoint that has joined. */
uint16_t address_of(enum kind kind, uint16_t entry);

/* Says a refusal. */
bool refused(const char *who, gomxeli_answer answer);

/* Whether the call was accepted; else says why not. A state that is not whole is opened anew. */
bool accepted(enum kind kind, gomxeli_answer answer);

/* Notes that a call wakes the task of the registry. */
void note_wake(enum kind kind, gomxeli_answer answer);

/* Spoils a state, as a stray write would. */
void damage(enum kind kind);

const char *name_of(enum kind kind);

/* ------------------------------------------------------------------------ */
/* receive.c                                                                */
/* ------------------------------------------------------------------------ */

void wake_filter_task(void);
void filter_task(void);

void message_in(uint32_t subject, bool loop_back, const struct bytes *frame);
void request_in(uint32_t service, bool loop_back, const struct bytes *frame);

/* When the regular entry hears its next message, the other one leaves, in the same walk. */
void leave_when_heard(uint32_t entry, uint32_t other);

/* ------------------------------------------------------------------------ */
/* transmit.c                                                               */
/* ------------------------------------------------------------------------ */

void wake_transmit_task(void);
void transmit_task(void);

/* The bus can take one more frame of each of these priorities. */
void room_for(uint8_t priorities);

/* An endpoint has a transfer to send. */
void send_transfer(enum kind kind, uint32_t entry, uint8_t priority, const struct bytes *payload);

/* Gives up the transfers of an endpoint; the registry is not told. */
void drop_transfers(enum kind kind, uint32_t entry);

/* The priorities of which an endpoint has frames to send. */
uint8_t readiness_of(enum kind kind, uint32_t entry);

/* A response has the transfer identifier of its request. */
void note_request(uint16_t entry, uint8_t transfer_id);

/* Prints the bytes of a frame, and what its tail byte says. */
void print_frame(const uint8_t *frame, size_t length);

#endif
