#include "driver.h"

#include <stdio.h>

uint8_t reg[GOMXELI_REG_LENGTH], lb[GOMXELI_LB_LENGTH], req[GOMXELI_REQ_LENGTH],
    txm[GOMXELI_TXM_LENGTH], txr[GOMXELI_TXR_LENGTH], filter[GOMXELI_IMG_LENGTH];

/* Where an endpoint is. One that finds no subject slot left is turned away, and tries again. */
enum place { OUT, TURNED_AWAY, IN };

/* The driver's own list, by which endpoints join again. */
static struct {
    enum place place;
    uint16_t address;
} endpoints[KINDS][ENTRIES];

const char *name_of(enum kind kind)
{
    static const char *const names[KINDS] = {"reg", "lb", "req", "txm", "txr"};
    return names[kind];
}

uint16_t address_of(enum kind kind, uint16_t entry)
{
    return endpoints[kind][entry].address;
}

/* ------------------------------------------------------------------------ */
/* The calls of each kind                                                   */
/* ------------------------------------------------------------------------ */

static gomxeli_answer open_state(enum kind kind)
{
    switch (kind) {
    case REG:
        return gomxeli_reg_open(LENT(reg), SUBJECT_SLOTS);
    case LB:
        return gomxeli_lb_open(LENT(lb));
    case REQ:
        return gomxeli_req_open(LENT(req));
    case TXM:
        return gomxeli_txm_open(LENT(txm));
    default:
        return gomxeli_txr_open(LENT(txr));
    }
}

static gomxeli_answer register_entry(enum kind kind, uint32_t entry, uint32_t address)
{
    switch (kind) {
    case REG:
        return gomxeli_reg_register(LENT(reg), entry, address);
    case LB:
        return gomxeli_lb_register(LENT(lb), entry, address);
    case REQ:
        return gomxeli_req_register(LENT(req), entry, address);
    case TXM:
        return gomxeli_txm_register(LENT(txm), entry, address, readiness_of(TXM, entry));
    default:
        return gomxeli_txr_register(LENT(txr), entry, readiness_of(TXR, entry));
    }
}

static gomxeli_answer unregister_entry(enum kind kind, uint32_t entry)
{
    switch (kind) {
    case REG:
        return gomxeli_reg_unregister(LENT(reg), entry);
    case LB:
        return gomxeli_lb_unregister(LENT(lb), entry);
    case REQ:
        return gomxeli_req_unregister(LENT(req), entry);
    case TXM:
        return gomxeli_txm_unregister(LENT(txm), entry);
    default:
        return gomxeli_txr_unregister(LENT(txr), entry);
    }
}

static uint8_t *state_of(enum kind kind)
{
    uint8_t *const states[KINDS] = {reg, lb, req, txm, txr};
    return states[kind];
}

/* ------------------------------------------------------------------------ */
/* Joining                                                                  */
/* ------------------------------------------------------------------------ */

bool refused(const char *who, gomxeli_answer answer)
{
    unsigned number = gomxeli_number(answer);
    if (gomxeli_accepted(answer))
        return false;
    printf("  %s: refused, %u: %s\n", who, number, gomxeli_refusal_text(number));
    return true;
}

void note_wake(enum kind kind, gomxeli_answer answer)
{
    if (!gomxeli_wakes(answer))
        return;
    if (kind == REG)
        wake_filter_task();
    else
        wake_transmit_task();
}

/* Keeps where an endpoint is now. Its entry is in range: the library has looked. */
static void put(enum kind kind, uint32_t entry, enum place place, uint32_t address)
{
    static const char *const words[] = {"out", "turned away", "in"};
    endpoints[kind][entry].place = place;
    endpoints[kind][entry].address = (uint16_t)address;
    printf("  %s: entry %u is %s\n", name_of(kind), (unsigned)entry, words[place]);
}

/* False where the state is not whole. */
static bool try_to_join(enum kind kind, uint32_t entry, uint32_t address)
{
    gomxeli_answer answer = register_entry(kind, entry, address);
    if (!refused(name_of(kind), answer))
        put(kind, entry, IN, address);
    if (gomxeli_number(answer) == GOMXELI_NO_SUBJECT_SLOT)
        put(kind, entry, TURNED_AWAY, address);
    note_wake(kind, answer);
    return gomxeli_number(answer) != GOMXELI_NOT_WHOLE;
}

/* The endpoints of a registry that are at a place try again. */
static void join_all(enum kind kind, enum place place)
{
    for (uint16_t entry = 0; entry < ENTRIES; entry++)
        if (endpoints[kind][entry].place == place)
            try_to_join(kind, entry, address_of(kind, entry));
}

/* ------------------------------------------------------------------------ */
/* Opening                                                                  */
/* ------------------------------------------------------------------------ */

/* The filter starts anew with the regular registry, whose updates build on each other. */
static void open_registry(enum kind kind)
{
    refused(name_of(kind), open_state(kind));
    if (kind == REG)
        refused("filter", gomxeli_img_open(LENT(filter)));
}

void open_all(void)
{
    for (enum kind kind = REG; kind < KINDS; kind++)
        open_registry(kind);
}

/* The endpoints that were in come first. */
static void open_anew(enum kind kind)
{
    printf("  %s: opened anew\n", name_of(kind));
    open_registry(kind);
    join_all(kind, IN);
    join_all(kind, TURNED_AWAY);
}

bool accepted(enum kind kind, gomxeli_answer answer)
{
    bool is_accepted = !refused(name_of(kind), answer);
    if (gomxeli_number(answer) == GOMXELI_NOT_WHOLE)
        open_anew(kind);
    return is_accepted;
}

void damage(enum kind kind)
{
    state_of(kind)[0] ^= 0xff;
    printf("  %s: the first byte is spoilt\n", name_of(kind));
}

/* ------------------------------------------------------------------------ */
/* Endpoints                                                                */
/* ------------------------------------------------------------------------ */

void join(enum kind kind, uint32_t entry, uint32_t address)
{
    if (try_to_join(kind, entry, address))
        return;
    open_anew(kind);
    try_to_join(kind, entry, address);
}

static bool is_turned_away(enum kind kind, uint32_t entry)
{
    return entry <= GOMXELI_ENTRY_MAX && endpoints[kind][entry].place == TURNED_AWAY;
}

void leave(enum kind kind, uint32_t entry)
{
    if (is_turned_away(kind, entry)) {
        put(kind, entry, OUT, 0);
        return;
    }
    gomxeli_answer answer = unregister_entry(kind, entry);
    if (!accepted(kind, answer))
        return;
    put(kind, entry, OUT, 0);
    drop_transfers(kind, entry);
    note_wake(kind, answer);
    join_all(kind, TURNED_AWAY); /* a slot may have come back */
}
