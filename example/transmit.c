#include "driver.h"

#include <stdio.h>
#include <string.h>

/* ------------------------------------------------------------------------ */
/* Frames                                                                   */
/* ------------------------------------------------------------------------ */

static void print_tail(uint8_t tail)
{
    printf(" (%s%s%stransfer %u)", gomxeli_yes(gomxeli_tail_byte_sot(tail)) ? "start, " : "",
           gomxeli_yes(gomxeli_tail_byte_eot(tail)) ? "end, " : "",
           gomxeli_yes(gomxeli_tail_byte_toggle(tail)) ? "toggle, " : "",
           (unsigned)gomxeli_byte(gomxeli_tail_byte_transfer_id(tail)));
}

void print_frame(const uint8_t *frame, size_t length)
{
    for (size_t i = 0; i < length; i++)
        printf(" %02x", (unsigned)frame[i]);
    print_tail(frame[length - 1]);
    printf("\n");
}

/* ------------------------------------------------------------------------ */
/* Transfers                                                                */
/* ------------------------------------------------------------------------ */

enum { CRC_LENGTH = 2, PART_MAX = BUS_MTU - 1 };

struct transfer {
    enum kind kind;
    uint32_t entry;
    uint8_t priority, transfer_id;
    bool toggle;         /* of its next frame */
    size_t sent, length; /* of the bytes */
    uint8_t byte[PAYLOAD_MAX + CRC_LENGTH];
};

/* Those that wait, the oldest first. */
static struct transfer transfers[TRANSFERS];
static unsigned waiting;

/* Of each endpoint: the identifier of its next message, and that of the last request. */
static uint8_t next_id[ENTRIES], request_id[ENTRIES];

void note_request(uint16_t entry, uint8_t transfer_id)
{
    request_id[entry] = transfer_id;
}

static bool belongs(const struct transfer *transfer, enum kind kind, uint32_t entry)
{
    return transfer->kind == kind && transfer->entry == entry;
}

uint8_t readiness_of(enum kind kind, uint32_t entry)
{
    uint8_t set = 0;
    for (unsigned i = 0; i < waiting; i++)
        if (belongs(&transfers[i], kind, entry))
            set = gomxeli_byte(gomxeli_priority_set_insert(set, transfers[i].priority));
    return set;
}

/* The oldest transfer of the endpoint and the priority, or NULL. */
static struct transfer *find_transfer(enum kind kind, uint32_t entry, uint8_t priority)
{
    for (unsigned i = 0; i < waiting; i++)
        if (belongs(&transfers[i], kind, entry) && transfers[i].priority == priority)
            return &transfers[i];
    return NULL;
}

static void remove_transfer(unsigned at)
{
    waiting--;
    for (unsigned i = at; i < waiting; i++)
        transfers[i] = transfers[i + 1];
}

void drop_transfers(enum kind kind, uint32_t entry)
{
    for (unsigned i = waiting; i > 0; i--)
        if (belongs(&transfers[i - 1], kind, entry))
            remove_transfer(i - 1);
}

/* The transfer CRC of Cyphal/CAN, which ends a transfer of several frames: CRC-16/CCITT-FALSE. */
static uint16_t crc_of(const uint8_t *byte, size_t length)
{
    uint16_t crc = 0xffff;
    for (size_t i = 0; i < length; i++) {
        crc ^= (uint16_t)(byte[i] << 8);
        for (unsigned bit = 0; bit < 8; bit++)
            crc = (uint16_t)(crc & 0x8000 ? crc << 1 ^ 0x1021 : crc << 1);
    }
    return crc;
}

static void append_crc(struct transfer *transfer)
{
    uint16_t crc = crc_of(transfer->byte, transfer->length);
    transfer->byte[transfer->length++] = (uint8_t)(crc >> 8);
    transfer->byte[transfer->length++] = (uint8_t)crc;
}

static void store_transfer(enum kind kind, uint32_t entry, uint8_t priority,
                           const struct bytes *payload)
{
    struct transfer *transfer = &transfers[waiting++];
    transfer->kind = kind;
    transfer->entry = entry;
    transfer->priority = priority;
    transfer->transfer_id = request_id[entry];
    transfer->toggle = true;
    transfer->sent = 0;
    transfer->length = payload->length;
    memcpy(transfer->byte, payload->byte, payload->length);
    if (payload->length > PART_MAX)
        append_crc(transfer);
}

/* Messages are numbered in the order in which they begin; a response has its request's number. */
static void begin(struct transfer *transfer)
{
    uint8_t *id = &next_id[transfer->entry];
    if (transfer->kind == TXR)
        return;
    transfer->transfer_id = *id;
    *id = gomxeli_byte(gomxeli_transfer_id_next(*id));
}

/* The next frame of a transfer; its length. */
static uint8_t cut_frame(struct transfer *transfer, uint8_t *frame)
{
    size_t left = transfer->length - transfer->sent;
    size_t part = left < PART_MAX ? left : PART_MAX;
    if (transfer->sent == 0)
        begin(transfer);
    memcpy(frame, transfer->byte + transfer->sent, part);
    frame[part] = gomxeli_byte(gomxeli_tail_byte_new(transfer->sent == 0, part == left,
                                                     transfer->toggle, transfer->transfer_id));
    transfer->sent += part;
    transfer->toggle = !transfer->toggle;
    return (uint8_t)(part + 1);
}

/* The next frame of an endpoint at a priority; its length, or 0 where it has none. */
static uint8_t next_frame(enum kind kind, uint16_t entry, uint8_t priority, uint8_t *frame)
{
    struct transfer *transfer = find_transfer(kind, entry, priority);
    if (transfer == NULL)
        return 0;
    uint8_t length = cut_frame(transfer, frame);
    if (gomxeli_yes(gomxeli_tail_byte_eot(frame[length - 1])))
        remove_transfer((unsigned)(transfer - transfers));
    return length;
}

/* ------------------------------------------------------------------------ */
/* The calls of each kind                                                   */
/* ------------------------------------------------------------------------ */

static gomxeli_answer update(enum kind kind, uint32_t entry, uint8_t readiness)
{
    return kind == TXM ? gomxeli_txm_update(LENT(txm), entry, readiness)
                       : gomxeli_txr_update(LENT(txr), entry, readiness);
}

static gomxeli_answer pick(enum kind kind, uint8_t mask)
{
    return kind == TXM ? gomxeli_txm_pick(LENT(txm), mask, BUS_MTU)
                       : gomxeli_txr_pick(LENT(txr), mask, BUS_MTU);
}

/* Settles with a frame, or, where its length is 0, without. */
static gomxeli_answer settle(enum kind kind, uint8_t readiness, uint8_t priority,
                             const uint8_t *frame, uint8_t length)
{
    uint8_t last = length > 0 ? frame[length - 1] : 0;
    return kind == TXM
               ? gomxeli_txm_settle(LENT(txm), length > 0, readiness, priority, length, last)
               : gomxeli_txr_settle(LENT(txr), length > 0, readiness, priority, length, last);
}

/* ------------------------------------------------------------------------ */
/* Sending                                                                  */
/* ------------------------------------------------------------------------ */

void send_transfer(enum kind kind, uint32_t entry, uint8_t priority, const struct bytes *payload)
{
    if (waiting == TRANSFERS || payload->length > PAYLOAD_MAX) {
        printf("  %s: no room for the transfer\n", name_of(kind));
        return;
    }
    gomxeli_answer set = gomxeli_priority_set_insert(readiness_of(kind, entry), priority);
    if (refused(name_of(kind), set))
        return;
    gomxeli_answer answer = update(kind, entry, gomxeli_byte(set));
    if (!accepted(kind, answer))
        return;
    store_transfer(kind, entry, priority, payload);
    printf("  %s: entry %u has a transfer to send\n", name_of(kind), (unsigned)entry);
    note_wake(kind, answer);
}

/* ------------------------------------------------------------------------ */
/* The transmit task                                                        */
/* ------------------------------------------------------------------------ */

static bool transmit_woken;

/* The priorities of which the bus can take a frame: one mailbox for each. */
static uint8_t room;

void wake_transmit_task(void)
{
    if (!transmit_woken)
        printf("  transmit task: woken\n");
    transmit_woken = true;
}

void room_for(uint8_t priorities)
{
    room = gomxeli_byte(gomxeli_priority_set_bitor(room, priorities));
    wake_transmit_task();
}

static void put_on_bus(enum kind kind, uint16_t entry, uint8_t priority, const uint8_t *frame,
                       uint8_t length)
{
    room = gomxeli_byte(gomxeli_priority_set_remove(room, priority));
    printf("  %s: entry %u sends, priority %u,", name_of(kind), (unsigned)entry,
           (unsigned)priority);
    print_frame(frame, length);
}

/* Asks the picked endpoint for its frame, settles, and sends it. */
static bool serve_pick(enum kind kind, uint16_t entry, uint8_t priority)
{
    uint8_t frame[BUS_MTU];
    uint8_t length = next_frame(kind, entry, priority, frame);
    gomxeli_answer answer = settle(kind, readiness_of(kind, entry), priority, frame, length);
    if (!accepted(kind, answer))
        return false;
    if (length == 0)
        printf("  %s: entry %u has no frame\n", name_of(kind), (unsigned)entry);
    else
        put_on_bus(kind, entry, priority, frame, length);
    note_wake(kind, answer);
    return true;
}

/*
 * Sends the next frame of a registry. False where it has none that the bus can take: it
 * wakes the task when one of these priorities is ready.
 */
static bool send_next(enum kind kind)
{
    gomxeli_answer answer = pick(kind, room);
    if (!accepted(kind, answer))
        return false;
    if (!gomxeli_some(answer)) {
        printf("  %s: nothing to send\n", name_of(kind));
        return false;
    }
    return serve_pick(kind, gomxeli_entry(answer), gomxeli_picked_priority(answer));
}

void transmit_task(void)
{
    if (!transmit_woken)
        return;
    transmit_woken = false;
    while (room != 0 && (send_next(TXR) || send_next(TXM)))
        ;
}
