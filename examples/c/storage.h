/* What a storage guest and its host share: two rings, the marks of both ends, and the guest's pages. For Linux. */
#ifndef STORAGE_H
#define STORAGE_H
#define PAGE 4096
#define RING (2 * PAGE) /* bytes of data of each ring */
#define PAGES 64        /* of the guest; a page frame number is a number below this */
#include "side.h"

/* The pages that both map, in this order. */
struct shared {
    struct {
        char head[PAGE], cells[RING];
    } to_host, to_guest;
    uint64_t guest_mark, host_mark; /* that an end sends nothing more */
    char rest[PAGE - 16];
    uint8_t pages[PAGES][PAGE];
};

/* The end of the side that is the host's, or the guest's, over pages that the file descriptor `memory` shares. */
static void open_side(struct side *s, struct shared *m, int is_host, int guest_signal, int host_signal)
{
    struct vmbus_ring to_host = {(struct vmbus_ring_words *)m->to_host.head, m->to_host.cells};
    struct vmbus_ring to_guest = {(struct vmbus_ring_words *)m->to_guest.head, m->to_guest.cells};
    if (!vmbus_plan_make(&s->end, RING))
        fail("no size of a ring", RING);
    s->out = is_host ? to_guest : to_host;
    s->in = is_host ? to_host : to_guest;
    s->own = is_host ? host_signal : guest_signal;
    s->peer = is_host ? guest_signal : host_signal;
    s->peer_mark = is_host ? &m->guest_mark : &m->host_mark;
}

static struct shared *map_shared(int memory)
{
    struct shared *m = mmap(NULL, sizeof *m, PROT_READ | PROT_WRITE, MAP_SHARED, memory, 0);
    if (m == MAP_FAILED)
        fail("no memory to share", 0);
    return m;
}

/* The packet that was taken, as its descriptor says, and its payload. */
static struct vmbus_packet descriptor(const struct side *s, const uint8_t **payload, size_t *bytes)
{
    struct vmbus_packet p;
    uint32_t a = vmbus_packet_read(s->packet, s->len, &p);
    if (a != 0)
        fail("no packet", a);
    *payload = (const uint8_t *)(s->packet + p.offset8);
    *bytes = 8 * (size_t)(p.len8 - p.offset8);
    return p;
}

#endif
