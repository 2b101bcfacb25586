/* An end by plans of this library, as a guest's, beside the ring code of QEMU's host end: in turns, its calls falling between any two accesses of ours. Every packet is compared. */
#define _GNU_SOURCE
#include "shim_qemu.h"
#include "qemu_ring.h"
#include "turns.h"

#define MOST_PAGES 128

static _Alignas(4096) uint8_t memory[2][(1 + MOST_PAGES) * 4096]; /* the guest's pages: the ring to the host, and that to the guest */
static uint64_t frames[2 * (1 + MOST_PAGES)];
static VMBusGpadl pages;
static AddressSpace space;
static VMBusDevice device = {&space};
static VMBusChannel theirs;

int vmbus_channel_notify_guest(VMBusChannel *chan)
{
    (void)chan;
    return 0;
}

void vmbus_channel_notify_host(VMBusChannel *chan)
{
    (void)chan;
}

static void open_channel(uint32_t bytes)
{
    uint32_t each = 1 + bytes / 4096;
    memset(memory, 0, sizeof memory);
    for (uint32_t i = 0; i < 2; i++) {
        rings[i].head = (struct vmbus_ring_words *)memory[i];
        rings[i].cells = (char *)memory[i] + 4096;
        for (uint32_t j = 0; j < each; j++)
            frames[i * each + j] = ((uintptr_t)memory[i] + 4096 * (uintptr_t)j) >> 12;
    }
    open_rings(bytes);
    memset(&theirs, 0, sizeof theirs);
    memset(&pages, 0, sizeof pages);
    pages.num_gfns = 2 * each;
    pages.gfns = frames;
    theirs.dev = &device;
    theirs.gpadl = &pages;
    theirs.ringbuf_send_offset = each;
    theirs.is_open = true;
    if (ringbufs_init(&theirs) != 0)
        fail("QEMU doesn't open the rings", bytes);
}

/* Nobody sleeps, so that the mask stays 1 and no packet wants a signal. */
static void raise_them(bool for_room)
{
    if (!for_room)
        fail("a signal that nobody asked for", sent[0]);
}

static bool their_send(void)
{
    uint64_t p[MOST_WORDS];
    uint32_t bytes = 8 * (make_packet(1, sent[1], p) - 2);
    if (vmbus_channel_reserve(&theirs, 0, bytes) != 0)
        return false;
    if (vmbus_channel_send(&theirs, 6, NULL, 0, p + 2, bytes, false, p[1]) < 0)
        fail("QEMU's send", sent[1]);
    sent[1]++;
    return true;
}

static uint32_t their_take(uint32_t most)
{
    uint32_t n = 0;
    VMBusChanReq *r;
    ringbuf_start_io(&theirs.recv_ringbuf.common);
    if (vmbus_channel_recv_start(&theirs) != 0)
        fail("QEMU's take", 0);
    while (n < most && (r = vmbus_channel_recv_peek(&theirs, sizeof *r))) {
        uint64_t p[MOST_WORDS + 2];
        uint32_t len = 2 + r->msglen / 8;
        if (len > MOST_WORDS)
            fail("QEMU's take", len);
        p[0] = r->pkt_type | 2 << 16 | (uint64_t)len << 32;
        p[1] = r->transaction_id;
        memcpy(p + 2, r->msg, r->msglen);
        compare(0, taken[0]++, p, len);
        vmbus_free_req(r);
        vmbus_channel_recv_pop(&theirs);
        n++;
    }
    if (vmbus_channel_recv_done(&theirs) < 0)
        fail("QEMU's commit", n);
    ringbuf_end_io(&theirs.recv_ringbuf.common);
    return n;
}

int main(void)
{
    static const uint32_t sizes[] = {1, 2, 16, MOST_PAGES};
    for (int i = 0; i < 4; i++) {
        open_channel(sizes[i] * 4096);
        take_turns("QEMU", 200000);
    }
    return 0;
}
