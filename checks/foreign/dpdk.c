/* An end by plans of this library beside the ring code of DPDK's driver, which is a guest that polls: in turns, its calls falling between any two accesses of ours. Every packet is compared. */
#define _GNU_SOURCE
#include "shim_dpdk.h"
#include "turns.h"

static struct {
    struct vmbus_ring_words head;
    char rest[4096 - sizeof(struct vmbus_ring_words)], cells[128 * 4096];
} memory[2];
static struct vmbus_br out, in; /* DPDK's */

static void open_channel(uint32_t bytes)
{
    memset(memory, 0, sizeof memory);
    for (int i = 0; i < 2; i++) {
        rings[i].head = &memory[i].head;
        rings[i].cells = memory[i].cells;
    }
    open_rings(bytes);
    vmbus_br_setup(&in, &memory[0], 4096 + bytes);
    vmbus_br_setup(&out, &memory[1], 4096 + bytes);
}

/* DPDK's end polls: it asks for no signal, neither for a packet (its mask stays 1) nor for room. */
static void raise_them(bool for_room)
{
    fail("a signal that nobody asked for", for_room);
}

static bool their_send(void)
{
    uint64_t p[MOST_WORDS];
    bool raise = false;
    struct iovec part = {p, 8 * (size_t)make_packet(1, sent[1], p)};
    int a = vmbus_txbr_write(&out, &part, 1, &raise);
    if (a == -EAGAIN)
        return false;
    if (a != 0 || raise) /* our mask is 1 while we don't sleep */
        fail("DPDK's send", (uint64_t)-a);
    sent[1]++;
    return true;
}

static uint32_t their_take(uint32_t most)
{
    uint32_t n = 0;
    for (; n < most; n++) {
        uint64_t p[MOST_WORDS];
        if (vmbus_rxbr_peek(&in, p, 16) != 0)
            break;
        uint32_t len = (uint32_t)(p[0] >> 32) & 0xffff;
        if (len > MOST_WORDS || vmbus_rxbr_read(&in, p, 8 * (size_t)len, 0) != 0)
            fail("DPDK's take", len);
        compare(0, taken[0]++, p, len);
    }
    return n;
}

int main(void)
{
    static const uint32_t pages[] = {1, 2, 16, 128};
    for (int i = 0; i < 4; i++) {
        open_channel(pages[i] * 4096);
        take_turns("DPDK", 200000);
    }
    return 0;
}
