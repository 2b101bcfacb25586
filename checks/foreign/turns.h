/* An end by plans of this library in turns with another end, whose calls fall between any two accesses of ours. Way 0 is ours to the other end, way 1 the other's to us. A check that includes it
   has the other end: their_send and their_take, and raise_them, which hears of each signal that ours gives, for a packet or for room. */
#ifndef TURNS_H
#define TURNS_H
#include "gaps.h"
#include "packets.h"

static struct vmbus_ring rings[2];
static struct vmbus_plan_end ours;
static uint64_t sent[2], taken[2];

static void raise_them(bool for_room);
static bool their_send(void);
static uint32_t their_take(uint32_t most);

/* A new channel over the pages of both rings, which are 0. */
static void open_rings(uint32_t bytes)
{
    ring_bytes = bytes;
    for (int i = 0; i < 2; i++)
        rings[i].head->mask = rings[i].head->feature = 1;
    if (!vmbus_plan_make(&ours, bytes))
        fail("no size of a ring", bytes);
    memset(sent, 0, sizeof sent);
    memset(taken, 0, sizeof taken);
}

static bool our_send(void)
{
    uint64_t p[MOST_WORDS];
    make_packet(0, sent[0], p);
    uint32_t a = vmbus_ring_send(&ours, rings[0], p);
    if (a == VMBUS_FULL)
        return false;
    if (a != VMBUS_SENT_QUIET && a != VMBUS_SENT_RAISED)
        fail("our send", a);
    sent[0]++;
    if (a == VMBUS_SENT_RAISED)
        raise_them(false);
    return true;
}

/* Takes up to so many packets, and gives their room back. */
static uint32_t our_take(uint32_t most)
{
    static uint64_t p[1 << 17];
    uint32_t len = 0, offset = 0, a, n = 0;
    while (n < most && (a = vmbus_ring_take(&ours, rings[1], p, &len, &offset)) != VMBUS_EMPTY) {
        if (a != VMBUS_TOOK || offset != 2)
            fail("our take", a);
        compare(1, taken[1]++, p, len);
        n++;
    }
    if (n == 0)
        return 0;
    a = vmbus_ring_commit(&ours, rings[1]);
    if (a == VMBUS_COMMITTED_RAISED)
        raise_them(true);
    else if (a != VMBUS_COMMITTED_QUIET)
        fail("our commit", a);
    return n;
}

static bool in_turns, inside;
static uint64_t random_state = 1;

static uint32_t some(uint32_t n)
{
    random_state = mixed(random_state);
    return (uint32_t)(random_state >> 16) % n;
}

static void gap(void)
{
    if (!in_turns || inside || some(3))
        return;
    inside = true;
    if (some(2))
        their_send();
    else
        their_take(1 + some(4));
    inside = false;
}

/* Takes turns over a new channel until so many packets went each way. */
static void take_turns(const char *whose, uint64_t packets)
{
    in_turns = true;
    while (taken[0] < packets || taken[1] < packets) {
        if (some(2))
            our_send();
        else
            our_take(1 + some(4));
        if (some(8) == 0)
            gap();
    }
    in_turns = false;
    printf("in turns, %3" PRIu32 " pages: %" PRIu64 " packets to %s and %" PRIu64 " from it, none of them wrong\n", ring_bytes / 4096, taken[0], whose, taken[1]);
}
#endif
