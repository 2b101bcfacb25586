/* One end of a channel by plans, in private memory, which sleeps on its signal where it has nothing to do. Whoever includes it says first how many bytes of data each ring has: RING; and
   _GNU_SOURCE, for memfd_create. For Linux. */
#ifndef SIDE_H
#define SIDE_H
#include <inttypes.h>
#include <stdio.h>
#include <stdlib.h>
#include <sys/eventfd.h>
#include <sys/mman.h>
#include <sys/wait.h>
#include <unistd.h>
#include "vmbus.h"

struct side {
    struct vmbus_plan_end end;
    struct vmbus_ring out, in;
    const uint64_t *peer_mark;    /* that the peer sends nothing more; null where it has no mark */
    int own, peer;                /* the signals: an eventfd each */
    unsigned long sleeps;
    uint64_t packet[RING / 8];    /* the packet that was taken last */
    uint32_t len, offset;         /* its words, and the word at which its payload begins */
};

static void fail(const char *what, uint32_t answer)
{
    fprintf(stderr, "%s: %" PRIu32 "\n", what, answer);
    exit(1);
}

static void raise_peer(struct side *s)
{
    uint64_t one = 1;
    if (write(s->peer, &one, sizeof one) != sizeof one)
        fail("no signal", 0);
}

/* Sleeps until there is a packet, the peer's mark, or more room than `want` bytes where that isn't 0. */
static void rest(struct side *s, uint32_t want)
{
    uint32_t a = vmbus_ring_arm(&s->end, s->out, s->in, want, s->peer_mark);
    if (a != VMBUS_FELL_ASLEEP)
        return;
    s->sleeps++;
    do {
        uint64_t raised = 0; /* an eventfd gives its count and takes it, as an exchange with 0 does */
        if (read(s->own, &raised, sizeof raised) != sizeof raised)
            fail("no signal", 0);
        a = vmbus_poll_done(&s->end, raised);
    } while (a == VMBUS_NO_SIGNAL);
    vmbus_ring_awake(s->out, s->in, a);
}

static inline void send_packet(struct side *s, const uint64_t *packet)
{
    uint32_t a;
    while ((a = vmbus_ring_send(&s->end, s->out, packet)) == VMBUS_FULL)
        rest(s, 8 * (uint32_t)(packet[0] >> 32 & 0xffff) + 8);
    if (a == VMBUS_SENT_RAISED)
        raise_peer(s);
    else if (a != VMBUS_SENT_QUIET)
        fail("not sent", a);
}

/* The next packet: false where there is none, and the peer said that it sends nothing more. */
static inline bool take_packet(struct side *s)
{
    uint32_t a;
    for (;;) {
        /* before the look: what was sent before the mark is found */
        uint64_t marked = s->peer_mark ? __atomic_load_n(s->peer_mark, __ATOMIC_ACQUIRE) : 0;
        a = vmbus_ring_take(&s->end, s->in, s->packet, &s->len, &s->offset);
        if (a != VMBUS_EMPTY)
            break;
        if (marked)
            return false;
        rest(s, 0);
    }
    if (a != VMBUS_TOOK)
        fail("not taken", a);
    a = vmbus_ring_commit(&s->end, s->in);
    if (a == VMBUS_COMMITTED_RAISED)
        raise_peer(s);
    else if (a != VMBUS_COMMITTED_QUIET)
        fail("not committed", a);
    return true;
}

/* A channel between a process and its child: the rings and `more` bytes behind them, in memory that both map, and a signal for each end. */
struct channel {
    struct vmbus_ring to_host, to_guest;
    char *more;
    int guest_signal, host_signal;
};

static inline struct channel new_channel(size_t more)
{
    const size_t header = 4096; /* the page of a ring's words */
    size_t size = 2 * (header + RING) + more;
    int fd = memfd_create("channel", 0);
    struct channel c = {.guest_signal = eventfd(0, 0), .host_signal = eventfd(0, 0)};
    if (fd < 0 || c.guest_signal < 0 || c.host_signal < 0 || ftruncate(fd, size) != 0)
        fail("no memory to share", 0);
    char *at = mmap(NULL, size, PROT_READ | PROT_WRITE, MAP_SHARED, fd, 0);
    if (at == MAP_FAILED)
        fail("no memory to share", 0);
    c.to_host = (struct vmbus_ring){(struct vmbus_ring_words *)at, at + header};
    at += header + RING;
    c.to_guest = (struct vmbus_ring){(struct vmbus_ring_words *)at, at + header};
    c.more = at + header + RING;
    /* A new channel: all is 0, but that nobody sleeps, and that pending counts. */
    c.to_host.head->mask = c.to_guest.head->mask = 1;
    c.to_host.head->feature = c.to_guest.head->feature = 1;
    return c;
}

/* Makes the child, which has the guest's end, and answers 0 there; this process has the host's. */
static inline pid_t split_channel(const struct channel *c, struct side *s)
{
    if (!vmbus_plan_make(&s->end, RING))
        fail("no size of a ring", RING);
    pid_t child = fork();
    if (child < 0)
        fail("no second process", 0);
    s->out = child ? c->to_guest : c->to_host;
    s->in = child ? c->to_host : c->to_guest;
    s->own = child ? c->host_signal : c->guest_signal;
    s->peer = child ? c->guest_signal : c->host_signal;
    return child;
}

static inline void wait_for_guest(pid_t child)
{
    int status = 1;
    if (waitpid(child, &status, 0) != child || status != 0)
        fail("the guest failed", (uint32_t)status);
}

#endif
