/* An end by plans of this library beside the ring code of Linux: in turns, and on two threads that sleep. Every packet is compared. */
#define _GNU_SOURCE
#include <inttypes.h>
#include <pthread.h>
#include <linux/futex.h>
#include <stdio.h>
#include <sys/mman.h>
#include <sys/syscall.h>
#include <time.h>
#include <unistd.h>
#include "shim.h"

#include "turns.h"

/* ---- The channel: way 0 is ours to Linux, way 1 Linux's to us. Linux maps the data of a ring twice. ---- */
static uint64_t signals[2]; /* 0 ours, 1 Linux's */
static uint32_t mapped;     /* the bytes of data of each ring that is mapped */

static struct vmbus_ring map_ring(uint32_t bytes)
{
    int fd = memfd_create("ring", 0);
    size_t all = PAGE_SIZE + bytes;
    if (fd < 0 || ftruncate(fd, all) != 0)
        fail("no memory", 0);
    char *at = mmap(NULL, all + bytes, PROT_NONE, MAP_PRIVATE | MAP_ANONYMOUS, -1, 0);
    if (at == MAP_FAILED || mmap(at, all, PROT_READ | PROT_WRITE, MAP_SHARED | MAP_FIXED, fd, 0) == MAP_FAILED
        || mmap(at + all, bytes, PROT_READ | PROT_WRITE, MAP_SHARED | MAP_FIXED, fd, PAGE_SIZE) == MAP_FAILED)
        fail("no memory", 0);
    close(fd);
    return (struct vmbus_ring){(struct vmbus_ring_words *)at, at + PAGE_SIZE};
}

static struct vmbus_channel theirs;

static void open_channel(uint32_t bytes)
{
    for (int i = 0; i < 2; i++) {
        if (mapped)
            munmap(rings[i].head, PAGE_SIZE + 2 * (size_t)mapped);
        rings[i] = map_ring(bytes);
        signals[i] = 0;
    }
    mapped = bytes;
    open_rings(bytes);
    free(theirs.inbound.pkt_buffer);
    memset(&theirs, 0, sizeof theirs);
    struct hv_ring_buffer_info *ends[2] = {&theirs.inbound, &theirs.outbound};
    for (int i = 0; i < 2; i++) {
        ends[i]->ring_buffer = (struct hv_ring_buffer *)rings[i].head;
        ends[i]->ring_size = PAGE_SIZE + bytes;
        ends[i]->ring_datasize = bytes;
    }
    theirs.inbound.pkt_buffer = calloc(1, bytes);
    theirs.inbound.pkt_buffer_size = bytes;
    theirs.raised = &signals[0];
}

static void raise_signal(uint64_t *signal)
{
    __atomic_store_n(signal, 1, __ATOMIC_SEQ_CST);
    syscall(SYS_futex, signal, FUTEX_WAKE_PRIVATE, 1, NULL, NULL, 0);
}

void vmbus_setevent(struct vmbus_channel *channel)
{
    raise_signal(channel->raised);
}

static void raise_them(bool for_room)
{
    (void)for_room;
    raise_signal(&signals[1]);
}

/* ---- Whole calls of Linux's end, with the numbers of the packets that come next. ---- */

static bool their_send(void)
{
    uint64_t p[MOST_WORDS];
    uint32_t len = make_packet(1, sent[1], p);
    struct kvec part = {p, 8 * len};
    int a = hv_ringbuffer_write(&theirs, &part, 1, p[1], NULL);
    if (a == -EAGAIN)
        return false;
    if (a != 0)
        fail("Linux's send", (uint64_t)-a);
    sent[1]++;
    return true;
}

static uint32_t their_take(uint32_t most)
{
    uint32_t n = 0;
    struct vmpacket_descriptor *d = hv_pkt_iter_first(&theirs);
    while (d) {
        compare(0, taken[0]++, theirs.inbound.pkt_buffer, d->len8); /* where it copied the packet */
        n++;
        d = __hv_pkt_iter_next(&theirs, d);
        if (n >= most)
            break;
    }
    if (n)
        hv_pkt_iter_close(&theirs);
    return n;
}

/* ---- Two threads that sleep. An end that sleeps where there is work for it, though its signal is down and its peer has ended calls since, or sleeps too, lost a wake-up. ---- */
static uint64_t calls[2], asleep[2], sleeps[2];
static bool over;

static uint64_t load(const uint64_t *p)
{
    return __atomic_load_n(p, __ATOMIC_SEQ_CST);
}

static void ended(int who)
{
    __atomic_store_n(&calls[who], calls[who] + 1, __ATOMIC_SEQ_CST);
}

static bool is_over(void)
{
    return __atomic_load_n(&over, __ATOMIC_SEQ_CST);
}

/* Whether there is a packet for this end, or more room than it wants. */
static bool has_work(int who, uint32_t want)
{
    struct vmbus_ring_words *in = rings[who == 0].head, *out = rings[who].head;
    uint32_t r = __atomic_load_n(&out->read, __ATOMIC_SEQ_CST), w = __atomic_load_n(&out->write, __ATOMIC_SEQ_CST);
    uint32_t room = w >= r ? ring_bytes - (w - r) : r - w;
    return __atomic_load_n(&in->write, __ATOMIC_SEQ_CST) != __atomic_load_n(&in->read, __ATOMIC_SEQ_CST) || (want && room > want);
}

static void sleep_until_raised(int who, uint32_t want)
{
    sleeps[who]++;
    __atomic_store_n(&asleep[who], 1, __ATOMIC_SEQ_CST);
    for (int i = 0; i < 200000 && !load(&signals[who]); i++) {
    }
    uint64_t since = 0;
    bool seen = false;
    while (!load(&signals[who]) && !is_over()) {
        struct timespec pause = {0, 20000000};
        syscall(SYS_futex, &signals[who], FUTEX_WAIT_PRIVATE, 0, &pause, NULL, 0); /* its low half */
        if (!has_work(who, want))
            seen = false;
        else if (!seen) {
            seen = true;
            since = load(&calls[!who]);
        } else if (load(&calls[!who]) > since + 2 || load(&asleep[!who])) {
            /* the peer ended the call that made the work, and the signal came or it didn't */
            if (!load(&signals[who]) && has_work(who, want) && !is_over())
                fail(who == 0 ? "a lost wake-up: our end sleeps beside work" : "a lost wake-up: Linux's end sleeps beside work", sleeps[who]);
        }
    }
    __atomic_store_n(&asleep[who], 0, __ATOMIC_SEQ_CST);
}

static void our_rest(uint32_t want)
{
    uint32_t a = vmbus_ring_arm(&ours, rings[0], rings[1], want, NULL);
    ended(0);
    while (a == VMBUS_FELL_ASLEEP || a == VMBUS_NO_SIGNAL) {
        sleep_until_raised(0, want);
        if (is_over())
            return;
        a = vmbus_ring_poll(&ours, rings[0], rings[1], &signals[0]);
    }
    if (a == VMBUS_NO_CALL)
        fail("our arm", a);
}

static void *our_thread(void *unused)
{
    while (!is_over()) {
        uint32_t got = our_take(8);
        ended(0);
        bool more = our_send();
        ended(0);
        if (got == 0 && !more)
            our_rest(8 * words_of(0, sent[0]) + 8);
        else if (got == 0 && (mixed(sent[0]) & 3) == 0)
            our_rest(0);
    }
    return unused;
}

/* As Linux's channels: the mask is 0 while an end waits, and is 1 while it reads; a sender that waits for room sets pending. */
static void their_rest(uint32_t want)
{
    if (want) {
        theirs.outbound.ring_buffer->pending_send_sz = want;
        virt_mb();
    }
    bool stay = hv_end_read(&theirs.inbound) == 0 && (!want || hv_get_bytes_to_write(&theirs.outbound) <= want);
    ended(1);
    if (stay)
        sleep_until_raised(1, want);
    __atomic_exchange_n(&signals[1], 0, __ATOMIC_SEQ_CST);
    hv_begin_read(&theirs.inbound);
    if (want)
        theirs.outbound.ring_buffer->pending_send_sz = 0;
}

static void *their_thread(void *unused)
{
    while (!is_over()) {
        uint32_t got = their_take(8);
        ended(1);
        bool more = their_send();
        ended(1);
        if (got == 0 && !more)
            their_rest(8 * words_of(1, sent[1]) + 8);
        else if (got == 0 && (mixed(sent[1]) & 3) == 0)
            their_rest(0);
    }
    return unused;
}

static void threads(uint32_t pages, unsigned seconds)
{
    pthread_t a, b;
    open_channel(pages * PAGE_SIZE);
    memset(calls, 0, sizeof calls);
    memset(asleep, 0, sizeof asleep);
    memset(sleeps, 0, sizeof sleeps);
    over = false;
    pthread_create(&a, NULL, our_thread, NULL);
    pthread_create(&b, NULL, their_thread, NULL);
    sleep(seconds);
    __atomic_store_n(&over, true, __ATOMIC_SEQ_CST);
    pthread_join(a, NULL);
    pthread_join(b, NULL);
    printf("on two threads, %3" PRIu32 " pages, %u s: %" PRIu64 " packets to Linux and %" PRIu64 " from it, none of them wrong; we slept %" PRIu64 " times and Linux %" PRIu64 ", never beside work\n", pages, seconds, taken[0],
           taken[1], sleeps[0], sleeps[1]);
}

/* ---- Ends of any numbers: each plan lies inside the ring, and where there is no call nothing changes. ---- */
static uint32_t any_number(uint32_t cells)
{
    switch (some(16)) {
    case 0: return (uint32_t)mixed(random_state);
    case 1: return some(12);
    case 2: return cells - some(4);
    default: return some(cells ? cells : 1);
    }
}

static void inside_ring(uint32_t cells, uint32_t at, uint32_t first, uint32_t second, uint32_t words)
{
    if (at % 8 || (uint64_t)at / 8 + first > cells || second > at / 8 || first + second != words)
        fail("a plan outside its ring", at);
}

static void any_ends(uint64_t count)
{
    uint64_t accepted = 0;
    for (uint64_t i = 0; i < count; i++) {
        uint32_t n = some(2) ? 512 * (1 + some(8)) : any_number(16777216);
        /* mostly a call that fits the state */
        static const uint32_t states[10] = {0, 2, 0, 3, 0, 4, 0, 5, 6, 0};
        uint32_t call = some(10);
        struct vmbus_plan_end e = {
            n, any_number(n), any_number(n), any_number(n), any_number(n), any_number(n), any_number(8 * n), some(4) ? states[call] : some(9),
        }, old = e;
        if (some(2))
            e.start = old.start = e.read;
        struct vmbus_send_plan s = {1, 2, 3, 4, 5, 6}, s0 = s;
        struct vmbus_take_plan t = {1, 2, 3, 4, 5}, t0 = t;
        uint32_t x = 7, word = some(2) ? 8 * any_number(n) : any_number(n), a;
        uint64_t head = (mixed(random_state) & ~(uint64_t)0xffffffff0000) | (uint64_t)some(9) << 16 | (uint64_t)some(some(2) ? 40 : 65536) << 32;
        switch (call) {
        case 0: a = vmbus_send_plan(&e, head, word, &s); break;
        case 1: a = vmbus_send_done(&e, some(2), word); break;
        case 2: a = vmbus_take_plan(&e, word, &x); break;
        case 3: a = vmbus_take_head(&e, head, &t); break;
        case 4: a = vmbus_commit_plan(&e, &x); break;
        case 5: a = vmbus_commit_done(&e, some(4), word, 8 * any_number(n)); break;
        case 6: a = vmbus_arm_plan(&e, word); break;
        case 7: a = vmbus_arm_done(&e, word, 8 * any_number(n), some(3)); break;
        case 8: a = vmbus_poll_done(&e, some(2)); break;
        default: a = vmbus_mark_done(&e); break;
        }
        if (a == VMBUS_NO_CALL && (memcmp(&e, &old, sizeof e) || memcmp(&s, &s0, sizeof s) || memcmp(&t, &t0, sizeof t) || x != 7))
            fail("something changed where there was no call", i);
        if (a == VMBUS_NO_CALL)
            continue;
        accepted++;
        if (e.cells != n || n > 16777216 || e.write >= n || e.read >= n || e.start >= n || e.seen >= n)
            fail("an end in no form was taken, or left", i);
        if (memcmp(&s, &s0, sizeof s))
            inside_ring(n, s.at, s.first, s.second, (uint32_t)(head >> 32) & 0xffff);
        if (memcmp(&t, &t0, sizeof t))
            inside_ring(n, t.at, t.first, t.second, t.len - 1);
        if (x != 7 && (x % 8 || x / 8 >= n))
            fail("an offset outside its ring", x);
    }
    printf("any numbers: %" PRIu64 " calls, %" PRIu64 " of them taken, each plan inside its ring\n", count, accepted);
}

int main(int count, char **words)
{
    setvbuf(stdout, NULL, _IOLBF, 0);
    unsigned seconds = count == 3 ? (unsigned)atoi(words[2]) : 4;
    static const uint32_t pages[] = {1, 2, 16, 128};
    if (count == 2 && strcmp(words[1], "any") == 0) {
        any_ends(40000000);
        return 0;
    }
    if (strcmp(words[1], "threads") != 0) {
        any_ends(40000000);
        for (int i = 0; i < 4; i++) {
            open_channel(pages[i] * PAGE_SIZE);
            take_turns("Linux", 200000);
        }
    }
    for (int i = 0; i < 4; i++)
        threads(pages[i], seconds);
    return 0;
}
