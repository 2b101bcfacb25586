/* Times of the ends for C, with the same words as bench/plain.rs: `turns`, `window`, `calls`, `bad` or `space`; `plans` or `steps`, or the ring code of `linux` or `dpdk` where this was built with it;
   of a window `spins`, `sleeps` or `parks`; then how many packets or calls a round has, how many rounds, the bytes of a packet, the window. Figures are picoseconds, and nanoseconds of single requests. */
#define _GNU_SOURCE
#include <inttypes.h>
#include <linux/futex.h>
#include <pthread.h>
#include <stdio.h>
#include <stdlib.h>
#include <sys/mman.h>
#include <sys/syscall.h>
#include <time.h>
#include <unistd.h>
#ifdef WITH_LINUX
#include "shim.h"
#else
#define PAGE_SIZE 4096
#endif
#ifdef WITH_DPDK
#include "shim_dpdk.h"
#endif
#include "vmbus.h"

#define RING (16 * PAGE_SIZE)
#define CELLS (RING / 8)

static void fail(const char *what)
{
    fprintf(stderr, "ends: %s\n", what);
    exit(1);
}

/* ---- One channel, and its two ends. ---- */
struct signal {
    uint64_t up, parked;
};

struct side {
    struct vmbus_ring out, in;
    struct signal *own, *peer;
    struct vmbus_plan_end plan;
    struct vmbus_end steps;
    uint64_t *words; /* of a channel whose end is driven step by step: headers and cells of both rings, signals, marks */
#ifdef WITH_LINUX
    struct vmbus_channel linux_end;
#endif
#ifdef WITH_DPDK
    struct vmbus_br tx, rx;
#endif
    uint64_t raised;
    uint32_t len, offset;
    uint64_t packet[CELLS];
};

static struct side guest, host;
static struct signal signals[2];
static uint64_t step_words[2 * (CELLS + 5) + 4];

/* The data of a ring is mapped twice, as Linux has it. */
static struct vmbus_ring map_ring(void)
{
    int fd = memfd_create("ring", 0);
    size_t all = PAGE_SIZE + RING;
    if (fd < 0 || ftruncate(fd, all) != 0)
        fail("no memory");
    char *at = mmap(NULL, all + RING, PROT_NONE, MAP_PRIVATE | MAP_ANONYMOUS, -1, 0);
    if (at == MAP_FAILED || mmap(at, all, PROT_READ | PROT_WRITE, MAP_SHARED | MAP_FIXED, fd, 0) == MAP_FAILED
        || mmap(at + all, RING, PROT_READ | PROT_WRITE, MAP_SHARED | MAP_FIXED, fd, PAGE_SIZE) == MAP_FAILED)
        fail("no memory");
    close(fd);
    return (struct vmbus_ring){(struct vmbus_ring_words *)at, at + PAGE_SIZE};
}

static void open_channel(void)
{
    static struct vmbus_ring rings[2];
    for (int i = 0; i < 2; i++) {
        if (!rings[i].head)
            rings[i] = map_ring();
        memset(rings[i].head, 0, PAGE_SIZE);
        rings[i].head->mask = rings[i].head->feature = 1;
        signals[i] = (struct signal){0, 0};
    }
    memset(step_words, 0, sizeof step_words);
    step_words[2] = step_words[4] = step_words[CELLS + 7] = step_words[CELLS + 9] = 1;
    struct side *sides[2] = {&guest, &host};
    for (int i = 0; i < 2; i++) {
        struct side *s = sides[i];
        s->out = rings[i];
        s->in = rings[1 - i];
        s->own = &signals[i];
        s->peer = &signals[1 - i];
        s->words = step_words;
        s->raised = 0;
        if (!vmbus_plan_make(&s->plan, RING) || !vmbus_end_make(&s->steps, i, RING))
            fail("no size of a ring");
#ifdef WITH_LINUX
        free(s->linux_end.inbound.pkt_buffer);
        memset(&s->linux_end, 0, sizeof s->linux_end);
        struct hv_ring_buffer_info *ends[2] = {&s->linux_end.outbound, &s->linux_end.inbound};
        struct vmbus_ring of[2] = {s->out, s->in};
        for (int k = 0; k < 2; k++) {
            ends[k]->ring_buffer = (struct hv_ring_buffer *)of[k].head;
            ends[k]->ring_size = PAGE_SIZE + RING;
            ends[k]->ring_datasize = RING;
        }
        s->linux_end.inbound.pkt_buffer = calloc(1, RING);
        s->linux_end.inbound.pkt_buffer_size = RING;
        s->linux_end.raised = s;
#endif
#ifdef WITH_DPDK
        vmbus_br_setup(&s->tx, s->out.head, PAGE_SIZE + RING);
        vmbus_br_setup(&s->rx, s->in.head, PAGE_SIZE + RING);
#endif
    }
}

static inline void pause_a_moment(void)
{
#if defined __x86_64__
    __builtin_ia32_pause();
#elif defined __aarch64__
    __asm__ volatile("yield");
#endif
}

static void raise_peer(struct side *s)
{
    s->raised++;
    __atomic_store_n(&s->peer->up, 1, __ATOMIC_SEQ_CST);
    if (__atomic_load_n(&s->peer->parked, __ATOMIC_SEQ_CST))
        syscall(SYS_futex, &s->peer->up, FUTEX_WAKE_PRIVATE, 1, NULL, NULL, 0);
}

static void park(struct side *s)
{
    __atomic_store_n(&s->own->parked, 1, __ATOMIC_SEQ_CST);
    syscall(SYS_futex, &s->own->up, FUTEX_WAIT_PRIVATE, 0, NULL, NULL, 0); /* its low half */
    __atomic_store_n(&s->own->parked, 0, __ATOMIC_SEQ_CST);
}

/* ---- The calls of each form. A take gives the room back too. ---- */
enum answer { DONE, NO_ROOM, NOTHING, STOPPED };

struct form {
    enum answer (*send)(struct side *s, const uint64_t *packet);
    enum answer (*take)(struct side *s);
    bool (*arm)(struct side *s, uint32_t want); /* whether the end is asleep */
    bool (*poll)(struct side *s);               /* whether it is awake */
};

static inline enum answer plans_send(struct side *s, const uint64_t *packet)
{
    uint32_t a = vmbus_ring_send(&s->plan, s->out, packet);
    if (a == VMBUS_SENT_RAISED)
        raise_peer(s);
    return a == VMBUS_SENT_QUIET || a == VMBUS_SENT_RAISED ? DONE : a == VMBUS_FULL ? NO_ROOM : STOPPED;
}

static inline enum answer plans_take(struct side *s)
{
    uint32_t a = vmbus_ring_take(&s->plan, s->in, s->packet, &s->len, &s->offset);
    if (a != VMBUS_TOOK)
        return a == VMBUS_EMPTY ? NOTHING : STOPPED;
    a = vmbus_ring_commit(&s->plan, s->in);
    if (a == VMBUS_COMMITTED_RAISED)
        raise_peer(s);
    return a == VMBUS_COMMITTED_QUIET || a == VMBUS_COMMITTED_RAISED ? DONE : STOPPED;
}

static inline bool plans_arm(struct side *s, uint32_t want)
{
    return vmbus_ring_arm(&s->plan, s->out, s->in, want, NULL) == VMBUS_FELL_ASLEEP;
}

static inline bool plans_poll(struct side *s)
{
    return vmbus_ring_poll(&s->plan, s->out, s->in, &s->own->up) != VMBUS_NO_SIGNAL;
}

static const struct form plans = {plans_send, plans_take, plans_arm, plans_poll};

/* Makes the steps of the call under way. */
static inline uint32_t run_steps(struct side *s, const uint64_t *packet, size_t len)
{
    struct vmbus_step step;
    while (vmbus_end_next(&s->steps, packet, len, &step)) {
        size_t ring = step.which * (CELLS + 5);
        size_t at = step.place < 6 ? ring + step.place - 1 : step.place == 6 ? ring + 5 + step.at / 8 : 2 * (CELLS + 5) + (step.place - 7) * 2 + step.which;
        uint64_t *word = &s->words[at], value = 0;
        if (step.op == 1)
            value = __atomic_load_n(word, __ATOMIC_SEQ_CST);
        else if (step.op == 4)
            value = __atomic_exchange_n(word, 0, __ATOMIC_SEQ_CST);
        else
            __atomic_store_n(word, step.value, __ATOMIC_SEQ_CST);
        if (step.op == 1 && step.place == 6)
            s->packet[s->steps.done] = value;
        vmbus_end_feed(&s->steps, value);
    }
    return s->steps.ended;
}

static inline enum answer steps_send(struct side *s, const uint64_t *packet)
{
    uint32_t len = (uint32_t)(packet[0] >> 32 & 0xffff);
    if (!vmbus_end_begin_send(&s->steps, len))
        return STOPPED;
    uint32_t a = run_steps(s, packet, len);
    return a == VMBUS_SENT_QUIET || a == VMBUS_SENT_RAISED ? DONE : a == VMBUS_FULL ? NO_ROOM : STOPPED;
}

static inline enum answer steps_take(struct side *s)
{
    if (!vmbus_end_begin_take(&s->steps))
        return STOPPED;
    uint32_t a = run_steps(s, NULL, 0);
    if (a != VMBUS_TOOK)
        return a == VMBUS_EMPTY ? NOTHING : STOPPED;
    s->len = s->steps.words;
    return vmbus_end_begin_commit(&s->steps) && run_steps(s, NULL, 0) ? DONE : STOPPED;
}

static inline bool steps_arm(struct side *s, uint32_t want)
{
    return vmbus_end_begin_arm(&s->steps, want) && run_steps(s, NULL, 0) == VMBUS_FELL_ASLEEP;
}

static inline bool steps_poll(struct side *s)
{
    return vmbus_end_begin_poll(&s->steps) && run_steps(s, NULL, 0) == VMBUS_WOKE;
}

static const struct form steps = {steps_send, steps_take, steps_arm, steps_poll};

#ifdef WITH_LINUX
void vmbus_setevent(struct vmbus_channel *channel)
{
    raise_peer(channel->raised);
}

static inline enum answer linux_send(struct side *s, const uint64_t *packet)
{
    struct kvec part = {(void *)packet, 8 * (packet[0] >> 32 & 0xffff)};
    int a = hv_ringbuffer_write(&s->linux_end, &part, 1, packet[1], NULL);
    return a == 0 ? DONE : a == -EAGAIN ? NO_ROOM : STOPPED;
}

static inline enum answer linux_take(struct side *s)
{
    struct vmpacket_descriptor *d = hv_pkt_iter_first(&s->linux_end);
    if (!d)
        return NOTHING;
    s->len = d->len8;
    __hv_pkt_iter_next(&s->linux_end, d);
    hv_pkt_iter_close(&s->linux_end);
    return DONE;
}

/* As Linux's channels: the mask is 0 while an end waits, and is 1 while it reads; a sender that waits for room sets pending. */
static inline bool linux_arm(struct side *s, uint32_t want)
{
    if (want) {
        s->linux_end.outbound.ring_buffer->pending_send_sz = want;
        virt_mb();
    }
    bool stays = hv_end_read(&s->linux_end.inbound) == 0 && (!want || hv_get_bytes_to_write(&s->linux_end.outbound) <= want);
    if (!stays) {
        hv_begin_read(&s->linux_end.inbound);
        s->linux_end.outbound.ring_buffer->pending_send_sz = 0;
    }
    return stays;
}

static inline bool linux_poll(struct side *s)
{
    if (!__atomic_exchange_n(&s->own->up, 0, __ATOMIC_SEQ_CST))
        return false;
    hv_begin_read(&s->linux_end.inbound);
    s->linux_end.outbound.ring_buffer->pending_send_sz = 0;
    return true;
}

static const struct form linux_form = {linux_send, linux_take, linux_arm, linux_poll};
#endif

#ifdef WITH_DPDK
/* As its channels send and take: the packet in one piece; its header, and then all of it. It looks at its ring, and doesn't sleep. */
static inline enum answer dpdk_send(struct side *s, const uint64_t *packet)
{
    struct iovec part = {(void *)packet, 8 * (packet[0] >> 32 & 0xffff)};
    bool raises = false;
    int a = vmbus_txbr_write(&s->tx, &part, 1, &raises);
    if (raises)
        raise_peer(s);
    return a == 0 ? DONE : NO_ROOM;
}

static inline enum answer dpdk_take(struct side *s)
{
    uint64_t head[2];
    if (vmbus_rxbr_peek(&s->rx, head, sizeof head) != 0)
        return NOTHING;
    s->len = (uint32_t)(head[0] >> 32 & 0xffff);
    return s->len < CELLS && vmbus_rxbr_read(&s->rx, s->packet, 8 * s->len, 0) == 0 ? DONE : STOPPED;
}

static bool dpdk_never(struct side *s, uint32_t want)
{
    (void)s, (void)want;
    return false;
}

static bool dpdk_awake(struct side *s)
{
    (void)s;
    return true;
}

static const struct form dpdk = {dpdk_send, dpdk_take, dpdk_never, dpdk_awake};
#endif

/* ---- What is timed. Each of these is built once for each form. ---- */
#define ALWAYS static inline __attribute__((always_inline))

struct load {
    uint64_t count, rounds, bytes, window;
    bool spins;
    uint32_t looks; /* at the signal, before the thread is parked */
};

static uint64_t packet[CELLS], answer_packet[CELLS] = {0x30002000b, 1, 2};

static uint64_t now(void)
{
    struct timespec t;
    clock_gettime(CLOCK_MONOTONIC, &t);
    return 1000000000 * (uint64_t)t.tv_sec + (uint64_t)t.tv_nsec;
}

static uint64_t lesser(uint64_t a, uint64_t b)
{
    return a < b ? a : b;
}

ALWAYS void turns(const struct form *f, struct load l)
{
    uint64_t best = UINT64_MAX;
    for (uint64_t r = 0; r < l.rounds; r++) {
        open_channel();
        uint64_t start = now();
        for (uint64_t i = 0; i < l.count; i++)
            if (f->send(&guest, packet) != DONE || f->take(&host) != DONE || host.len != l.bytes / 8)
                fail("a packet was lost");
        best = lesser(best, 1000 * (now() - start) / l.count);
    }
    printf("turns %" PRIu64 "\n", best);
}

/* Where the ring is full a request is open, so an end waits for packets alone. */
ALWAYS void rest(const struct form *f, struct side *s, const struct load *l)
{
    if (l->spins || !f->arm(s, 0))
        return;
    for (uint32_t i = 0; i < l->looks; i++) {
        if (f->poll(s))
            return;
        pause_a_moment();
    }
    while (!f->poll(s))
        park(s);
}

/* Where one request is open at most the time of each is noted. */
ALWAYS void ask(const struct form *f, const struct load *l, uint64_t *times)
{
    uint64_t sent = 0, got = 0, since = now();
    bool full = false;
    while (got < l->count) {
        if (!full && sent < l->count && sent - got < l->window) {
            enum answer a = f->send(&guest, packet);
            if (a == DONE)
                sent++;
            else if (a == NO_ROOM)
                full = true;
            else
                fail("a send stopped");
            continue;
        }
        full = false;
        enum answer a = f->take(&guest);
        if (a == DONE) {
            if (l->window == 1) {
                times[got] = now() - since;
                since = now();
            }
            got++;
        } else if (a == NOTHING)
            rest(f, &guest, l);
        else
            fail("a take stopped");
    }
}

ALWAYS void serve(const struct form *f, const struct load *l)
{
    for (uint64_t got = 0; got < l->count; got++) {
        enum answer a;
        while ((a = f->take(&host)) == NOTHING)
            rest(f, &host, l);
        if (a != DONE || host.len != l->bytes / 8)
            fail("a take stopped");
        while ((a = f->send(&host, answer_packet)) == NO_ROOM)
            rest(f, &host, l);
        if (a != DONE)
            fail("a send stopped");
    }
}

static int by_size(const void *a, const void *b)
{
    uint64_t x = *(const uint64_t *)a, y = *(const uint64_t *)b;
    return (x > y) - (x < y);
}

ALWAYS void window(const struct form *f, struct load l, void *(*thread)(void *))
{
    pthread_t other;
    uint64_t *times = calloc(l.count, sizeof *times);
    if (!times)
        fail("no memory");
    open_channel();
    uint64_t start = now();
    if (pthread_create(&other, NULL, thread, &l) != 0)
        fail("no thread");
    ask(f, &l, times);
    pthread_join(other, NULL);
    uint64_t time = 1000 * (now() - start) / l.count;
    qsort(times, l.count, sizeof *times, by_size);
    printf("window %" PRIu64 " %" PRIu64 " %" PRIu64 " %" PRIu64 " %" PRIu64 "\n", time, guest.raised + host.raised, times[l.count / 2], times[l.count * 99 / 100], times[l.count - 1]);
    free(times);
}

/* An empty take, a poll, a wake-up with its packet, a send into a full ring. Of an end that never sleeps the second and the third are 0. */
ALWAYS void calls(const struct form *f, struct load l)
{
    uint64_t best[4] = {UINT64_MAX, UINT64_MAX, UINT64_MAX, UINT64_MAX};
    open_channel();
    bool sleeps = f->arm(&host, 0);
    if (!sleeps)
        best[1] = best[2] = 0;
    for (uint64_t r = 0; r < l.rounds; r++) {
        open_channel();
        uint64_t start = now();
        for (uint64_t i = 0; i < l.count; i++)
            if (f->take(&host) != NOTHING)
                fail("no empty ring");
        best[0] = lesser(best[0], 1000 * (now() - start) / l.count);
        start = now();
        for (uint64_t i = 0; sleeps && i < l.count; i++)
            if (!f->arm(&host, 0) || f->send(&guest, answer_packet) != DONE || !f->poll(&host) || f->take(&host) != DONE)
                fail("no wake-up");
        best[2] = lesser(best[2], 1000 * (now() - start) / l.count);
        while (f->send(&guest, answer_packet) == DONE) {
        }
        start = now();
        for (uint64_t i = 0; i < l.count; i++)
            if (f->send(&guest, answer_packet) != NO_ROOM)
                fail("no full ring");
        best[3] = lesser(best[3], 1000 * (now() - start) / l.count);
        if (!sleeps)
            continue;
        if (!f->arm(&guest, 0))
            fail("an end doesn't sleep");
        start = now();
        for (uint64_t i = 0; i < l.count; i++)
            if (f->poll(&guest))
                fail("a signal was up");
        best[1] = lesser(best[1], 1000 * (now() - start) / l.count);
    }
    printf("calls %" PRIu64 " %" PRIu64 " %" PRIu64 " %" PRIu64 "\n", best[0], best[1], best[2], best[3]);
}

/* A take that finds a write index in no form: of each form the one call, and what sets the end back to a new one. */
struct spoilt {
    bool (*take)(void); /* whether it ended as it has to */
    void (*anew)(void);
};

static struct vmbus_plan_end fresh;

static inline bool plans_spoilt(void)
{
    return plans_take(&host) == STOPPED;
}

static inline void plans_anew(void)
{
    host.plan = fresh;
}

static const struct spoilt plans_bad = {plans_spoilt, plans_anew};

#ifdef WITH_LINUX
/* It knows no such index: it gives a packet of what lies there, as long as its buffer is. */
static inline bool linux_spoilt(void)
{
    return hv_pkt_iter_first(&host.linux_end) != NULL;
}

static inline void linux_anew(void)
{
    host.linux_end.inbound.priv_read_index = 0;
}

static const struct spoilt linux_bad = {linux_spoilt, linux_anew};
#endif

ALWAYS void bad(const struct spoilt *f, struct load l)
{
    uint64_t best = UINT64_MAX;
    for (uint64_t r = 0; r < l.rounds; r++) {
        open_channel();
        fresh = host.plan;
        __atomic_store_n(&host.in.head->write, UINT32_MAX, __ATOMIC_SEQ_CST);
        uint64_t start = now();
        for (uint64_t i = 0; i < l.count; i++) {
            f->anew();
            if (!f->take())
                fail("no end at a bad index");
        }
        best = lesser(best, 1000 * (now() - start) / l.count);
    }
    printf("bad %" PRIu64 "\n", best);
}

#define FORM(name, table) \
    static void *name##_serves(void *l) \
    { \
        serve(&table, l); \
        return NULL; \
    } \
    static void time_##name(const char *part, struct load l) \
    { \
        if (strcmp(part, "turns") == 0) \
            turns(&table, l); \
        else if (strcmp(part, "window") == 0) \
            window(&table, l, name##_serves); \
        else if (strcmp(part, "calls") == 0) \
            calls(&table, l); \
        else \
            fail("turns, window, calls, bad or space"); \
    }

FORM(plans, plans)
FORM(steps, steps)
#ifdef WITH_LINUX
FORM(linux_ring, linux_form)
#endif
#ifdef WITH_DPDK
FORM(dpdk_ring, dpdk)
#endif

static void time_bad(const char *form, struct load l)
{
#ifdef WITH_LINUX
    if (strcmp(form, "linux") == 0) {
        bad(&linux_bad, l);
        return;
    }
#endif
    if (strcmp(form, "plans") != 0)
        fail("an index in no form is tried of plans and of linux");
    bad(&plans_bad, l);
}

int main(int count, char **words)
{
    struct load l = {100, 1, 24, 4, false, 256};
    uint64_t *numbers[4] = {&l.count, &l.rounds, &l.bytes, &l.window};
    const char *form = "plans", *part = count > 1 ? words[1] : "";
    for (int i = 2, given = 0; i < count; i++)
        if (words[i][0] >= '0' && words[i][0] <= '9' && given < 4)
            *numbers[given++] = strtoull(words[i], NULL, 10);
        else if (strcmp(words[i], "spins") == 0)
            l.spins = true;
        else if (strcmp(words[i], "parks") == 0)
            l.looks = 0;
        else if (strcmp(words[i], "sleeps") != 0)
            form = words[i];
    if (l.count == 0 || l.bytes < 16 || l.bytes > RING - 24)
        fail("no such numbers");
    for (int i = 1; i < CELLS; i++)
        packet[i] = 0x9e3779b97f4a7c15;
    packet[0] = 6 | 2 << 16 | (l.bytes / 8) << 32;
    if (strcmp(part, "space") == 0)
        printf("space %zu %zu\n", sizeof(struct vmbus_plan_end), sizeof(struct vmbus_end));
    else if (strcmp(part, "bad") == 0)
        time_bad(form, l);
    else if (strcmp(form, "plans") == 0)
        time_plans(part, l);
    else if (strcmp(form, "steps") == 0)
        time_steps(part, l);
#ifdef WITH_LINUX
    else if (strcmp(form, "linux") == 0)
        time_linux_ring(part, l);
#endif
#ifdef WITH_DPDK
    else if (strcmp(form, "dpdk") == 0)
        time_dpdk_ring(part, l);
#endif
    else
        fail("no such end");
    return 0;
}
