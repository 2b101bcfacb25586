/* The time of a data page by plans, there and back, both ends in one thread: stored, lent by a request, taken and loaded, stored again, given back by a completion, taken and loaded. 8,001 rounds of
   256 pages. Build it with the static libraries of page_call_plan_c and ring_call_plan_c: cc -O2 -I examples/c bench/pages.c crates/page_call_plan_c/out/libpage_call_plan_c.a crates/ring_call_plan_c/out/libring_call_plan_c.a */
#define _GNU_SOURCE
#include <inttypes.h>
#include <stdio.h>
#include <stdlib.h>
#include <time.h>
#include "vmbus.h"
#define PAGE 4096
#define RING (16 * PAGE)
#define PAGES 64
#define IDS 16
#define PAGES_A_ROUND 256
#define ROUNDS 8001

struct side {
    struct vmbus_plan_end end;
    struct vmbus_ring out, in;
    struct vmbus_pages p;
    struct vmbus_page slots[PAGES];
    struct vmbus_id asks[IDS], owed[IDS];
    uint64_t packet[RING / 8], words[PAGE / 8];
    uint32_t len, offset;
};
static struct side guest, host;
static _Alignas(PAGE) char rings[2][PAGE + RING], pages[PAGES * PAGE];

static void fail(const char *what, uint32_t answer)
{
    fprintf(stderr, "pages: %s: %" PRIu32 "\n", what, answer);
    exit(1);
}

static void make(struct side *s, int is_host)
{
    if (!vmbus_plan_make(&s->end, RING))
        fail("no size of a ring", RING);
    s->p = (struct vmbus_pages){.slots = s->slots, .asks = s->asks, .owed = s->owed, .count = PAGES, .ask_slots = IDS, .owed_slots = IDS, .shared = pages};
    if (!vmbus_page_make(&s->p.end, s->slots, PAGES, s->asks, IDS, s->owed, IDS, is_host))
        fail("no pages", PAGES);
    s->out = (struct vmbus_ring){(void *)rings[is_host], rings[is_host] + PAGE};
    s->in = (struct vmbus_ring){(void *)rings[!is_host], rings[!is_host] + PAGE};
}
static void send(struct side *s, const uint64_t *packet)
{
    uint32_t a = vmbus_pages_send(&s->end, s->out, &s->p, packet);
    if (a != VMBUS_SENT_QUIET && a != VMBUS_SENT_RAISED)
        fail("send", a);
}
static void take(struct side *s)
{
    uint32_t b = 0;
    uint32_t a = vmbus_pages_take(&s->end, s->in, &s->p, s->packet, &s->len, &s->offset);
    if (a != VMBUS_PAGE_DUE)
        fail("take", a);
    if (vmbus_page_load(&s->p, s->words, &b) != VMBUS_PAGE_DONE || b != PAGE)
        fail("load", b);
    a = vmbus_ring_commit(&s->end, s->in);
    if (a != VMBUS_COMMITTED_QUIET)
        fail("commit", a);
}
static void store(struct side *s, uint32_t page)
{
    uint32_t a = vmbus_page_store(&s->p, page, 0, PAGE / 8, s->words);
    if (a != VMBUS_PAGE_DONE)
        fail("store", a);
}

static double now(void)
{
    struct timespec t;
    clock_gettime(CLOCK_MONOTONIC, &t);
    return t.tv_sec * 1e9 + t.tv_nsec;
}

static int order(const void *a, const void *b)
{
    double x = *(const double *)a, y = *(const double *)b;
    return (x > y) - (x < y);
}

int main(void)
{
    static double times[ROUNDS];
    /* by range 0 of one page, from its first byte on; and a completion */
    uint64_t id = 0, ask[32] = {9 | 5ull << 16 | 5ull << 32, 0, 1ull << 32, PAGE}, done[32] = {11 | 2ull << 16 | 2ull << 32};
    make(&guest, 0);
    make(&host, 1);
    for (int x = 0; x < 2; x++)
        ((struct vmbus_ring_words *)rings[x])->mask = ((struct vmbus_ring_words *)rings[x])->feature = 1;
    for (int r = 0; r < ROUNDS; r++) {
        double from = now();
        for (uint32_t i = 0; i < PAGES_A_ROUND; i++) {
            uint32_t page = i % PAGES, word = i % (PAGE / 8);
            ask[1] = done[1] = ++id;
            ask[4] = page;
            guest.words[word] = id;
            store(&guest, page);
            send(&guest, ask);
            take(&host);
            if (host.words[word] != id)
                fail("another word came", word);
            host.words[word] = 3 * id;
            store(&host, page);
            send(&host, done);
            take(&guest);
            if (guest.words[word] != 3 * id)
                fail("another word came back", word);
        }
        times[r] = (now() - from) / PAGES_A_ROUND / 2;
    }
    qsort(times, ROUNDS, sizeof *times, order);
    printf("a page of 4,096 bytes, each way: %.0f ns the least, %.0f the tenth part, %.0f the median\n", times[0], times[ROUNDS / 10], times[ROUNDS / 2]);
    return 0;
}
