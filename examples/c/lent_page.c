/* A page that goes there and back between two processes: the guest stores a page of its own and lends it by a request, the host loads it, stores it again, changed, and gives it back with its
   completion. Both ends go by plans, over rings and pages that they share. For Linux: memfd_create, mmap, eventfd, fork. */
#define _GNU_SOURCE
#define PAGE 4096
#define RING (4 * PAGE) /* bytes of data of each ring */
#define PAGES 2         /* data pages of the channel; both are the guest's */
#define IDS 4           /* requests of different ids that may be open at once */
#define TURNS 100000
#include "side.h"

/* One end of the channel with what it keeps of the data pages, all in private memory. */
struct lender {
    struct side s;
    struct vmbus_pages p;
    struct vmbus_page slots[PAGES];
    struct vmbus_id asks[IDS], owed[IDS];
    uint64_t words[PAGE / 8]; /* the words that came with the packet that was taken last */
    uint32_t bytes;
};

static void send_lent(struct lender *l, const uint64_t *packet)
{
    uint32_t a;
    while ((a = vmbus_pages_send(&l->s.end, l->s.out, &l->p, packet)) == VMBUS_FULL)
        rest(&l->s, 8 * (uint32_t)(packet[0] >> 32 & 0xffff) + 8);
    if (a == VMBUS_SENT_RAISED)
        raise_peer(&l->s);
    else if (a != VMBUS_SENT_QUIET)
        fail("not sent", a);
}

/* The next packet, and the words of the page that came with it. */
static void take_lent(struct lender *l)
{
    uint32_t a;
    while ((a = vmbus_pages_take(&l->s.end, l->s.in, &l->p, l->s.packet, &l->s.len, &l->s.offset)) == VMBUS_EMPTY)
        rest(&l->s, 0);
    l->bytes = 0;
    if (a == VMBUS_PAGE_DUE)
        a = vmbus_page_load(&l->p, l->words, &l->bytes);
    if (a != VMBUS_TOOK && a != VMBUS_PAGE_DONE)
        fail("not taken", a);
    a = vmbus_ring_commit(&l->s.end, l->s.in);
    if (a == VMBUS_COMMITTED_RAISED)
        raise_peer(&l->s);
    else if (a != VMBUS_COMMITTED_QUIET)
        fail("not committed", a);
}

static void store_page(struct lender *l, uint32_t page, uint32_t words)
{
    uint32_t a = vmbus_page_store(&l->p, page, 0, words, l->words);
    if (a != VMBUS_PAGE_DONE)
        fail("not stored", a);
}

static void guest(struct lender *l)
{
    for (uint64_t i = 1; i <= TURNS; i++) {
        uint64_t page = i % PAGES, packet[16];
        uint32_t bytes = i % 3 ? PAGE : 1000;
        size_t len;
        for (uint32_t w = 0; w < bytes / 8; w++)
            l->words[w] = i + w;
        store_page(l, (uint32_t)page, bytes / 8);
        if (vmbus_packet_pages(i, 0, bytes, &page, 1, NULL, 0, packet, 16, &len) != VMBUS_WRITTEN)
            fail("no packet", 0);
        send_lent(l, packet);
        /* the page is the host's now */
        uint32_t a = vmbus_page_store(&l->p, (uint32_t)page, 0, 1, l->words);
        if (a != VMBUS_PAGE_NOT_OWNED)
            fail("a lent page may be stored to", a);
        take_lent(l);
        if (l->s.packet[1] != i || l->bytes != bytes)
            fail("another completion", l->bytes);
        for (uint32_t w = 0; w < bytes / 8; w++)
            if (l->words[w] != 2 * (i + w))
                fail("another word", w);
    }
}

static void host(struct lender *l)
{
    for (uint64_t i = 1; i <= TURNS; i++) {
        uint64_t packet[16];
        uint32_t page = i % PAGES;
        size_t len;
        take_lent(l);
        uint32_t words = l->bytes / 8;
        for (uint32_t w = 0; w < words; w++)
            l->words[w] *= 2;
        uint32_t a = vmbus_page_store(&l->p, page, words, 1, l->words);
        if (a != VMBUS_PAGE_OUTSIDE)
            fail("words that aren't lent may be stored to", a);
        store_page(l, page, words);
        if (vmbus_packet_completion(i, NULL, 0, packet, 16, &len) != VMBUS_WRITTEN)
            fail("no completion", 0);
        send_lent(l, packet);
        if ((a = vmbus_pages_send(&l->s.end, l->s.out, &l->p, packet)) != VMBUS_ID_NOT_OWED)
            fail("a request may be completed twice", a);
    }
}

int main(void)
{
    struct channel c = new_channel(PAGES * PAGE);
    static struct lender l;
    pid_t child = split_channel(&c, &l.s);
    l.p = (struct vmbus_pages){.slots = l.slots, .asks = l.asks, .owed = l.owed, .count = PAGES, .ask_slots = IDS, .owed_slots = IDS, .shared = c.more};
    if (!vmbus_page_make(&l.p.end, l.slots, PAGES, l.asks, IDS, l.owed, IDS, child != 0))
        fail("no pages", PAGES);
    if (!child) {
        guest(&l);
        return 0;
    }
    host(&l);
    wait_for_guest(child);
    printf("%d times a page went there and back between two processes\n", TURNS);
    return 0;
}
