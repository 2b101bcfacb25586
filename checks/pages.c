/* The calls of page_call_plan_c beside a plain model of the rule of pages, and on any numbers. usage: pages CALLS SEED. The model keeps counts of all that was sent and taken, of each id, and who has
   each page; the packets are its own, so it knows what they lend. Two ends send each other packets by the calls; now and then a packet comes that no peer of right mind sends. */
#include <inttypes.h>
#include <stdio.h>
#include <stdlib.h>
#include "vmbus.h"

#define MOST_PAGES 128
#define SLOTS 64
#define IDS 6       /* ids of packets are 0 to 5 */
#define QUEUE 8
#define WORDS 512

static uint64_t seed, calls;

static uint64_t any(void)
{
    seed ^= seed << 13, seed ^= seed >> 7, seed ^= seed << 17;
    return seed * 0x2545f4914f6cdd1d;
}

static uint32_t below(uint32_t n)
{
    return (uint32_t)(any() >> 33) % n;
}

static void fail(const char *what, uint64_t a, uint64_t b)
{
    fprintf(stderr, "pages: %s: %" PRIu64 ", %" PRIu64 ", after %" PRIu64 " calls\n", what, a, b, calls);
    exit(1);
}

static void same(const char *what, uint64_t a, uint64_t b)
{
    calls++;
    if (a != b)
        fail(what, a, b);
}

/* ---- The model. ---- */
struct packet {
    uint32_t kind;                /* 11 completes, 6, 7 and 9 ask */
    uint64_t id;
    uint32_t lends, page, count;  /* whether it names a page of the channel, and how many of its words */
    uint64_t words[16];
    uint32_t len;
    uint64_t brings[WORDS];       /* the page words that go along */
    uint32_t brought;
};

struct model {
    enum vmbus_page_owner owner[MOST_PAGES];
    uint64_t by[MOST_PAGES];
    uint32_t lent[MOST_PAGES];
    uint64_t asked[IDS], back[IDS], taken[IDS], ended[IDS], open[IDS]; /* open: own requests without a completion, however many of these came */
    uint32_t due, due_page;
    uint64_t copy[MOST_PAGES][WORDS];
};

struct end {
    struct model m;
    struct vmbus_page_end end;
    struct vmbus_page slots[MOST_PAGES];
    struct vmbus_id asks[IDS], owed[IDS];
    struct packet in[QUEUE], last;
    uint32_t head, waits;
};

static struct end ends[2];
static uint32_t pages;
static uint64_t shared[MOST_PAGES][WORDS];

/* A packet of this kind: where `names` is set it names so many bytes of a page, whether the channel has it or not. */
static void make(struct packet *p, uint32_t kind, uint64_t id, int names, uint32_t page, uint32_t bytes)
{
    memset(p->words, 0, sizeof p->words);
    p->kind = kind, p->id = id, p->brought = 0;
    uint64_t *w = p->words, offset = 2;
    p->len = 2;
    if (kind == 9)
        offset = p->len = 5, w[2] = 1ull << 32, w[3] = bytes, w[4] = page;
    else if (kind == 7)
        offset = p->len = 4, w[2] = 1ull << 32 | 0xcafe, w[3] = (uint64_t)(page - 64) * 4096 << 32 | bytes;
    else if (kind == 6)
        p->len = 7, w[2] = 107, w[3] = (uint64_t)bytes << 32 | page;
    if (!names && kind == 9)
        w[3] |= 8ull << 32;              /* from byte 8 of the page on */
    if (!names && kind == 7)
        w[2] = 1ull << 32 | 0xcaff;      /* another buffer */
    if (!names && kind == 6)
        w[2] = 106;                      /* another message */
    w[0] = kind | offset << 16 | (uint64_t)p->len << 32;
    w[1] = id;
    p->lends = names && kind != 11 && page < pages;
    p->page = page;
    p->count = (bytes + 7) / 8;
}

static void some_packet(struct packet *p)
{
    static const uint32_t kinds[] = {6, 7, 9, 9, 11, 11};
    uint32_t kind = kinds[below(6)];
    make(p, kind, below(IDS), below(4) != 0, kind == 7 ? 64 + below(64) : below(pages < 64 && below(8) ? pages : 64), 1 + below(4096));
}

static int32_t first(const struct model *m, enum vmbus_page_owner owner, uint64_t id)
{
    for (uint32_t q = 0; q < pages; q++)
        if (m->owner[q] == owner && m->by[q] == id)
            return (int32_t)q;
    return -1;
}

/* What a send is answered. `open` is what the library can know; what it plans the rule has to let. */
static uint32_t model_may(const struct model *m, const struct packet *p)
{
    if (m->due)
        return VMBUS_PAGE_DUE;
    if (p->kind == 11)
        return m->ended[p->id] < m->taken[p->id] ? VMBUS_PLANNED : VMBUS_ID_NOT_OWED;
    if (p->lends && m->owner[p->page] != VMBUS_PAGE_HAS)
        return VMBUS_PAGE_NOT_OWNED;
    if (p->lends && m->open[p->id])
        return VMBUS_ID_OPEN;
    if (p->lends && m->asked[p->id] > m->back[p->id])
        fail("a send that the rule doesn't let", p->id, p->page);
    return VMBUS_PLANNED;
}

static void model_sent(struct model *m, struct packet *p)
{
    int32_t q = p->kind == 11 ? first(m, VMBUS_PAGE_HELD, p->id) : p->lends ? (int32_t)p->page : -1;
    p->brought = 0;
    if (q >= 0) {
        p->brought = p->kind == 11 ? m->lent[q] : p->count;
        memcpy(p->brings, m->copy[q], sizeof p->brings);
        m->owner[q] = p->kind == 11 ? VMBUS_PAGE_AWAY : VMBUS_PAGE_LENT;
        m->by[q] = p->id, m->lent[q] = p->count;
    }
    if (p->kind == 11)
        m->ended[p->id]++;
    else
        m->asked[p->id]++, m->open[p->id]++;
}

static void model_took(struct model *m, const struct packet *p)
{
    if (p->kind == 11) {
        int32_t q = first(m, VMBUS_PAGE_LENT, p->id);
        m->back[p->id]++;
        m->open[p->id] -= m->open[p->id] != 0;
        if (q >= 0)
            m->owner[q] = VMBUS_PAGE_HAS, m->due = m->lent[q], m->due_page = (uint32_t)q;
        return;
    }
    m->taken[p->id]++;
    if (p->lends && (m->owner[p->page] == VMBUS_PAGE_AWAY || (m->owner[p->page] == VMBUS_PAGE_HELD && m->by[p->page] == p->id)))
        m->owner[p->page] = VMBUS_PAGE_HELD, m->by[p->page] = p->id, m->lent[p->page] = p->count, m->due = p->count, m->due_page = p->page;
}

/* ---- Both beside each other. ---- */
static void compare(const struct end *e)
{
    for (uint32_t q = 0; q < pages; q++) {
        same("owner", e->slots[q].owner, e->m.owner[q]);
        if (e->m.owner[q] == VMBUS_PAGE_LENT || e->m.owner[q] == VMBUS_PAGE_HELD) {
            same("id", e->slots[q].tid, e->m.by[q]);
            same("words", e->slots[q].words, e->m.lent[q]);
        }
    }
    for (uint64_t id = 0; id < IDS; id++) {
        uint64_t asks = 0, owed = 0;
        for (uint32_t i = 0; i < IDS; i++)
            asks += e->asks[i].tid == id ? e->asks[i].count : 0, owed += e->owed[i].tid == id ? e->owed[i].count : 0;
        same("open requests", asks, e->m.open[id]);
        same("owed completions", owed, e->m.taken[id] - e->m.ended[id]);
    }
    same("due", e->end.due_words, e->m.due);
    same("state", e->end.state, VMBUS_PAGE_IDLE);
}

static void send(struct end *e, struct end *peer, struct packet *p)
{
    if (peer->waits == QUEUE)
        return;
    struct vmbus_page_end before = e->end;
    uint32_t may = model_may(&e->m, p);
    same("send", vmbus_page_send_plan(&e->end, e->slots, pages, e->asks, IDS, e->owed, IDS, p->words, p->len), may);
    same("another call beside a plan", may == VMBUS_PLANNED && vmbus_page_send_plan(&e->end, e->slots, pages, e->asks, IDS, e->owed, IDS, p->words, p->len) != VMBUS_NO_CALL, 0);
    if (may != VMBUS_PLANNED) {
        same("a refusal changes the end", memcmp(&before, &e->end, sizeof before) != 0, 0);
        return;
    }
    if (!below(8)) {
        same("drop", vmbus_page_drop(&e->end), VMBUS_PAGE_DONE);
        return;
    }
    same("sent", vmbus_page_send_done(&e->end, e->slots, pages, e->asks, IDS, e->owed, IDS, p->words, p->len), VMBUS_PAGE_DONE);
    same("sent twice", vmbus_page_send_done(&e->end, e->slots, pages, e->asks, IDS, e->owed, IDS, p->words, p->len), VMBUS_NO_CALL);
    model_sent(&e->m, p);
    peer->in[(peer->head + peer->waits++) % QUEUE] = *p;
}

static void take(struct end *e, int lawful)
{
    uint32_t plan = vmbus_page_take_plan(&e->end, e->slots, pages, e->owed, IDS);
    if (e->m.due) {
        same("take", plan, VMBUS_PAGE_DUE);
        return;
    }
    if (plan == VMBUS_NO_IDS) {
        for (uint32_t i = 0; i < IDS; i++)
            same("room for an id", e->owed[i].count == 0, 0);
        return;
    }
    same("take", plan, VMBUS_PLANNED);
    if (!e->waits) {
        same("drop", vmbus_page_drop(&e->end), VMBUS_PAGE_DONE);
        return;
    }
    e->last = e->in[e->head];
    e->head = (e->head + 1) % QUEUE, e->waits--;
    model_took(&e->m, &e->last);
    same("took", vmbus_page_take_done(&e->end, e->slots, pages, e->asks, IDS, e->owed, IDS, e->last.words, e->last.len), e->m.due ? VMBUS_PAGE_DUE : VMBUS_TOOK);
    if (lawful)
        same("words that come with a packet", e->m.due, e->last.brought);
}

static void load(struct end *e, int lawful)
{
    struct vmbus_page_run run = {~0u, ~0u, ~0u};
    same("load", vmbus_page_load_plan(&e->end, e->slots, pages, &run), e->m.due ? VMBUS_PLANNED : VMBUS_NO_CALL);
    if (!e->m.due) {
        same("no run", run.page, ~0u);
        return;
    }
    same("page of a load", run.page, e->m.due_page);
    same("beginning of a load", run.at, 0);
    same("bytes of a load", run.bytes, 8 * e->m.due);
    memcpy(e->m.copy[run.page], (char *)shared[run.page] + run.at, run.bytes);
    if (lawful)
        same("words that were lent", memcmp(e->m.copy[run.page], e->last.brings, run.bytes) != 0, 0);
    same("loaded", vmbus_page_load_done(&e->end), VMBUS_PAGE_DONE);
    same("loaded twice", vmbus_page_load_done(&e->end), VMBUS_NO_CALL);
    e->m.due = 0;
}

static void store(struct end *e)
{
    struct vmbus_page_run run = {~0u, ~0u, ~0u};
    uint32_t q = below(pages + 2), from = below(520), words = below(4) ? below(520) : 0;
    uint32_t room = q >= pages ? 0 : e->m.owner[q] == VMBUS_PAGE_HAS ? WORDS : e->m.owner[q] == VMBUS_PAGE_HELD ? e->m.lent[q] : 0;
    uint32_t may = !words ? VMBUS_NO_CALL : e->m.due ? VMBUS_PAGE_DUE : !room ? VMBUS_PAGE_NOT_OWNED : from + words > room ? VMBUS_PAGE_OUTSIDE : VMBUS_PLANNED;
    same("store", vmbus_page_store_plan(&e->end, e->slots, pages, q, from, words, &run), may);
    if (may != VMBUS_PLANNED) {
        same("no run", run.page, ~0u);
        return;
    }
    same("run of a store", run.page == q && run.at == 8 * from && run.bytes == 8 * words, 1);
    for (uint32_t w = from; w < from + words; w++)
        e->m.copy[q][w] = any();
    memcpy((char *)shared[q] + run.at, &e->m.copy[q][from], run.bytes);
    same("stored", vmbus_page_store_done(&e->end), VMBUS_PAGE_DONE);
}

static void channel(int lawful)
{
    pages = below(4) ? 1 + below(3) : 1 + below(MOST_PAGES);
    memset(ends, 0, sizeof ends);
    memset(shared, 0, sizeof shared);
    for (int x = 0; x < 2; x++) {
        same("make", vmbus_page_make(&ends[x].end, ends[x].slots, pages, ends[x].asks, IDS, ends[x].owed, IDS, x), 1);
        for (uint32_t q = 0; q < pages; q++)
            ends[x].m.owner[q] = (q < 64) == !x ? VMBUS_PAGE_HAS : VMBUS_PAGE_AWAY;
    }
    struct packet p;
    for (uint32_t turns = 64 + below(512); turns; turns--) {
        int x = (int)below(2);
        struct end *e = &ends[x], *peer = &ends[!x];
        uint32_t what = below(8);
        some_packet(&p);
        if (p.kind == 11 && below(2))
            for (uint64_t id = 0; id < IDS; id++)
                if (e->m.taken[id] > e->m.ended[id])
                    make(&p, 11, id, 0, 0, 1);
        if (what < 3)
            send(e, peer, &p);
        else if (what == 3)
            store(e);
        else if (what < 6)
            load(e, lawful);
        else
            take(e, lawful);
        if (!lawful && !below(4) && e->waits < QUEUE)
            e->in[(e->head + e->waits++) % QUEUE] = p;
        compare(e);
    }
}

/* ---- Any numbers. ---- */
static uint64_t number(void)
{
    static const uint64_t some[] = {0, 1, 2, 3, 4, 5, 11, 511, 512, 513, 4096, 1ull << 32, ~0ull, ~0u};
    return below(3) ? some[below(sizeof some / 8)] : any();
}

static void any_calls(void)
{
    static struct vmbus_page slots[MOST_PAGES + 4], old_slots[MOST_PAGES + 4];
    static struct vmbus_id asks[9], owed[9], old_asks[9], old_owed[9];
    uint64_t packet[16];
    struct packet p;
    pages = 1 + below(MOST_PAGES);
    some_packet(&p);
    memcpy(packet, p.words, sizeof packet);
    size_t len = below(4) ? p.len : below(17), n = below(8) ? below(MOST_PAGES + 1) : MOST_PAGES + 1 + below(3), na = below(9), no = below(9);
    if (!below(4))
        packet[below(6)] = number();
    for (uint32_t i = 0; i <= n; i++)
        slots[i] = (struct vmbus_page){number(), (uint32_t)number(), below(8) ? below(4) : (uint32_t)number()};
    for (uint32_t i = 0; i < 9; i++) {
        asks[i] = (struct vmbus_id){number(), number()};
        owed[i] = (struct vmbus_id){number(), number()};
    }
    struct vmbus_page_end end = {below(6), (uint32_t)number(), below(2) ? 0 : (uint32_t)number()}, old = end;
    struct vmbus_page_run run = {~0u, ~0u, ~0u};
    memcpy(old_slots, slots, sizeof slots), memcpy(old_asks, asks, sizeof asks), memcpy(old_owed, owed, sizeof owed);
    uint32_t a, done = VMBUS_PAGE_DONE;
    uint32_t what = below(10);
    switch (what) {
    case 0:
        a = vmbus_page_store_plan(&end, slots, n, (uint32_t)number(), (uint32_t)number(), (uint32_t)number(), &run), done = VMBUS_PLANNED;
        break;
    case 1: a = vmbus_page_store_done(&end); break;
    case 2: a = vmbus_page_load_plan(&end, slots, n, &run), done = VMBUS_PLANNED; break;
    case 3: a = vmbus_page_load_done(&end); break;
    case 4: a = vmbus_page_send_plan(&end, slots, n, asks, na, owed, no, packet, len), done = VMBUS_PLANNED; break;
    case 5: a = vmbus_page_send_done(&end, slots, n, asks, na, owed, no, packet, len); break;
    case 6: a = vmbus_page_take_plan(&end, slots, n, owed, no), done = VMBUS_PLANNED; break;
    case 7: a = vmbus_page_take_done(&end, slots, n, asks, na, owed, no, packet, len), done = a == VMBUS_TOOK ? a : VMBUS_PAGE_DUE; break;
    case 8: a = vmbus_page_drop(&end); break;
    default: a = vmbus_page_ready(&end) ? VMBUS_PAGE_DONE : 0; same("ready changes the end", memcmp(&old, &end, sizeof end) != 0, 0); return;
    }
    calls++;
    if (a != done && (memcmp(&old, &end, sizeof end) || memcmp(old_slots, slots, sizeof slots) || memcmp(old_asks, asks, sizeof asks) || memcmp(old_owed, owed, sizeof owed) || run.page != ~0u))
        fail("a refusal changes something", what, a);
    if (run.page != ~0u && (run.page >= n || run.at > 4096 || run.bytes > 4096 - run.at || run.bytes == 0 || n > MOST_PAGES))
        fail("a run outside its page", run.page, run.bytes);
    if (memcmp(old_slots + n, slots + n, sizeof slots - n * sizeof *slots) || memcmp(old_asks + na, asks + na, sizeof asks - na * sizeof *asks) || memcmp(old_owed + no, owed + no, sizeof owed - no * sizeof *owed))
        fail("a call past its arrays", what, a);
}

int main(int argc, char **argv)
{
    uint64_t most = argc > 1 ? strtoull(argv[1], NULL, 10) : 2000000;
    seed = argc > 2 ? strtoull(argv[2], NULL, 10) | 1 : 0x9e3779b97f4a7c15;
    while (calls < most / 2)
        channel(below(2) != 0);
    uint64_t beside = calls;
    while (calls < most)
        any_calls();
    printf("pages: %" PRIu64 " answers beside the model, %" PRIu64 " calls on any numbers\n", beside, calls - beside);
    return 0;
}
