/* A heartbeat between two processes: both ends of a channel over pages that they share, with Linux's layout, each asleep on its own signal where it has nothing to do. The host asks, and the guest
   answers. The ends are those by plans (crates/ring_call_plan_c), the answers are crates/vmbus_c's. For Linux: memfd_create, mmap, eventfd, fork. */
#define _GNU_SOURCE
#define PAGE 4096
#define RING (4 * PAGE) /* bytes of data of each ring */
#define BEATS 100000
#define BEAT_BYTES 68   /* a heartbeat: 28 bytes of headers, a sequence number, 32 reserved bytes */
#define BEAT_WORDS 11   /* its packet: two words of descriptor, nine of payload */
#include "side.h"

/* The first word of a packet in band of so many words: its type, where its payload begins, and its length. */
static uint64_t head(uint32_t words)
{
    return 6 | 2 << 16 | (uint64_t)words << 32;
}

static void guest(struct side *s)
{
    for (unsigned long i = 0; i < BEATS; i++) {
        uint64_t answer[BEAT_WORDS] = {head(BEAT_WORDS)};
        take_packet(s);
        struct vmbus_packet p;
        if (vmbus_packet_read(s->packet, s->len, &p) != 0 || p.len8 != BEAT_WORDS)
            fail("no heartbeat", s->len);
        answer[1] = p.tid;
        uint8_t *request = (uint8_t *)(s->packet + s->offset);
        if (vmbus_heartbeat_answer(request, 8 * (p.len8 - p.offset8), (uint8_t *)(answer + 2), sizeof answer - 16) != sizeof answer - 16)
            fail("no answer", 0);
        send_packet(s, answer);
    }
}

static void host(struct side *s)
{
    for (uint64_t i = 0; i < BEATS; i++) {
        uint64_t beat[BEAT_WORDS] = {head(BEAT_WORDS), i}, risen;
        uint8_t *bytes = (uint8_t *)(beat + 2);
        bytes[4] = BEAT_BYTES - 8;      /* the bytes behind the pipe's header */
        bytes[8] = bytes[14] = 3;       /* the versions of the frame and of the message */
        bytes[12] = 1;                  /* a heartbeat */
        bytes[18] = 40;                 /* the bytes behind the headers */
        bytes[25] = 3;                  /* a transaction, and a request */
        memcpy(bytes + 28, &i, 8);
        send_packet(s, beat);
        take_packet(s);
        uint8_t *reply = (uint8_t *)(s->packet + s->offset);
        memcpy(&risen, reply + 28, 8);
        if (s->len != BEAT_WORDS || s->packet[1] != i || risen != i + 1 || reply[20] != 0)
            fail("a wrong answer", s->len);
    }
}

int main(void)
{
    struct channel c = new_channel(0);
    static struct side s;
    pid_t child = split_channel(&c, &s);
    if (!child) {
        guest(&s);
        return 0;
    }
    host(&s);
    wait_for_guest(child);
    printf("%d heartbeats between two processes; the host slept %lu times\n", BEATS, s.sleeps);
    return 0;
}
