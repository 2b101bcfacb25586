/* Times of the readers and writers for C: how many rounds have so many calls each. A line says what was read or written, the picoseconds a call, and the thousandths of a byte that a message has. */
#define _GNU_SOURCE
#include <inttypes.h>
#include <stdio.h>
#include <stdlib.h>
#include <string.h>
#include <time.h>
#include "vmbus.h"

#define TYPES 17
#define MOST 256
#define FRAME 1514

static uint8_t bytes[TYPES][MOST];
static size_t lengths[TYPES];

static void fail(const char *what)
{
    fprintf(stderr, "messages: %s\n", what);
    exit(1);
}

static uint64_t now(void)
{
    struct timespec t;
    clock_gettime(CLOCK_MONOTONIC, &t);
    return 1000000000 * (uint64_t)t.tv_sec + (uint64_t)t.tv_nsec;
}

/* One message of each type from 1 to 17, whose fields are 0, but for the range of a list of one page: as long as the reader asks. How many there are. */
static size_t make_messages(void)
{
    struct vmbus_message message;
    struct vmbus_fault fault;
    size_t count = 0;
    for (uint32_t type = 1; type <= TYPES; type++) {
        uint8_t *it = bytes[count];
        size_t len = 8;
        memset(it, 0, MOST);
        memcpy(it, &type, 4);
        if (type == 8) /* a list of pages: range_buflen 16, one range of 4,096 bytes */
            it[16] = 16, it[18] = 1, it[21] = 16;
        uint32_t why;
        while ((why = vmbus_message_read(it, len, &message, &fault)) == 1 && fault.need > len && fault.need <= MOST)
            len = fault.need;
        if (why == 0)
            lengths[count++] = len;
    }
    return count;
}

static void tell(const char *what, uint64_t best, uint64_t calls, uint64_t size)
{
    printf("%s %" PRIu64 " %" PRIu64 "\n", what, 1000 * best / calls, size);
}

int main(int count, char **words)
{
    uint64_t calls = count > 1 ? strtoull(words[1], NULL, 10) : 100, rounds = count > 2 ? strtoull(words[2], NULL, 10) : 1, best = UINT64_MAX, sum = 0, size = 0;
    struct vmbus_message message;
    struct vmbus_fault fault;
    size_t many = make_messages();
    if (many < TYPES - 2 || calls == 0)
        fail("no messages");
    for (size_t i = 0; i < many; i++)
        size += lengths[i];
    for (uint64_t r = 0; r < rounds; r++) {
        uint64_t start = now();
        for (uint64_t i = 0; i < calls; i++)
            for (size_t k = 0; k < many; k++) {
                if (vmbus_message_read(bytes[k], lengths[k], &message, &fault) != 0)
                    fail("a message isn't read");
                sum += message.kind;
            }
        uint64_t took = now() - start;
        best = took < best ? took : best;
    }
    tell("a control message read", best, calls * many, 1000 * size / many);

    /* those of a page list have a writer of their own */
    static struct vmbus_message messages[TYPES];
    static uint8_t out[VMBUS_MESSAGE_MOST];
    size_t kept = 0, len, kept_size = 0;
    for (size_t k = 0; k < many; k++)
        if (vmbus_message_read(bytes[k], lengths[k], &messages[kept], &fault) == 0 && vmbus_message_write(&messages[kept], out, sizeof out, &len) == 0)
            kept++, kept_size += len;
    if (kept < TYPES - 4)
        fail("no messages are written");
    best = UINT64_MAX;
    for (uint64_t r = 0; r < rounds; r++) {
        uint64_t start = now();
        for (uint64_t i = 0; i < calls; i++)
            for (size_t k = 0; k < kept; k++) {
                if (vmbus_message_write(&messages[k], out, sizeof out, &len) != 0)
                    fail("a message isn't written");
                sum += out[i % len];
            }
        uint64_t took = now() - start;
        best = took < best ? took : best;
    }
    tell("a control message (no page list) written", best, calls * kept, 1000 * kept_size / kept);

    static uint8_t packet[44 + FRAME], body[FRAME];
    struct vmbus_rndis rndis;
    uint32_t head[11] = {1, sizeof packet, 36, FRAME};
    memcpy(packet, head, sizeof head);
    best = UINT64_MAX;
    for (uint64_t r = 0; r < rounds; r++) {
        uint64_t start = now();
        for (uint64_t i = 0; i < calls; i++) {
            if (vmbus_rndis_read(packet, sizeof packet, &rndis, body, sizeof body, &fault) != 0 || rndis.body_len != FRAME)
                fail("a frame isn't read");
            sum += body[i % FRAME];
        }
        uint64_t took = now() - start;
        best = took < best ? took : best;
    }
    tell("a Remote NDIS frame of 1,514 bytes read", best, calls, 1000 * sizeof packet);

    best = UINT64_MAX;
    for (uint64_t r = 0; r < rounds; r++) {
        uint64_t start = now();
        for (uint64_t i = 0; i < calls; i++) {
            if (vmbus_rndis_write(&rndis, body, FRAME, packet, sizeof packet, &len) != 0 || len != sizeof packet)
                fail("a frame isn't written");
            sum += packet[i % sizeof packet];
        }
        uint64_t took = now() - start;
        best = took < best ? took : best;
    }
    tell("a Remote NDIS frame of 1,514 bytes written", best, calls, 1000 * sizeof packet);
    return sum == 1; /* so that what was read and written counts */
}
