/* A storage guest: it starts the channel, asks what the disk is, writes blocks of its own pages and reads them again, and hears what is refused. storage_host.c starts it, with the file
   descriptors of the shared pages and of both signals. */
#define _GNU_SOURCE
#include "storage.h"

static uint64_t last_tid;

/* Sends a packet and takes its completion: the storage packet in it. */
static void exchange(struct side *s, const uint64_t *packet, uint8_t answer[VMBUS_STORAGE])
{
    const uint8_t *payload;
    size_t bytes;
    send_packet(s, packet);
    if (!take_packet(s))
        fail("the host went away", 0);
    struct vmbus_packet p = descriptor(s, &payload, &bytes);
    if (p.kind != 11 || p.tid != last_tid || bytes < VMBUS_STORAGE)
        fail("no completion", p.kind);
    memcpy(answer, payload, VMBUS_STORAGE);
}

/* A step of the start-up: the numbers of the answer, and its 52 bytes in `rest`. */
static struct vmbus_storage step(struct side *s, uint32_t operation, uint32_t first, uint8_t rest[52])
{
    uint8_t request[VMBUS_STORAGE], answer[VMBUS_STORAGE];
    uint64_t packet[VMBUS_PACKET_MOST];
    size_t len;
    struct vmbus_storage told;
    if (vmbus_storage_start(operation, first, request, sizeof request) != VMBUS_WRITTEN
        || vmbus_packet_inband(++last_tid, 1, request, sizeof request, packet, VMBUS_PACKET_MOST, &len) != VMBUS_WRITTEN)
        fail("no step", operation);
    exchange(s, packet, answer);
    if (vmbus_storage_read(answer, sizeof answer, &told) != 0 || told.operation != 1)
        fail("no answer to step", operation);
    memcpy(rest, answer + VMBUS_STORAGE_REST, 52);
    return told;
}

/* A command to the disk, whose data are so many bytes from `offset` on in the first of these pages. */
static struct vmbus_disk_end ask(struct side *s, const uint8_t cdb[16], uint32_t goes, uint32_t offset, uint32_t bytes, const uint64_t *pages, size_t count)
{
    uint8_t request[VMBUS_STORAGE], answer[VMBUS_STORAGE];
    uint64_t packet[VMBUS_PACKET_MOST];
    size_t len;
    struct vmbus_disk_end end;
    uint32_t a = vmbus_disk_ask(cdb, 16, goes, request, sizeof request);
    if (a == VMBUS_WRITTEN && count == 0)
        a = vmbus_packet_inband(++last_tid, 1, request, sizeof request, packet, VMBUS_PACKET_MOST, &len);
    else if (a == VMBUS_WRITTEN)
        a = vmbus_packet_pages(++last_tid, offset, bytes, pages, count, request, sizeof request, packet, VMBUS_PACKET_MOST, &len);
    if (a != VMBUS_WRITTEN)
        fail("no request", a);
    exchange(s, packet, answer);
    if ((a = vmbus_disk_end(answer, sizeof answer, &end)) != 0)
        fail("no end of a request", a);
    return end;
}

/* READ (10) and WRITE (10): the code, the first block and how many, big-endian. */
static void ten(uint8_t cdb[16], uint8_t code, uint32_t lba, uint32_t count)
{
    uint8_t made[16] = {code, 0, lba >> 24, lba >> 16, lba >> 8, lba, 0, count >> 8, count};
    memcpy(cdb, made, 16);
}

static void start_up(struct side *s)
{
    uint8_t rest[52];
    if (step(s, 7, 0, rest).status != 0)
        fail("the start-up doesn't begin", 0);
    if (step(s, 9, 0x0700, rest).status == 0 || step(s, 9, 0x0602, rest).status != 0)
        fail("the version isn't as it should be", 0);
    if (step(s, 10, 0, rest).status != 0)
        fail("no properties", 0);
    printf("guest: version 6.2, %d bytes a request at most\n", rest[12] | rest[13] << 8);
    if (step(s, 8, 0, rest).status != 0)
        fail("the start-up doesn't end", 0);
}

int main(int argc, char **argv)
{
    if (argc != 4)
        fail("usage: storage_host storage_guest", 0);
    static struct side s;
    struct shared *m = map_shared(atoi(argv[1]));
    open_side(&s, m, 0, atoi(argv[2]), atoi(argv[3]));
    start_up(&s);

    uint64_t page = 0;
    uint8_t cdb[16] = {0x12, 0, 0, 0, 36}; /* INQUIRY, 36 bytes at most */
    struct vmbus_disk_end end = ask(&s, cdb, 0, 0, 36, &page, 1);
    printf("guest: inquiry: status %" PRIu32 ", %" PRIu32 " bytes, vendor %.8s\n", end.status, end.moved, (char *)m->pages[0] + 8);
    ten(cdb, 0x25, 0, 0); /* READ CAPACITY (10) */
    end = ask(&s, cdb, 0, 0, 8, &page, 1);
    const uint8_t *c = m->pages[0];
    uint32_t blocks = ((uint32_t)c[0] << 24 | c[1] << 16 | c[2] << 8 | c[3]) + 1;

    /* Each request is 8 blocks, in two pages that don't follow each other, from byte 512 of the first on. */
    for (uint32_t lba = 0; lba + 8 <= blocks; lba += 8) {
        uint64_t two[2] = {1 + lba / 8 % 31, 40 + lba / 8 % 7}, other[2] = {9, 50};
        for (uint32_t i = 0; i < 8 * 512; i++)
            m->pages[two[i + 512 >= PAGE]][(i + 512) % PAGE] = (uint8_t)(i * 7 + lba);
        ten(cdb, 0x2a, lba, 8);
        end = ask(&s, cdb, 8 * 512, 512, 8 * 512, two, 2);
        if (end.status != 1 || end.moved != 8 * 512)
            fail("a write", end.status);
        memset(m->pages[9], 0, PAGE);
        memset(m->pages[50], 0, PAGE);
        ten(cdb, 0x28, lba, 8);
        end = ask(&s, cdb, 0, 512, 8 * 512, other, 2);
        for (uint32_t i = 0; i < 8 * 512; i++)
            if (m->pages[other[i + 512 >= PAGE]][(i + 512) % PAGE] != (uint8_t)(i * 7 + lba))
                fail("another byte in block", lba);
    }
    printf("guest: %" PRIu32 " blocks written and read\n", blocks / 8 * 8);
    ten(cdb, 0x28, blocks, 1);
    end = ask(&s, cdb, 0, 0, 512, &page, 1);
    printf("guest: a read past the end: status 0x%" PRIx32 ", sense %" PRIu32 "/0x%" PRIx32 "/%" PRIu32 "\n", end.status, end.key, end.asc, end.ascq);
    if (vmbus_ring_mark(&s.end, &m->guest_mark) == VMBUS_MARKED)
        raise_peer(&s);
    return 0;
}
