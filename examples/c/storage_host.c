/* A storage host: a disk in memory behind a channel. It starts storage_guest.c's program, which is its argument, shares pages and two signals with it, and serves until the guest says that
   it sends nothing more. The guest is not trusted: each packet is taken into private memory and tested, and each page frame number too. */
#define _GNU_SOURCE
#include "storage.h"

#define BLOCKS 2048
#define MOST 4096 /* bytes that a request moves */

static uint8_t disk[BLOCKS][512];
static unsigned long served;

/* Copies so many bytes between the pages that a packet names, in order, and private memory. False where it names fewer bytes, or a page that the guest doesn't have. */
static bool move(const struct side *s, struct shared *m, uint8_t *data, uint32_t bytes, bool to_guest)
{
    struct vmbus_range r;
    for (uint32_t at = VMBUS_FIRST_RANGE; bytes > 0; at = r.frames_at + r.frames) {
        if (vmbus_packet_range(s->packet, s->len, at, &r) != 0)
            return false;
        uint64_t place = r.offset, end = place + r.bytes;
        while (place < end && bytes > 0) {
            uint64_t frame = s->packet[r.frames_at + place / PAGE];
            uint32_t part = PAGE - place % PAGE;
            if (part > end - place)
                part = end - place;
            if (part > bytes)
                part = bytes;
            if (frame >= PAGES)
                return false;
            uint8_t *page = m->pages[frame] + place % PAGE;
            memcpy(to_guest ? page : data, to_guest ? data : page, part);
            data += part;
            place += part;
            bytes -= part;
        }
    }
    return true;
}

/* Serves a command, and writes the answer to the storage packet with which it came. */
static uint32_t serve(const struct side *s, struct shared *m, const uint8_t *request, const struct vmbus_disk_asked *asked, uint8_t answer[VMBUS_STORAGE])
{
    static uint8_t data[MOST];
    uint32_t back = 0;
    bool in_range = asked->lba <= BLOCKS && asked->count <= BLOCKS - asked->lba;
    if (asked->stop != 0)
        return vmbus_disk_stop(request, VMBUS_STORAGE, asked->stop, answer, VMBUS_STORAGE);
    switch (asked->command) {
    case 1: /* TEST UNIT READY */
    case 6: /* SYNCHRONIZE CACHE */
        break;
    case 2: /* INQUIRY */
        if (!asked->plain)
            return vmbus_disk_check(request, VMBUS_STORAGE, 5, 0x24, 0, answer, VMBUS_STORAGE);
        memset(data, 0, 36);
        data[2] = 5;
        data[4] = 31;
        memcpy(data + 8, "C       A disk          1   ", 28);
        back = asked->allocation < 36 ? (uint32_t)asked->allocation : 36;
        break;
    case 3: /* READ CAPACITY (10) */
        memcpy(data, (uint8_t[]){0, 0, (BLOCKS - 1) >> 8, (BLOCKS - 1) & 255, 0, 0, 2, 0}, 8);
        back = 8;
        break;
    case 4: /* READ */
    case 5: /* WRITE */
        if (asked->count > MOST / 512)
            return vmbus_disk_check(request, VMBUS_STORAGE, 5, 0x24, 0, answer, VMBUS_STORAGE);
        if (!in_range)
            return vmbus_disk_check(request, VMBUS_STORAGE, 5, 0x21, 0, answer, VMBUS_STORAGE);
        if (asked->command == 4) {
            back = 512 * (uint32_t)asked->count;
            memcpy(data, disk[asked->lba], back);
        } else {
            if (asked->transfer != 512 * asked->count || !move(s, m, data, asked->transfer, false))
                return vmbus_disk_check(request, VMBUS_STORAGE, 5, 0x24, 0, answer, VMBUS_STORAGE);
            memcpy(disk[asked->lba], data, asked->transfer);
        }
        break;
    default:
        return vmbus_disk_check(request, VMBUS_STORAGE, 5, 0x20, 0, answer, VMBUS_STORAGE);
    }
    if (!move(s, m, data, back, true))
        return vmbus_disk_check(request, VMBUS_STORAGE, 5, 0x24, 0, answer, VMBUS_STORAGE);
    return vmbus_disk_good(request, VMBUS_STORAGE, back, answer, VMBUS_STORAGE);
}

static void host(struct side *s, struct shared *m)
{
    while (take_packet(s)) {
        const uint8_t *payload;
        size_t bytes, len;
        uint64_t completion[VMBUS_PACKET_MOST];
        uint8_t answer[VMBUS_STORAGE];
        struct vmbus_disk_asked asked;
        struct vmbus_packet p = descriptor(s, &payload, &bytes);
        struct vmbus_storage request;
        uint32_t a = vmbus_storage_read(payload, bytes, &request);
        if (a != 0)
            fail("no storage packet", a);
        if (vmbus_disk_asked(payload, bytes, &asked) == 0)
            a = serve(s, m, payload, &asked, answer);
        else
            a = vmbus_storage_answer(payload, bytes, answer, sizeof answer);
        if (a != VMBUS_WRITTEN)
            fail("no answer", a);
        served++;
        if ((p.flags & 1) == 0)
            continue;
        if (vmbus_packet_completion(p.tid, answer, sizeof answer, completion, VMBUS_PACKET_MOST, &len) != VMBUS_WRITTEN)
            fail("no completion", 0);
        send_packet(s, completion);
    }
}

int main(int argc, char **argv)
{
    int memory = memfd_create("channel", 0), guest_signal = eventfd(0, 0), host_signal = eventfd(0, 0);
    if (argc != 2 || memory < 0 || guest_signal < 0 || host_signal < 0 || ftruncate(memory, sizeof(struct shared)) != 0)
        fail("usage: storage_host storage_guest", 0);
    struct shared *m = map_shared(memory);
    static struct side s;
    open_side(&s, m, 1, guest_signal, host_signal);
    /* A new channel: all is 0, but that nobody sleeps, and that pending counts. */
    s.in.head->mask = s.out.head->mask = 1;
    s.in.head->feature = s.out.head->feature = 1;
    fflush(stdout);
    pid_t child = fork();
    if (child == 0) {
        char words[3][16];
        snprintf(words[0], 16, "%d", memory);
        snprintf(words[1], 16, "%d", guest_signal);
        snprintf(words[2], 16, "%d", host_signal);
        execl(argv[1], argv[1], words[0], words[1], words[2], (char *)NULL);
        _exit(1);
    }
    if (child < 0)
        fail("no second process", 0);
    host(&s, m);
    wait_for_guest(child);
    printf("host: %lu packets served\n", served);
    return 0;
}
