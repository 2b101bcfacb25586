/* Reads and writes messages and packets that were built from Linux's structs, line by line of the files that it is given: what is written of the numbers that were read has to be the same
   bytes. A line is the hex of a control message; or a kind, a tab, the hex of a packet, of a storage packet or of a network message, a tab, and what it is; or `list PAGES FIRST`, which the
   messages of a list of so many page numbers follow, and `end`. */
#include <ctype.h>
#include <inttypes.h>
#include <stdio.h>
#include <stdlib.h>
#include <string.h>
#include "vmbus.h"

#define MOST 4096

static unsigned messages, faults, offers, lists, packets, storage, network;
static const char *at_file;
static unsigned at_line;

static void fail(const char *what)
{
    fprintf(stderr, "%s line %u: %s\n", at_file, at_line, what);
    exit(1);
}

static void same(const void *a, size_t la, const void *b, size_t lb, const char *what)
{
    if (la != lb || memcmp(a, b, la) != 0)
        fail(what);
}

static size_t bytes_of(const char *hex, uint8_t *out)
{
    size_t n = 0;
    for (; isxdigit((unsigned char)hex[0]) && isxdigit((unsigned char)hex[1]) && n < MOST; hex += 2) {
        char two[3] = {hex[0], hex[1], 0};
        out[n++] = (uint8_t)strtoul(two, NULL, 16);
    }
    return n;
}

/* The bytes of a class id: of the five groups of its text the first three are little-endian. */
static void class_id(const char *text, uint8_t *id)
{
    static const int places[] = {3, 2, 1, 0, 5, 4, 7, 6, 8, 9, 10, 11, 12, 13, 14, 15};
    for (int i = 0; i < 16; i++) {
        char two[3] = {text[0], text[1], 0};
        id[places[i]] = (uint8_t)strtoul(two, NULL, 16);
        text += text[2] == '-' ? 3 : 2;
    }
}

/* Offers with the class ids of Linux's include/linux/hyperv.h and net/vmw_vsock/hyperv_transport.c, written number by number, and as offers. */
static void channel_offers(void)
{
    static const struct {
        uint32_t kind, port;
        const char *class_id;
    } kinds[] = {
        {VMBUS_HEARTBEAT, 0, "57164f39-9115-4e78-ab55-382f3bd5422d"}, {VMBUS_SHUTDOWN, 0, "0e0b6031-5213-4934-818b-38d90ced39db"},
        {VMBUS_SCSI, 0, "ba6163d9-04a1-4d29-b605-72e2ffb1dc7f"},      {VMBUS_NETWORK, 0, "f8615163-df3e-46c5-913f-f2d2f965ed0e"},
        {VMBUS_SOCKET, 0, "00000000-facb-11e6-bd58-64006a7986d3"},    {VMBUS_SOCKET, 0x12345678, "12345678-facb-11e6-bd58-64006a7986d3"},
        {VMBUS_KEY_VALUE, 0, "a9a0f4e7-5a45-4d96-b827-8a841e8c03e6"},
    };
    for (size_t i = 0; i < sizeof kinds / sizeof *kinds; i++) {
        uint8_t b[VMBUS_MESSAGE_MOST] = {0}, out[VMBUS_MESSAGE_MOST];
        struct vmbus_offer o = {3 + (uint32_t)i, kinds[i].kind, kinds[i].port, 2 * (uint32_t)i}, again;
        struct vmbus_message m = {.kind = 1, .relid = o.relid, .sub = o.sub, .monitorid = 255, .connection = o.relid};
        size_t n = 0, len = 0;
        class_id(kinds[i].class_id, b + VMBUS_OFFER_IF_TYPE);
        memcpy(b + VMBUS_OFFER_IF_INSTANCE, &o.relid, 4);
        if (vmbus_message_write(&m, b, sizeof b, &n) != VMBUS_WRITTEN || vmbus_offer_write(&o, out, sizeof out, &len) != VMBUS_WRITTEN)
            fail("an offer isn't written");
        same(out, len, b, n, "another offer");
        if (vmbus_offer_read(b, n, &again) != 0)
            fail("an offer isn't read");
        same(&o, sizeof o, &again, sizeof again, "another offer is read");
        b[VMBUS_OFFER_IF_TYPE + 15]++;
        if (vmbus_offer_read(b, n, &again) != 2 || vmbus_offer_read(b, n - 1, &again) != 1)
            fail("no offer is read");
        again = o;
        again.sub += 0x10000;
        o.port += o.kind == VMBUS_SOCKET ? 0 : 1;
        o.kind += o.kind == VMBUS_SOCKET ? 2 : 0;
        if (vmbus_offer_write(&o, out, sizeof out, &len) != VMBUS_NO_FORM || vmbus_offer_write(&again, out, sizeof out, &len) != VMBUS_NO_FORM)
            fail("a number that no offer has is passed over");
        offers++;
    }
}

static struct vmbus_page_list list;
static uint64_t list_pages[VMBUS_LIST_MOST], list_first;
static uint32_t list_number, list_answer, list_want;
static bool in_list;

static void begin_list(const char *words)
{
    memset(&list, 0, sizeof list);
    if (sscanf(words, "%" SCNu32 " %" SCNu64, &list_want, &list_first) != 2)
        fail("no list");
    in_list = true;
    list_number = 0;
    list_answer = VMBUS_LIST_MORE;
}

/* The next message of a list: it is taken, and is the one that is cut of the pages. */
static void list_message(const uint8_t *b, size_t n)
{
    static uint64_t pages[VMBUS_LIST_MOST];
    struct vmbus_fault f;
    uint8_t out[VMBUS_MESSAGE_MOST];
    size_t len = 0;
    for (uint32_t i = 0; i < list_want; i++)
        pages[i] = list_first + i;
    uint32_t live = 7, relid = b[8] | b[9] << 8, handle;
    memcpy(&handle, b + 12, 4);
    if (list_number == 0 && (vmbus_gpadl_take(b, n, &handle, 1, &list, list_pages, list_want, &f) != VMBUS_LIST_REPEAT || f.value != handle))
        fail("a list is taken that is live");
    if (list_number == 0 && (vmbus_gpadl_take(b, n, &live, 1, &list, list_pages, list_want - 1, &f) != VMBUS_LIST_NO_ROOM || f.need != list_want || f.have != list_want - 1))
        fail("a list is taken without room");
    list_answer = vmbus_gpadl_take(b, n, &live, 1, &list, list_pages, list_want, &f);
    if (list_answer > VMBUS_LIST_MORE)
        fail("a list's message isn't taken");
    if (list_number == 0 && relid != list.relid)
        fail("another channel");
    if (vmbus_gpadl_write(list.relid, list.gpadl, pages, list_want, list_number++, out, sizeof out, &len) != VMBUS_WRITTEN)
        fail("a list's message isn't written");
    same(out, len, b, n, "another message of a list");
    messages++;
}

static void end_list(void)
{
    uint8_t out[VMBUS_MESSAGE_MOST];
    size_t len = 0;
    if (list_answer != VMBUS_LIST_WHOLE || list.want != list_want || list.have != list_want || list_pages[0] != list_first || list_pages[list_want - 1] != list_first + list_want - 1)
        fail("the list isn't whole");
    if (vmbus_gpadl_write(list.relid, list.gpadl, list_pages, list_want, list_number, out, sizeof out, &len) != VMBUS_NO_FORM)
        fail("a list has a message more");
    lists++;
    in_list = false;
}

static void control_message(const uint8_t *b, size_t n)
{
    struct vmbus_message m;
    struct vmbus_fault f;
    uint8_t out[VMBUS_MESSAGE_MOST] = {0};
    size_t len = 0;
    if (vmbus_message_read(b, n, &m, &f) != 0) {
        faults++;
        return;
    }
    messages++;
    if (m.kind == 8 || m.kind == 9) /* a page list's, by itself */
        return;
    if (m.kind == 1 || m.kind == 21) {
        memcpy(out + VMBUS_OFFER_IF_TYPE, b + VMBUS_OFFER_IF_TYPE, 16);
        memcpy(out + VMBUS_OFFER_IF_INSTANCE, b + VMBUS_OFFER_IF_INSTANCE, 16);
    }
    if (m.kind == 1)
        memcpy(out + VMBUS_OFFER_USER, b + VMBUS_OFFER_USER, 120);
    if (m.kind == 5)
        memcpy(out + VMBUS_OPEN_USER, b + VMBUS_OPEN_USER, 120);
    if (vmbus_message_write(&m, out, sizeof out, &len) != VMBUS_WRITTEN)
        fail("not written");
    same(out, len, b, n, "another message");
    if (vmbus_message_write(&m, out, sizeof out - 1, &len) != VMBUS_NO_ROOM)
        fail("written into too few bytes");
    m.frames++; /* a number that none of these types has */
    if (vmbus_message_write(&m, out, sizeof out, &len) != VMBUS_NO_FORM)
        fail("a number that the type doesn't have is passed over");
}

static void packet(const char *kind, const uint8_t *b, size_t n)
{
    uint64_t words[MOST / 8], out[VMBUS_PACKET_MOST], frames[VMBUS_PACKET_MOST];
    struct vmbus_packet p;
    struct vmbus_range r;
    struct vmbus_part parts[VMBUS_PACKET_MOST];
    size_t len = 0, count = 0;
    uint32_t a = VMBUS_WRITTEN, offset = 0, bytes = 0;
    memcpy(words, b, n);
    if (vmbus_packet_read(words, n / 8, &p) != 0)
        fail("no packet");
    const uint8_t *payload = b + 8 * (size_t)p.offset8;
    size_t load = n - 8 * (size_t)p.offset8;
    packets++;
    if (strcmp(kind, "in-band") == 0)
        a = vmbus_packet_inband(p.tid, p.flags, payload, load, out, VMBUS_PACKET_MOST, &len);
    else if (strcmp(kind, "completion") == 0)
        a = vmbus_packet_completion(p.tid, payload, load, out, VMBUS_PACKET_MOST, &len);
    else if (strcmp(kind, "gpa-direct") == 0) {
        for (uint32_t at = VMBUS_FIRST_RANGE; vmbus_packet_range(words, n / 8, at, &r) == 0; at = r.frames_at + r.frames) {
            if (count == 0)
                offset = r.offset;
            bytes += r.bytes;
            for (uint32_t i = 0; i < r.frames; i++)
                frames[count++] = words[r.frames_at + i];
        }
        a = vmbus_packet_pages(p.tid, offset, bytes, frames, count, payload, load, out, VMBUS_PACKET_MOST, &len);
    } else if (strcmp(kind, "transfer-pages") == 0) {
        struct vmbus_transfer t;
        if (vmbus_packet_transfer_read(words, n / 8, &t) != 0)
            fail("no packet of type 7");
        for (uint32_t i = 0; i < t.parts; i++)
            if (vmbus_packet_part(words, n / 8, i, &parts[i]) != 0)
                fail("no range");
        if (vmbus_packet_part(words, n / 8, t.parts, &parts[0]) != 2)
            fail("a range more");
        a = vmbus_packet_transfer(p.tid, t.pageset, parts, t.parts, payload, load, out, VMBUS_PACKET_MOST, &len);
    } else
        return;
    if (a != VMBUS_WRITTEN)
        fail("not written");
    same(out, 8 * len, b, n, "another packet");
}

static uint8_t request[VMBUS_STORAGE];

static void storage_packet(const char *kind, const uint8_t *b, size_t n)
{
    struct vmbus_storage s;
    struct vmbus_disk_asked asked;
    struct vmbus_disk_end end;
    uint8_t out[VMBUS_STORAGE];
    storage++;
    if (n != VMBUS_STORAGE || vmbus_storage_read(b, n, &s) != 0
        || vmbus_storage_write(&s, b + VMBUS_STORAGE_REST, 52, out, sizeof out) != VMBUS_WRITTEN)
        fail("no storage packet");
    same(out, sizeof out, b, n, "another storage packet");
    if (s.operation != 1) {
        memcpy(request, b, n);
        if (vmbus_disk_asked(b, n, &asked) != 0) {
            uint32_t first = b[VMBUS_STORAGE_REST] | b[VMBUS_STORAGE_REST + 1] << 8;
            if (vmbus_storage_start(s.operation, first, out, sizeof out) != VMBUS_WRITTEN)
                fail("no step");
            same(out, sizeof out, b, n, "another step");
        } else if (asked.stop == 0 && vmbus_disk_ask(b + 28, 16, asked.command == 5 ? asked.transfer : 0, out, sizeof out) == VMBUS_WRITTEN)
            same(out, sizeof out, b, n, "another request");
        return;
    }
    uint32_t a;
    if (strcmp(kind, "srb") != 0) {
        a = vmbus_storage_answer(request, sizeof request, out, sizeof out);
    } else {
        /* The request of this answer, as far as it can be seen in it: no status yet. */
        uint8_t asks[VMBUS_STORAGE];
        memcpy(asks, b, n);
        asks[0] = 3;
        asks[VMBUS_STORAGE_REST + 2] = 0;
        if (vmbus_disk_asked(asks, sizeof asks, &asked) != 0)
            fail("no request");
        if (vmbus_disk_end(b, n, &end) != 0)
            a = vmbus_disk_stop(asks, sizeof asks, asked.stop, out, sizeof out);
        else if (end.status == 1)
            a = vmbus_disk_good(asks, sizeof asks, asked.command == 5 ? 0 : end.moved, out, sizeof out);
        else
            a = vmbus_disk_check(asks, sizeof asks, end.key, end.asc, end.ascq, out, sizeof out);
    }
    if (a != VMBUS_WRITTEN)
        fail("no answer");
    same(out, sizeof out, b, n, "another answer");
}

static void nvsp(const uint8_t *b, size_t n)
{
    struct vmbus_nvsp m;
    struct vmbus_fault f;
    uint8_t out[VMBUS_NVSP];
    network++;
    if (vmbus_nvsp_read(b, n, &m, &f) != 0 || vmbus_nvsp_write(&m, out, sizeof out) != VMBUS_WRITTEN)
        fail("no NVSP message");
    same(out, sizeof out, b, n, "another NVSP message");
    if (vmbus_nvsp_write(&m, out, sizeof out - 1) != VMBUS_NO_ROOM)
        fail("written into too few bytes");
}

static void rndis(const uint8_t *b, size_t n, bool canonical, bool good)
{
    struct vmbus_rndis m;
    struct vmbus_fault f;
    uint8_t body[1514], out[1600];
    size_t len = 0;
    network++;
    if ((vmbus_rndis_read(b, n, &m, body, sizeof body, &f) == 0) != good)
        fail("read, or not read");
    if (!canonical)
        return;
    if (vmbus_rndis_write(&m, body, m.body_len, out, n, &len) != VMBUS_WRITTEN)
        fail("not written");
    same(out, len, b, n, "another Remote NDIS message");
    if (vmbus_rndis_write(&m, body, m.body_len, out, n - 1, &len) != VMBUS_NO_ROOM || len != n)
        fail("written into too few bytes");
}

static bool is_any(const char *kind, const char *const *kinds)
{
    for (; *kinds; kinds++)
        if (strcmp(kind, *kinds) == 0)
            return true;
    return false;
}

static void line(char *text)
{
    static const char *const of_packets[] = {"in-band", "completion", "gpa-direct", "transfer-pages", NULL};
    static const char *const of_nvsp[] = {"init", "init-complete", "receive-buffer", "send-buffer", "rndis", "rndis-complete", NULL};
    static const char *const of_storage[] = {"begin-initialization", "enumerate-bus", "query-protocol", "create-sub-channels", "srb", NULL};
    static uint8_t b[MOST];
    char *hex = strchr(text, '\t'), *meaning = hex ? strchr(hex + 1, '\t') : NULL;
    if (strncmp(text, "list ", 5) == 0) {
        begin_list(text + 5);
        return;
    }
    if (strncmp(text, "end", 3) == 0) {
        end_list();
        return;
    }
    if (!hex) {
        size_t n = bytes_of(text, b);
        if (in_list)
            list_message(b, n);
        else
            control_message(b, n);
        return;
    }
    *hex++ = 0;
    size_t n = bytes_of(hex, b);
    if (is_any(text, of_packets))
        packet(text, b, n);
    else if (is_any(text, of_storage))
        storage_packet(text, b, n);
    else if (is_any(text, of_nvsp))
        nvsp(b, n);
    else if (strcmp(text, "canonical") == 0 || strcmp(text, "decode") == 0)
        rndis(b, n, text[0] == 'c', meaning && strncmp(meaning + 1, "good", 4) == 0);
}

/* The versions that a guest tries, each after the one before was refused. */
static void versions(void)
{
    static const uint32_t all[] = {VMBUS_VERSION(5, 3), VMBUS_VERSION(5, 2), VMBUS_VERSION(5, 1), VMBUS_VERSION(5, 0), VMBUS_VERSION(4, 1), VMBUS_VERSION(4, 0), VMBUS_VERSION(3, 0), VMBUS_VERSION(2, 4), 0};
    for (int i = 0; all[i]; i++) {
        if (vmbus_version_next(all[i]) != all[i + 1] || vmbus_version_next(all[i] + 1) != (i == 1 || i == 2 || i == 3 || i == 5 ? all[i] : 0))
            fail("another version comes next");
        for (int j = 0; all[j]; j++)
            if (vmbus_version_agree(all[i], all[j]) != all[i > j ? i : j] || vmbus_version_accepts(all[i], all[j]) != (i <= j))
                fail("another version is agreed on");
        if (vmbus_version_has_modify(all[i]) != (i <= 4) || vmbus_version_answers_modify(all[i]) != (i == 0))
            fail("MODIFYCHANNEL at another version");
    }
}

int main(int argc, char **argv)
{
    versions();
    channel_offers();
    static char text[1 << 16];
    for (int i = 1; i < argc; i++) {
        FILE *file = fopen(argv[i], "r");
        at_file = argv[i];
        at_line = 0;
        if (!file)
            fail("no such file");
        while (fgets(text, sizeof text, file)) {
            at_line++;
            if (text[0] != '#' && text[0] != '\n')
                line(text);
        }
        fclose(file);
    }
    printf("%u messages and %u refusals, %u offers, %u page lists, %u packets, %u storage packets, %u network messages: each is written as it was read\n", messages, faults, offers, lists, packets,
           storage, network);
    return 0;
}
