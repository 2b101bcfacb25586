/* Reads a control message and a packet, answers a heartbeat, and sends a packet through the words of a channel. */
#include <inttypes.h>
#include <stdio.h>
#include <string.h>
#include "vmbus.h"
#include "words.h"

/* Makes the steps of the call under way. The words of a packet that is taken are those that the steps on cells loaded. */
static void run(struct vmbus_end *end, uint64_t *words, const uint64_t *packet, size_t len, uint64_t *taken) {
    struct vmbus_step step;
    while (vmbus_end_next(end, packet, len, &step)) {
        uint64_t *word = &words[place_of(&step)], value = 0;
        if (step.op == 1)
            value = __atomic_load_n(word, __ATOMIC_SEQ_CST);
        else if (step.op == 4)
            value = __atomic_exchange_n(word, 0, __ATOMIC_SEQ_CST);
        else
            __atomic_store_n(word, step.value, __ATOMIC_SEQ_CST);
        if (step.op == 1 && step.place == 6)
            taken[end->done] = value;
        vmbus_end_feed(end, value);
    }
}

static void pass(const uint64_t *packet, size_t len) {
    static uint64_t words[WORDS], taken[CELLS];
    struct vmbus_end guest, host;
    if (!vmbus_end_make(&guest, 0, 8 * CELLS) || !vmbus_end_make(&host, 1, 8 * CELLS))
        return;
    open_words(words);
    if (vmbus_end_begin_send(&guest, len))
        run(&guest, words, packet, len, taken);
    if (vmbus_end_begin_take(&host))
        run(&host, words, NULL, 0, taken);
    printf("sent: ended %" PRIu32 ", took: ended %" PRIu32 ", %" PRIu32 " words, %s\n", guest.ended, host.ended, host.words,
           memcmp(packet, taken, 8 * len) == 0 ? "the same" : "others");
    if (vmbus_end_begin_commit(&host))
        run(&host, words, NULL, 0, taken);
}

int main(void) {
    const uint8_t rescind[12] = {2, 0, 0, 0, 0, 0, 0, 0, 7, 0, 0, 0};
    struct vmbus_message message;
    struct vmbus_fault fault;
    if (vmbus_message_read(rescind, sizeof rescind, &message, &fault) == 0)
        printf("message %" PRIu32 " of relid %" PRIu32 "\n", message.kind, message.relid);
    uint32_t why = vmbus_message_read(rescind, 11, &message, &fault);
    printf("11 bytes: refusal %" PRIu32 ", %" PRIu32 " of %" PRIu32 "\n", why, fault.have, fault.need);
    why = vmbus_message_read(NULL, 0, &message, &fault);
    printf("no bytes: refusal %" PRIu32 ", %" PRIu32 " of %" PRIu32 "\n", why, fault.have, fault.need);

    const uint64_t words[3] = {0x0000000300020006, 5, 9};
    struct vmbus_packet packet;
    if (vmbus_packet_read(words, 3, &packet) == 0)
        printf("packet of type %" PRIu32 " under id %" PRIu64 ", payload from word %" PRIu32 "\n", packet.kind, packet.tid, packet.offset8);

    uint8_t request[28], reply[64];
    memset(request, 0, sizeof request);
    printf("a heartbeat's answer has %zu bytes\n", vmbus_heartbeat_answer(request, sizeof request, reply, sizeof reply));
    printf("signals: %d, %" PRIu32 "\n", vmbus_raise_on_write(96, 0, 96), vmbus_raise_on_commit(4096, 4000, 0, 96, 95));
    pass(words, 3);
    return 0;
}
