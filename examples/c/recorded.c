/* Records the two ends of a channel: each in a thread, step by step on the words that both share. Writes their calls and steps as `vmbus trace` reads them, which says whether they are a run:

       ./recorded | ../../vmbus trace

   A step and its line are made under one lock, so that the lines come in the order of the steps. With a word as its argument it is a guest with a fault: it raises no signal, though its
   lines say so, and the record is no run once its peer looks for that signal. */
#include <inttypes.h>
#include <pthread.h>
#include <sched.h>
#include <stdio.h>
#include <string.h>
#include "vmbus.h"
#include "words.h"

#define PACKETS 40

static uint64_t words[WORDS];
static pthread_mutex_t turn = PTHREAD_MUTEX_INITIALIZER;
static int faulty;

/* Lets the other thread make a step. */
static void give_way(void)
{
    pthread_mutex_unlock(&turn);
    sched_yield();
    pthread_mutex_lock(&turn);
}

static void say(const struct vmbus_end *end, const char *call, const uint64_t *packet, size_t len)
{
    printf("call %s %s", end->side ? "host" : "guest", call);
    for (size_t i = 0; i < len; i++)
        printf("%c%016" PRIx64, i ? ',' : ' ', packet[i]);
    printf("\n");
}

/* Makes the steps of the call that has begun. The lock is held, but between two steps. */
static void run(struct vmbus_end *end, const uint64_t *packet, size_t len, uint64_t *taken)
{
    struct vmbus_step step;
    uint8_t line[VMBUS_LINE];
    while (vmbus_end_next(end, packet, len, &step)) {
        uint64_t *word = &words[place_of(&step)], value = 0;
        if (step.op == 1)
            value = *word;
        else if (step.op == 4)
            value = *word, *word = 0;
        else if (step.op != 3 || end->side || !faulty)
            *word = step.value;
        fwrite(line, 1, vmbus_end_step_line(end, packet, len, value, line, sizeof line), stdout);
        if (step.op == 1 && step.place == 6)
            taken[end->done] = value;
        vmbus_end_feed(end, value);
        give_way();
    }
}

/* Sleeps until there is a packet, or room for one of these words. False where the signal of a faulty guest doesn't come. */
static int rest(struct vmbus_end *end, size_t len)
{
    uint64_t none[CELLS];
    char arm[32] = "arm";
    if (len)
        snprintf(arm, sizeof arm, "arm %zu", 8 * len + 8);
    say(end, arm, NULL, 0);
    vmbus_end_begin_arm(end, len ? 8 * len + 8 : 0);
    run(end, NULL, 0, none);
    for (int polls = 0; end->asleep && (!faulty || polls < 100000); polls++) {
        /* A look that finds the signal down says nothing of the run: only every thousandth is made a poll. */
        if (polls % 1000 == 999 || words[SIGNAL(end->side)]) {
            say(end, "poll", NULL, 0);
            vmbus_end_begin_poll(end);
            run(end, NULL, 0, none);
        }
        give_way();
    }
    return !end->asleep;
}

static void *guest(void *unused)
{
    static struct vmbus_end end;
    static uint64_t none[CELLS];
    pthread_mutex_lock(&turn);
    vmbus_end_make(&end, 0, 8 * CELLS);
    for (uint64_t i = 0; i < PACKETS;) {
        uint64_t packet[60] = {(uint64_t)60 << 32 | 2 << 16 | 6, i, i * i};
        say(&end, "send", packet, 60);
        vmbus_end_begin_send(&end, 60);
        run(&end, packet, 60, none);
        if (end.ended != VMBUS_FULL)
            i++;
        else if (!rest(&end, 60))
            break;
    }
    if (!end.asleep) {
        say(&end, "mark", NULL, 0);
        vmbus_end_begin_mark(&end);
        run(&end, NULL, 0, none);
    }
    pthread_mutex_unlock(&turn);
    return unused;
}

static void *host(void *unused)
{
    static struct vmbus_end end;
    static uint64_t taken[CELLS];
    pthread_mutex_lock(&turn);
    vmbus_end_make(&end, 1, 8 * CELLS);
    for (int got = 0; got < PACKETS;) {
        say(&end, "take", NULL, 0);
        vmbus_end_begin_take(&end);
        run(&end, NULL, 0, taken);
        if (end.ended == VMBUS_TOOK) {
            got++;
            continue;
        }
        say(&end, "commit", NULL, 0);
        vmbus_end_begin_commit(&end);
        run(&end, NULL, 0, taken);
        if (!rest(&end, 0))
            break;
    }
    pthread_mutex_unlock(&turn);
    return unused;
}

int main(int count, char **unused)
{
    pthread_t a, b;
    (void)unused;
    faulty = count > 1;
    open_words(words);
    if (pthread_create(&a, NULL, guest, NULL) || pthread_create(&b, NULL, host, NULL))
        return 1;
    pthread_join(a, NULL);
    pthread_join(b, NULL);
    return 0;
}
