/* The words of a channel as an array, for callers that make the steps of its ends themselves. */
#ifndef WORDS_H
#define WORDS_H
#include "vmbus.h"

/* The cells of each ring: a page. */
#define CELLS 512

/* The words of a channel: five header words and the cells of each ring, both signals, both marks. */
#define WORDS (2 * (CELLS + 5) + 4)

/* Where the signal of an end stands among them. Side 0 is the guest, 1 the host. */
#define SIGNAL(side) (2 * (CELLS + 5) + (side))

/* Where the place of a step stands among them. */
static size_t place_of(const struct vmbus_step *step)
{
    size_t ring = step->which * (CELLS + 5);
    if (step->place < 6)
        return ring + step->place - 1;
    if (step->place == 6)
        return ring + 5 + step->at / 8;
    return SIGNAL(0) + (step->place - 7) * 2 + step->which;
}

/* Makes words that are 0 those of a new channel: mask and feature are 1 in both rings. */
static void open_words(uint64_t *words)
{
    words[2] = words[4] = words[CELLS + 7] = words[CELLS + 9] = 1;
}

#endif
