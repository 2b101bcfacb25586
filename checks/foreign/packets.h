/* Packets, each by its number among those of its way: way 0 is ours to the other end, way 1 the other's to us. */
#ifndef PACKETS_H
#define PACKETS_H
#include <inttypes.h>
#include <stdio.h>
#include <stdlib.h>
#include <string.h>

#define MOST_WORDS 512 /* of a packet */

static uint32_t ring_bytes;

static void fail(const char *what, uint64_t number)
{
    printf("%s (%" PRIu64 "), rings of %" PRIu32 " bytes\n", what, number, ring_bytes);
    exit(1);
}

static uint64_t mixed(uint64_t x)
{
    x += 0x9e3779b97f4a7c15;
    x = (x ^ x >> 30) * 0xbf58476d1ce4e5b9;
    x = (x ^ x >> 27) * 0x94d049bb133111eb;
    return x ^ x >> 31;
}

static uint32_t words_of(uint64_t way, uint64_t k)
{
    uint64_t r = mixed(way << 60 | k), most = ring_bytes / 8 - 2 < MOST_WORDS ? ring_bytes / 8 - 2 : MOST_WORDS;
    return 2 + (uint32_t)(r >> 8) % (r & 7 ? 30 : most - 1);
}

static uint32_t make_packet(uint64_t way, uint64_t k, uint64_t *p)
{
    uint32_t len = words_of(way, k);
    p[0] = 6 | 2 << 16 | (uint64_t)len << 32;
    p[1] = k;
    for (uint32_t i = 2; i < len; i++)
        p[i] = mixed(way << 60 ^ k << 20 ^ i);
    return len;
}

static void compare(uint64_t way, uint64_t k, const uint64_t *p, uint32_t len)
{
    uint64_t wanted[MOST_WORDS];
    if (len != make_packet(way, k, wanted) || memcmp(p, wanted, 8 * len) != 0)
        fail("a packet isn't the one that was sent", k);
}
#endif
