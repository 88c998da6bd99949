/* See peer_pairing.h. */
#include <string.h>
#include "peer_pairing.h"

enum { MOST = HT_MOST_TICKETS, TRUCKS = 1024 };

/* what pairing looks at in a ticket */
typedef struct { uint32_t truck, tipped; } tipping;

static inline uint64_t rd64(const uint8_t *p)
{
    uint64_t x;
    memcpy(&x, p, 8);
    return __builtin_bswap64(x);
}

/* Whether the 13 bytes are a ticket of form 1 or 2 that keeps the rule. */
static inline int unpack(const uint8_t *p, tipping *t)
{
    uint64_t h = rd64(p), l = rd64(p + 5);
    int day = h >> 60 == 2;
    uint32_t loaded = day ? h >> 17 & 0x1ffff : h >> 18 & 0xffff, last = day ? 86399 : 43199;
    uint32_t gross = l >> (day ? 20 : 22) & 0xfffff, tare = l >> (day ? 0 : 2) & 0xfffff;
    t->truck = h >> 50 & 1023;
    t->tipped = day ? h & 0x1ffff : h >> 2 & 0xffff;
    return (day || (h >> 60 == 1 && !(l & 3))) && t->truck && (h >> 44 & 63) && (h >> 38 & 63) && (h >> 34 & 15) <= 9
        && t->tipped <= last && loaded <= t->tipped && tare <= gross;
}

/* Unpacks a tape; answers the number that refuses it, or 0. */
static uint32_t read_tape(const uint8_t *plain, size_t bytes, tipping *t)
{
    uint32_t last[TRUCKS] = { 0 };
    int falls = 0;
    if (bytes % 13 || bytes > 13 * MOST) return 2;
    for (size_t i = 0; i < bytes / 13; i++) {
        if (!unpack(plain + 13 * i, &t[i])) return 8;
        falls |= t[i].tipped < last[t[i].truck];
        last[t[i].truck] = t[i].tipped;
    }
    return falls ? 12 : 0;
}

ht_paired peer_pair_tapes(const uint8_t *first, size_t firstlen, const uint8_t *second, size_t secondlen, uint32_t *pairs, size_t pairslen,
    uint32_t *left_first, size_t left_firstlen, uint32_t *left_second, size_t left_secondlen)
{
    tipping a[MOST], b[MOST];
    uint16_t next[MOST], partner[MOST], taken[MOST], cursor[TRUCKS];
    uint32_t x = read_tape(first, firstlen, a), y = read_tape(second, secondlen, b);
    size_t n = firstlen / 13, m = secondlen / 13, found = 0;
    if (x || y) return (ht_paired){ !y || (x && x < y) ? x : y, 0, 0, 0 };

    /* for each ticket of the second tape the next of its truck, and for each truck its first ticket; m where there is none */
    for (size_t i = 0; i < TRUCKS; i++)
        cursor[i] = (uint16_t)m;
    for (size_t j = m; j-- > 0;)
        next[j] = cursor[b[j].truck], cursor[b[j].truck] = (uint16_t)j, taken[j] = 0;

    /* a truck's cursor passes over what is too early, and over what it pairs */
    for (size_t i = 0; i < n; i++) {
        size_t j = cursor[a[i].truck];
        while (j < m && b[j].tipped + 120 < a[i].tipped)
            j = next[j];
        partner[i] = 0;
        if (j < m && b[j].tipped <= a[i].tipped + 120)
            partner[i] = (uint16_t)(j + 1), taken[j] = 1, found++, j = next[j];
        cursor[a[i].truck] = (uint16_t)j;
    }

    if (pairslen < 2 * found || left_firstlen < n - found || left_secondlen < m - found) return (ht_paired){ 6, 0, 0, 0 };
    for (uint32_t i = 0; i < n; i++)
        if (partner[i])
            *pairs++ = i + 1, *pairs++ = partner[i];
        else
            *left_first++ = i + 1;
    for (uint32_t j = 0; j < m; j++)
        if (!taken[j]) *left_second++ = j + 1;
    return (ht_paired){ 0, found, n - found, m - found };
}
