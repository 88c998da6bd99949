/* Inputs for the tests in C: bytes that look random, tickets, and tapes made of any tickets' bytes. The same in every run. */
#ifndef TAPES_H
#define TAPES_H

#include "haul_tape.h"

#include <stdio.h>
#include <stdlib.h>
#include <string.h>

static const ht_head tape_head = {.device = 40117, .shift = 20261, .sheet = 3};
static uint8_t key[HT_KEY_BYTES], nonce[HT_NONCE_BYTES];

static void must(int holds, const char *what)
{
    if (!holds) {
        printf("%s\n", what);
        exit(1);
    }
}

static uint64_t random_word(void)
{
    static uint64_t seed = 20261;
    uint64_t z = seed += 0x9e3779b97f4a7c15;

    z = (z ^ (z >> 30)) * 0xbf58476d1ce4e5b9;
    z = (z ^ (z >> 27)) * 0x94d049bb133111eb;
    return z ^ (z >> 31);
}

static void random_bytes(uint8_t *out, size_t n)
{
    for (size_t i = 0; i < n; i++)
        out[i] = (uint8_t)random_word();
}

/* of either form */
static ht_ticket random_ticket(void)
{
    ht_ticket t = {.form = (uint8_t)(1 + random_word() % 2), .truck = (uint16_t)(1 + random_word() % 1023), .shovel = (uint8_t)(1 + random_word() % 63),
        .tip = (uint8_t)(1 + random_word() % 63), .grade = (uint8_t)(random_word() % 10)};

    t.tipped = (uint32_t)(random_word() % (t.form == 1 ? 43200 : 86400));
    t.loaded = (uint32_t)(random_word() % (t.tipped + 1));
    t.gross = (uint32_t)(random_word() % 1048576);
    t.tare = (uint32_t)(random_word() % (t.gross + 1));
    if (random_word() % 8 == 0)
        t.tare = t.gross; /* an empty trip */
    return t;
}

/* Which of a tape's tickets break the rule. */
enum bad { NONE_BAD, LAST_BAD, ALL_BAD };

/* The plain bytes of n tickets. */
static void make_plain(uint8_t *plain, size_t n, enum bad bad)
{
    for (size_t i = 0; i < n; i++) {
        uint8_t *at = plain + i * HT_TICKET_BYTES;

        must(ht_pack_ticket(random_ticket(), at, HT_TICKET_BYTES).refused == 0, "a ticket does not pack");
        if (bad == ALL_BAD)
            random_bytes(at, HT_TICKET_BYTES);
        if (bad == ALL_BAD || (bad == LAST_BAD && i == n - 1)) {
            if (at[0] >> 4 == 2)
                at[5] |= 1, at[6] = at[7] = 0xff; /* tipped at 131,071 */
            else
                at[HT_TICKET_BYTES - 1] |= 1; /* a spare bit */
        }
    }
}

/* A tape of n tickets' plain bytes, whether they keep the rule or not: it is the message whose nonce and data are the head. */
static size_t make_tape(uint8_t *tape, const uint8_t *plain, size_t n)
{
    uint8_t start[HT_NONCE_BYTES] = {0};
    ht_written w;

    must(ht_pack_head(tape_head, start, HT_HEAD_BYTES).refused == 0, "the head does not pack");
    memcpy(tape, start, HT_HEAD_BYTES);
    w = ht_seal(key, sizeof key, start, sizeof start, start, HT_HEAD_BYTES, plain, n * HT_TICKET_BYTES, tape + HT_HEAD_BYTES,
        n * HT_TICKET_BYTES + HT_TAG_BYTES);
    must(w.refused == 0, "the tape does not seal");
    return HT_HEAD_BYTES + w.bytes;
}

#endif
