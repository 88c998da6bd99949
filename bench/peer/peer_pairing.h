/* The pairing of haul_tape.h in plain C, with the same answers. It unpacks each ticket once, into arrays on the stack, where it takes some
 * 115 KB; the library takes less, and unpacks a ticket again where it looks at it again. */
#ifndef PEER_PAIRING_H
#define PEER_PAIRING_H
#include "haul_tape.h"

ht_paired peer_pair_tapes(const uint8_t *first, size_t firstlen, const uint8_t *second, size_t secondlen, uint32_t *pairs, size_t pairslen,
    uint32_t *left_first, size_t left_firstlen, uint32_t *left_second, size_t left_secondlen);
#endif
