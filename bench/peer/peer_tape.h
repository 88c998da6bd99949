/* Tapes in plain C on acorn_opt.c, with all that a tape asks for: ticket rule, packing and unpacking, phases and counts. The calls are
 * those of haul_tape.h, but that opening decrypts into the output at once, and clears it where the tag differs or a ticket does not unpack.
 */
#ifndef PEER_TAPE_H
#define PEER_TAPE_H
#include "acorn_opt.h"
#include "haul_tape.h"

typedef struct { acorn_state s; uint64_t data, text, steps, tickets; int phase; } peer_writer;

void peer_fresh(peer_writer *w);
ht_answer peer_start(peer_writer *w, const uint8_t *key, size_t keylen, ht_head head, uint8_t *out, size_t outlen);
ht_answer peer_add(peer_writer *w, ht_ticket ticket, uint8_t *out, size_t outlen);
ht_answer peer_finish(peer_writer *w, uint8_t *out, size_t outlen);
ht_opened peer_open_tape(const uint8_t *key, size_t keylen, const uint8_t *tape, size_t tapelen, uint8_t *out, size_t outlen);
ht_truck_count peer_trucks(const uint8_t *plain, size_t plainlen);
ht_truck_counts peer_trucks_of_two(const uint8_t *first, size_t firstlen, const uint8_t *second, size_t secondlen);
ht_parted peer_parting(const uint8_t *first, size_t firstlen, const uint8_t *second, size_t secondlen);
ht_parted peer_parting_by_words(const uint8_t *first, size_t firstlen, const uint8_t *second, size_t secondlen);    /* of 8 bytes */
ht_reception peer_longer(const uint8_t *first, size_t firstlen, const uint8_t *second, size_t secondlen);
#endif
