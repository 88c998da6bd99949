/* The peer in Rust (bench/peer_rust): messages, and tapes with the ticket rule, phases and counts. Its opening decrypts into a buffer of its own,
 * and writes nothing unless the tag matches and every ticket unpacks. */
#ifndef PEER_RUST_H
#define PEER_RUST_H
#include "haul_tape.h"

void rust_seal(const uint8_t *key, const uint8_t *nonce, const uint8_t *data, size_t datalen, const uint8_t *text, size_t textlen,
    uint8_t *out);
uint32_t rust_open(const uint8_t *key, const uint8_t *nonce, const uint8_t *data, size_t datalen, const uint8_t *sealed, size_t sealedlen,
    uint8_t *out);

typedef struct { uint64_t words[10]; } rust_writer;

void rust_fresh(rust_writer *w);
ht_answer rust_start(rust_writer *w, const uint8_t *key, size_t keylen, ht_head head, uint8_t *out, size_t outlen);
ht_answer rust_add(rust_writer *w, ht_ticket ticket, uint8_t *out, size_t outlen);
ht_answer rust_finish(rust_writer *w, uint8_t *out, size_t outlen);
ht_opened rust_open_tape(const uint8_t *key, size_t keylen, const uint8_t *tape, size_t tapelen, uint8_t *out, size_t outlen);
#endif
