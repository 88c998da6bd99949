/* Seals a message in two pieces, opens it whole, and shows that a changed message is refused.
 *     gcc -Iinclude -o seal_message examples/c/seal_message.c target/staticlib/libhaul_tape.a
 */
#include "haul_tape.h"
#include <inttypes.h>
#include <stdio.h>
#include <stdlib.h>

static void must_be_done(uint32_t refused)
{
    if (refused != 0) {
        fprintf(stderr, "refused %" PRIu32 "\n", refused);
        exit(1);
    }
}

int main(void)
{
    const uint8_t key[HT_KEY_BYTES] = {0, 1, 2, 3, 4, 5, 6, 7, 8, 9, 10, 11, 12, 13, 14, 15};
    const uint8_t nonce[HT_NONCE_BYTES] = {1}; /* never again with this key */
    const uint8_t data[6] = "shift ", first[4] = "face", second[2] = " 4";
    uint8_t sealed[sizeof first + sizeof second + HT_TAG_BYTES], text[sizeof first + sizeof second];

    /* in pieces: begin, data, text, close; each call says how many bytes it wrote */
    ht_session s;
    ht_session_fresh_sealing(&s);
    must_be_done(ht_session_begin(&s, key, sizeof key, nonce, sizeof nonce).refused);
    must_be_done(ht_session_data(&s, data, sizeof data).refused);
    ht_answer a = ht_session_seal_text(&s, first, sizeof first, sealed, sizeof sealed);
    must_be_done(a.refused);
    size_t at = a.bytes;
    a = ht_session_seal_text(&s, second, sizeof second, sealed + at, sizeof sealed - at);
    must_be_done(a.refused);
    at += a.bytes;
    a = ht_session_seal_close(&s, sealed + at, sizeof sealed - at);
    must_be_done(a.refused);
    printf("sealed in 2 pieces: %zu bytes, %" PRIu64 " steps\n", at + a.bytes, a.steps);

    /* whole: the text is written only if the tag matches */
    must_be_done(ht_open(key, sizeof key, nonce, sizeof nonce, data, sizeof data, sealed, sizeof sealed, text, sizeof text).refused);
    printf("opened: %.*s\n", (int)sizeof text, (const char *)text);
    sealed[0] ^= 1;
    ht_written w = ht_open(key, sizeof key, nonce, sizeof nonce, data, sizeof data, sealed, sizeof sealed, text, sizeof text);
    printf("one bit turned: refused %" PRIu32 "\n", w.refused);
}
