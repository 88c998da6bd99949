/* Seals a message in pieces with a tag of 8 bytes, for a slow link, opens it whole, and shows what is refused.
 *     gcc -Iinclude -o short_tag examples/c/short_tag.c target/staticlib/libhaul_tape.a
 */
#include "haul_tape.h"
#include <inttypes.h>
#include <stdio.h>
#include <stdlib.h>

static void must_be_done(uint32_t refused)
{
    if (refused != 0) {
        fprintf(stderr, "refused %" PRIu32 "\n", refused);
        exit(1);
    }
}

int main(void)
{
    const uint8_t key[HT_KEY_BYTES] = {0, 1, 2, 3, 4, 5, 6, 7, 8, 9, 10, 11, 12, 13, 14, 15};
    const uint8_t nonce[HT_NONCE_BYTES] = {2}; /* never again with this key, nor with another length of tag */
    const uint8_t data[5] = "pit 9", text[14] = "pump 2 stopped";
    const size_t taglen = HT_LEAST_TAG_BYTES; /* agreed beforehand: the sealed bytes do not tell it */
    uint8_t sealed[sizeof text + HT_LEAST_TAG_BYTES], opened[sizeof text];

    /* in pieces: begin fixes the length, and close writes so many bytes */
    ht_session s;
    ht_session_fresh_sealing(&s);
    must_be_done(ht_session_begin_tag(&s, key, sizeof key, nonce, sizeof nonce, taglen).refused);
    must_be_done(ht_session_data(&s, data, sizeof data).refused);
    must_be_done(ht_session_seal_text(&s, text, sizeof text, sealed, sizeof text).refused);
    must_be_done(ht_session_seal_close(&s, sealed + sizeof text, taglen).refused);
    printf("sealed: ");
    for (size_t i = 0; i < sizeof sealed; i++)
        printf("%02x", sealed[i]);
    printf("\n");

    /* whole: the same length is given with the call */
    ht_written w = ht_open_tag(key, sizeof key, nonce, sizeof nonce, data, sizeof data, sealed, sizeof sealed, taglen,
        opened, sizeof opened);
    must_be_done(w.refused);
    printf("opened: %.*s\n", (int)w.bytes, (const char *)opened);
    w = ht_open_tag(key, sizeof key, nonce, sizeof nonce, data, sizeof data, sealed, sizeof sealed, 7, opened, sizeof opened);
    printf("a tag of 7 bytes: refused %" PRIu32 "\n", w.refused);
    sealed[0] ^= 1;
    w = ht_open_tag(key, sizeof key, nonce, sizeof nonce, data, sizeof data, sealed, sizeof sealed, taglen, opened, sizeof opened);
    printf("one bit turned: refused %" PRIu32 "\n", w.refused);
}
