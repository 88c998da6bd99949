/* Writes a tape of one ticket, opens it and reads it back.
 *     gcc -Iinclude -o quick_start examples/c/quick_start.c target/staticlib/libhaul_tape.a
 */
#include "haul_tape.h"
#include <inttypes.h>
#include <stdio.h>
#include <stdlib.h>

static void must_be_done(uint32_t refused)
{
    if (refused != 0) {
        fprintf(stderr, "refused %" PRIu32 "\n", refused);
        exit(1);
    }
}

int main(void)
{
    const uint8_t key[HT_KEY_BYTES] = {0, 1, 2, 3, 4, 5, 6, 7, 8, 9, 10, 11, 12, 13, 14, 15};
    const ht_head head = {.device = 7, .shift = 2, .sheet = 1};
    const ht_ticket ticket = {.form = 1, .truck = 5, .shovel = 2, .tip = 3, .grade = 4,
        .loaded = 3600, .tipped = 4200, .gross = 250000, .tare = 110000};
    uint8_t tape[HT_HEAD_BYTES + HT_TICKET_BYTES + HT_TAG_BYTES], plain[HT_TICKET_BYTES];
    uint8_t *body = tape + HT_HEAD_BYTES, *tag = body + HT_TICKET_BYTES;

    ht_writer w;
    ht_writer_fresh(&w);
    must_be_done(ht_writer_start(&w, key, sizeof key, head, tape, HT_HEAD_BYTES).refused);
    must_be_done(ht_writer_add(&w, ticket, body, HT_TICKET_BYTES).refused);
    must_be_done(ht_writer_finish(&w, tag, HT_TAG_BYTES).refused);
    printf("tape ");
    for (size_t i = 0; i < sizeof tape; i++)
        printf("%02x", tape[i]);
    printf("\n");

    ht_opened o = ht_open_tape(key, sizeof key, tape, sizeof tape, plain, sizeof plain);
    must_be_done(o.refused);
    for (uint64_t i = 0; i < o.tickets; i++) {
        ht_reading r = ht_read_ticket(plain, o.tickets * HT_TICKET_BYTES, i);
        must_be_done(r.refused);
        printf("ticket %" PRIu64 ": truck %u, net %" PRIu32 " kg\n", r.position,
            r.ticket.truck, r.ticket.gross - r.ticket.tare);
    }
    printf("tickets %" PRIu64 ", net %" PRIu64 " kg\n", o.tickets, o.net);
}
