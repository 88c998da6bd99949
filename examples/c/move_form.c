/* move_form ASKED FORM TRUCK SHOVEL TIP GRADE LOADED TIPPED GROSS TARE
 * Moves a ticket, its nine fields given, to the form asked for: 1, or 2 for shifts of a whole day. Prints its 13 bytes before and after. Where
 * it does not move it prints nothing but `refused` and the number, on standard error: 11 where it is tipped too late for form 1, else 4.
 *     gcc -Iinclude -o move_form examples/c/move_form.c target/staticlib/libhaul_tape.a
 */
#include "haul_tape.h"
#include <inttypes.h>
#include <stdio.h>
#include <stdlib.h>
#include <string.h>

/* Whether a word is a number of at most `most`. */
static int number(const char *word, uint32_t most, uint32_t *n)
{
    unsigned long long value = strtoull(word, NULL, 10); /* ULLONG_MAX where it does not fit */
    *n = (uint32_t)value;
    return *word != '\0' && word[strspn(word, "0123456789")] == '\0' && value <= most;
}

static void print_packed(ht_ticket ticket)
{
    uint8_t packed[HT_TICKET_BYTES];
    ht_written w = ht_pack_ticket(ticket, packed, sizeof packed);
    for (size_t i = 0; i < w.bytes; i++)
        printf("%02x", packed[i]);
    printf("\n");
}

int main(int argc, char **argv)
{
    const uint32_t any = UINT32_MAX, most[10] = {UINT8_MAX, UINT8_MAX, UINT16_MAX, UINT8_MAX, UINT8_MAX, UINT8_MAX, any, any, any, any};
    uint32_t n[10];
    int given = 0;

    while (given < 10 && given + 1 < argc && number(argv[given + 1], most[given], &n[given]))
        given++;
    if (given != 10 || argc != 11) {
        fprintf(stderr, "usage: move_form ASKED FORM TRUCK SHOVEL TIP GRADE LOADED TIPPED GROSS TARE\n");
        return 1;
    }
    ht_ticket ticket = {.form = (uint8_t)n[1], .truck = (uint16_t)n[2], .shovel = (uint8_t)n[3], .tip = (uint8_t)n[4],
        .grade = (uint8_t)n[5], .loaded = n[6], .tipped = n[7], .gross = n[8], .tare = n[9]};

    ht_unpacked_ticket moved = ht_move_ticket(ticket, (uint8_t)n[0]);
    if (moved.refused != 0) {
        fprintf(stderr, "refused %" PRIu32 "\n", moved.refused);
        return 1;
    }
    print_packed(ticket);
    print_packed(moved.ticket);
    if (fflush(stdout) != 0) {
        perror("standard output");
        return 1;
    }
    return 0;
}
