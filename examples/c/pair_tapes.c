/* pair_tapes KEY_FILE FIRST_FILE SECOND_FILE
 * Pairs the tickets of two tapes under one key, the cab's and the crusher's: same truck, tipped at most 120 seconds apart. Prints a line
 * for each pair, PAIR and its positions on the first tape and on the second; for each ticket left over FIRST or SECOND and its position; and
 * TOTAL, the numbers of pairs and of tickets left over on the first tape and on the second. Positions are those of the listing. Where a
 * tape does not open it prints nothing but the tape's name, `refused` and the number, on standard error; and where the two are not paired, since
 * a truck's times fall on one of them, both names and `refused 12`.
 *     gcc -Iinclude -o pair_tapes examples/c/pair_tapes.c target/staticlib/libhaul_tape.a
 */
#include "haul_tape.h"
#include <inttypes.h>
#include <stdio.h>
#include <stdlib.h>

static uint8_t key[HT_KEY_BYTES + 1], tape[HT_MOST_TAPE_BYTES + 1]; /* one byte more, to see what is too long */
static uint8_t plain[2][HT_MOST_PLAIN_BYTES];
static uint32_t pairs[2 * HT_MOST_TICKETS], left[2][HT_MOST_TICKETS]; /* room for whatever is found */

static void fail(const char *what)
{
    perror(what);
    exit(1);
}

static size_t read_file(const char *name, uint8_t *bytes, size_t room)
{
    FILE *file = fopen(name, "rb");
    size_t n = file == NULL ? 0 : fread(bytes, 1, room, file);
    if (file == NULL || ferror(file))
        fail(name);
    fclose(file);
    return n;
}

int main(int argc, char **argv)
{
    size_t bytes[2];

    if (argc != 4) {
        fprintf(stderr, "usage: pair_tapes KEY_FILE FIRST_FILE SECOND_FILE\n");
        return 1;
    }
    size_t keylen = read_file(argv[1], key, sizeof key);
    for (int i = 0; i < 2; i++) {
        size_t tapelen = read_file(argv[2 + i], tape, sizeof tape);
        ht_opened o = ht_open_tape(key, keylen, tape, tapelen, plain[i], sizeof plain[i]);
        if (o.refused != 0) {
            fprintf(stderr, "%s: refused %" PRIu32 "\n", argv[2 + i], o.refused);
            return 1;
        }
        bytes[i] = o.tickets * HT_TICKET_BYTES;
    }

    ht_paired p = ht_pair_tapes(plain[0], bytes[0], plain[1], bytes[1], pairs, sizeof pairs / sizeof *pairs, left[0], HT_MOST_TICKETS,
        left[1], HT_MOST_TICKETS);
    if (p.refused != 0) {
        fprintf(stderr, "%s, %s: refused %" PRIu32 "\n", argv[2], argv[3], p.refused);
        return 1;
    }
    for (size_t i = 0; i < p.pairs; i++)
        printf("PAIR %" PRIu32 " %" PRIu32 "\n", pairs[2 * i], pairs[2 * i + 1]);
    for (size_t i = 0; i < p.left_first; i++)
        printf("FIRST %" PRIu32 "\n", left[0][i]);
    for (size_t i = 0; i < p.left_second; i++)
        printf("SECOND %" PRIu32 "\n", left[1][i]);
    printf("TOTAL %" PRIu64 " %" PRIu64 " %" PRIu64 "\n", p.pairs, p.left_first, p.left_second);
    if (fflush(stdout) != 0)
        fail("standard output");
    return 0;
}
