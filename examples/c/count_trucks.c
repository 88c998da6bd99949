/* count_trucks KEY_FILE TAPE_FILE [TAPE_FILE]
 * Prints how many different trucks are on a tape: TRUCKS and the number. Of two tapes under one key it prints five lines, each with
 * a number: FIRST and SECOND, of each tape by itself; BOTH, EITHER and JUST_ONE, of the trucks on both tapes, on either and on just
 * one. Where a tape does not open it prints nothing but the tape's name, `refused` and the number, on standard error.
 *     gcc -Iinclude -o count_trucks examples/c/count_trucks.c target/staticlib/libhaul_tape.a
 */
#include "haul_tape.h"
#include <inttypes.h>
#include <stdio.h>
#include <stdlib.h>

static uint8_t key[HT_KEY_BYTES + 1], tape[HT_MOST_TAPE_BYTES + 1]; /* one byte more, to see what is too long */
static uint8_t plain[2][HT_MOST_PLAIN_BYTES];

static void fail(const char *what)
{
    perror(what);
    exit(1);
}

static void must_be_done(const char *what, uint32_t refused)
{
    if (refused != 0) {
        fprintf(stderr, "%s: refused %" PRIu32 "\n", what, refused);
        exit(1);
    }
}

static size_t read_file(const char *name, uint8_t *bytes, size_t room)
{
    FILE *file = fopen(name, "rb");
    size_t n = file == NULL ? 0 : fread(bytes, 1, room, file);
    if (file == NULL || ferror(file))
        fail(name);
    fclose(file);
    return n;
}

int main(int argc, char **argv)
{
    size_t bytes[2];
    ht_truck_count count[2];

    if (argc != 3 && argc != 4) {
        fprintf(stderr, "usage: count_trucks KEY_FILE TAPE_FILE [TAPE_FILE]\n");
        return 1;
    }
    size_t keylen = read_file(argv[1], key, sizeof key);
    for (int i = 0; i < argc - 2; i++) {
        size_t tapelen = read_file(argv[2 + i], tape, sizeof tape);
        ht_opened o = ht_open_tape(key, keylen, tape, tapelen, plain[i], sizeof plain[i]);
        must_be_done(argv[2 + i], o.refused);
        bytes[i] = o.tickets * HT_TICKET_BYTES;
        count[i] = ht_trucks(plain[i], bytes[i]);
        must_be_done(argv[2 + i], count[i].refused);
    }

    if (argc == 3)
        printf("TRUCKS %" PRIu32 "\n", count[0].trucks);
    else {
        ht_truck_counts two = ht_trucks_of_two(plain[0], bytes[0], plain[1], bytes[1]);
        must_be_done("both tapes", two.refused);
        printf("FIRST %" PRIu32 "\nSECOND %" PRIu32 "\n", count[0].trucks, count[1].trucks);
        printf("BOTH %" PRIu32 "\nEITHER %" PRIu32 "\nJUST_ONE %" PRIu32 "\n", two.both, two.either, two.just_one);
    }
    if (fflush(stdout) != 0)
        fail("standard output");
    return 0;
}
