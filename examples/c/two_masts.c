/* two_masts KEY_FILE FIRST_FILE SECOND_FILE
 * Opens a tape that two masts heard, each all of it or less, from the longer reception. Prints MAST and 1 or 2, whose that is; and TOTAL,
 * the number of tickets and their total net. Where it does not open it prints nothing but its file's name, `refused` and the number, on
 * standard error; and where the two part, both names, `refused 10` and the byte in which they do, counted from 0.
 *     gcc -Iinclude -o two_masts examples/c/two_masts.c target/staticlib/libhaul_tape.a
 */
#include "haul_tape.h"
#include <inttypes.h>
#include <stdio.h>
#include <stdlib.h>

static uint8_t key[HT_KEY_BYTES + 1], heard[2][HT_MOST_TAPE_BYTES + 1]; /* one byte more, to see what is too long */
static uint8_t plain[HT_MOST_PLAIN_BYTES];

static void fail(const char *what)
{
    perror(what);
    exit(1);
}

static size_t read_file(const char *name, uint8_t *bytes, size_t room)
{
    FILE *file = fopen(name, "rb");
    size_t n = file == NULL ? 0 : fread(bytes, 1, room, file);
    if (file == NULL || ferror(file))
        fail(name);
    fclose(file);
    return n;
}

int main(int argc, char **argv)
{
    if (argc != 4) {
        fprintf(stderr, "usage: two_masts KEY_FILE FIRST_FILE SECOND_FILE\n");
        return 1;
    }
    size_t keylen = read_file(argv[1], key, sizeof key);
    size_t first = read_file(argv[2], heard[0], sizeof heard[0]);
    size_t second = read_file(argv[3], heard[1], sizeof heard[1]);

    ht_parted p = ht_parting(heard[0], first, heard[1], second);
    if (p.refused != 0) {
        fprintf(stderr, "%s, %s: refused %" PRIu32 ", at byte %" PRIu64 "\n", argv[2], argv[3], p.refused, p.place);
        return 1;
    }
    ht_reception longer = ht_longer(heard[0], first, heard[1], second);
    ht_opened o = ht_open_tape(key, keylen, heard[longer.mast - 1], longer.bytes, plain, sizeof plain);
    if (o.refused != 0) {
        fprintf(stderr, "%s: refused %" PRIu32 "\n", argv[1 + longer.mast], o.refused);
        return 1;
    }
    printf("MAST %" PRIu32 "\nTOTAL %" PRIu64 " %" PRIu64 "\n", longer.mast, o.tickets, o.net);
    if (fflush(stdout) != 0)
        fail("standard output");
    return 0;
}
