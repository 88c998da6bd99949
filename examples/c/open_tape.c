/* open_tape KEY_FILE < tape
 * Opens a tape and prints its tickets, one a line: form truck shovel tip grade loaded tipped gross tare, as write_tape takes them.
 * Where the tape does not open it prints no ticket, but `refused` and the number on standard error.
 *     gcc -Iinclude -o open_tape examples/c/open_tape.c target/staticlib/libhaul_tape.a
 */
#include "haul_tape.h"
#include <inttypes.h>
#include <stdio.h>

static uint8_t key[HT_KEY_BYTES + 1], tape[HT_MOST_TAPE_BYTES + 1]; /* one byte more, to see what is too long */
static uint8_t plain[HT_MOST_PLAIN_BYTES];

static int failed(const char *what)
{
    perror(what);
    return 1;
}

static int refused(uint32_t number)
{
    fprintf(stderr, "refused %" PRIu32 "\n", number);
    return 1;
}

int main(int argc, char **argv)
{
    if (argc != 2) {
        fprintf(stderr, "usage: open_tape KEY_FILE < tape\n");
        return 1;
    }
    FILE *file = fopen(argv[1], "rb");
    size_t keylen = file == NULL ? 0 : fread(key, 1, sizeof key, file);
    if (file == NULL || ferror(file))
        return failed(argv[1]);
    fclose(file);
    size_t tapelen = fread(tape, 1, sizeof tape, stdin);
    if (ferror(stdin))
        return failed("standard input");

    ht_opened o = ht_open_tape(key, keylen, tape, tapelen, plain, sizeof plain);
    if (o.refused != 0)
        return refused(o.refused);
    for (uint64_t i = 0; i < o.tickets; i++) {
        ht_reading r = ht_read_ticket(plain, o.tickets * HT_TICKET_BYTES, i);
        if (r.refused != 0)
            return refused(r.refused);
        ht_ticket t = r.ticket;
        printf("%u %u %u %u %u %" PRIu32 " %" PRIu32 " %" PRIu32 " %" PRIu32 "\n", t.form, t.truck, t.shovel, t.tip, t.grade,
            t.loaded, t.tipped, t.gross, t.tare);
    }
    return fflush(stdout) == 0 ? 0 : failed("standard output");
}
