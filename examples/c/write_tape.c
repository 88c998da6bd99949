/* write_tape KEY_FILE DEVICE SHIFT SHEET < tickets > tape
 * Writes the tape of a shift's tickets, one a line: form truck shovel tip grade loaded tipped gross tare. Each part of the tape
 * goes out as soon as it is sealed: there is no buffer for the whole. A line that is refused changes nothing: it is reported and
 * left out. Where reading or writing fails there is no tag, so that no station opens what was written.
 *     gcc -Iinclude -o write_tape examples/c/write_tape.c target/staticlib/libhaul_tape.a
 */
#include "haul_tape.h"
#include <inttypes.h>
#include <stdio.h>
#include <stdlib.h>
#include <string.h>

static void fail(const char *what)
{
    perror(what);
    exit(1);
}

static void put(const uint8_t *part, size_t bytes)
{
    if (fwrite(part, 1, bytes, stdout) != bytes)
        fail("standard output");
}

/* The next line; in place of one that does not fit, or that the input cuts short, an empty one. 0 at the end. */
static int next_line(char *line, size_t room)
{
    size_t n = 0;
    int c;
    while ((c = getchar()) != EOF && c != '\n')
        if (n < room)
            line[n++] = c == '\0' ? '?' : (char)c;
    if (ferror(stdin))
        fail("standard input");
    line[c == '\n' && n < room ? n : 0] = '\0';
    return c != EOF || n > 0;
}

/* Whether a text is so many numbers with spaces between them, each at most the `most` of its place: 257 is no byte. */
static int numbers(const char *text, int count, const uint32_t *most, uint32_t *n)
{
    for (int i = 0; i < count; i++) {
        text += strspn(text, " ");
        size_t digits = strspn(text, "0123456789");
        unsigned long long value = strtoull(text, NULL, 10); /* ULLONG_MAX where it does not fit */
        if (digits == 0 || value > most[i])
            return 0;
        n[i] = (uint32_t)value;
        text += digits;
    }
    return *text == '\0';
}

int main(int argc, char **argv)
{
    const uint32_t any = UINT32_MAX, most[] = {UINT8_MAX, UINT16_MAX, UINT8_MAX, UINT8_MAX, UINT8_MAX, any, any, any, any};
    uint8_t key[HT_KEY_BYTES + 1], part[HT_TAG_BYTES]; /* a byte more than a key has; the longest part of a tape */
    uint32_t n[9];
    char line[128];
    int status = 0;
    ht_head head;
    ht_writer w;

    if (argc != 5 || !numbers(argv[2], 1, &any, &head.device) || !numbers(argv[3], 1, &any, &head.shift)
        || !numbers(argv[4], 1, &any, &head.sheet)) {
        fprintf(stderr, "usage: write_tape KEY_FILE DEVICE SHIFT SHEET < tickets > tape\n");
        return 1;
    }
    FILE *file = fopen(argv[1], "rb");
    size_t keylen = file == NULL ? 0 : fread(key, 1, sizeof key, file);
    if (file == NULL || ferror(file))
        fail(argv[1]);
    fclose(file);
    setvbuf(stdout, NULL, _IONBF, 0);

    ht_writer_fresh(&w);
    ht_answer a = ht_writer_start(&w, key, keylen, head, part, sizeof part);
    if (a.refused != 0) {
        fprintf(stderr, "refused %" PRIu32 "\n", a.refused);
        return 1;
    }
    put(part, a.bytes);
    for (unsigned long at = 1; next_line(line, sizeof line); at++) {
        a = (ht_answer){.refused = 4}; /* what is no ticket breaks the rules, too */
        if (numbers(line, 9, most, n)) {
            ht_ticket ticket = {.form = (uint8_t)n[0], .truck = (uint16_t)n[1], .shovel = (uint8_t)n[2], .tip = (uint8_t)n[3],
                .grade = (uint8_t)n[4], .loaded = n[5], .tipped = n[6], .gross = n[7], .tare = n[8]};
            a = ht_writer_add(&w, ticket, part, sizeof part);
        }
        put(part, a.bytes); /* none where refused */
        if (a.refused != 0) {
            fprintf(stderr, "line %lu: refused %" PRIu32 "\n", at, a.refused);
            status = 1;
        }
    }
    a = ht_writer_finish(&w, part, sizeof part);
    put(part, a.bytes);
    return a.refused != 0 ? 1 : status;
}
