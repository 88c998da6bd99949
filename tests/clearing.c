/* After an opening or a listing that is refused, no 8 bytes of the decrypted text may stand on the stack. Each call is run on a
 * stack of its own, which is then searched whole: for any 8 bytes of the text, of the last four fields of a ticket (as the struct
 * has them), and of the listing behind its first line, at any place and in either order of bytes. A text of 4 to 7 bytes is looked
 * for whole; a shorter one cannot be told from other bytes. Registers are not looked at. A listing is refused where its text is
 * 'REFUSED', too.
 *
 * With --table it prints how many such pieces were found in each case, and for information pieces of 4 bytes of the text (of
 * which a few are met by chance) and of 8 bytes of the key, and what was found after calls that were done.
 */
#include "own_stack.h"
#include "tapes.h"

/* ---- a set of pieces ---- */

#define SLOTS ((size_t)1 << 21)

static struct { uint64_t piece[SLOTS]; uint32_t mark[SLOTS], now; } set;

static size_t slot_of(uint64_t piece)
{
    size_t at = (size_t)((piece * 0x9e3779b97f4a7c15) >> 43);

    while (set.mark[at] == set.now && set.piece[at] != piece)
        at = (at + 1) % SLOTS;
    return at;
}

static uint64_t piece_at(const uint8_t *bytes, size_t size)
{
    uint64_t piece = 0;

    memcpy(&piece, bytes, size);
    return piece;
}

/* Puts the pieces of some bytes into the set, in both orders. A piece of one byte repeated, such as zeros, tells nothing. */
static void put_pieces(const uint8_t *bytes, size_t n, size_t size)
{
    for (size_t i = 0; i + size <= n; i++) {
        uint8_t turned[8];
        int differs = 0;

        for (size_t j = 0; j < size; j++) {
            turned[j] = bytes[i + size - 1 - j];
            differs |= turned[j] != bytes[i];
        }
        if (!differs)
            continue;
        size_t at = slot_of(piece_at(bytes + i, size));
        set.piece[at] = piece_at(bytes + i, size), set.mark[at] = set.now;
        at = slot_of(piece_at(turned, size));
        set.piece[at] = piece_at(turned, size), set.mark[at] = set.now;
    }
}

/* How many places of the stack hold a piece of the set. */
static size_t found_on_stack(size_t size)
{
    size_t found = 0;

    for (size_t i = own_stack_unchanged(0x5a) & ~(size_t)7; i + size <= OWN_STACK_BYTES; i++)
        found += set.mark[slot_of(piece_at(own_stack + i, size))] == set.now;
    return found;
}

/* ---- the calls ---- */

static uint8_t data[9], text[HT_MOST_BYTES], sealed[HT_MOST_BYTES + HT_TAG_BYTES], tape[HT_MOST_TAPE_BYTES];
static uint8_t out[HT_MOST_LISTING_BYTES], listing[HT_MOST_LISTING_BYTES];
static size_t textlen, taglen, tapelen, listinglen, outlen;
static uint32_t refused;

static void run_open(void)
{
    refused = ht_open(key, sizeof key, nonce, sizeof nonce, data, sizeof data, sealed, textlen + HT_TAG_BYTES, out, outlen)
                  .refused;
}

static void run_open_tag(void)
{
    refused = ht_open_tag(key, sizeof key, nonce, sizeof nonce, data, sizeof data, sealed, textlen + taglen, taglen, out, outlen)
                  .refused;
}

static void run_open_tape(void)
{
    refused = ht_open_tape(key, sizeof key, tape, tapelen, out, outlen).refused;
}

static void run_list_tape(void)
{
    refused = ht_list_tape(key, sizeof key, tape, tapelen, out, outlen).refused;
}

/* ---- the check ---- */

static int print_table, faults, cases;

/* Puts into the set what must not be left: the text, and of a tape the last four fields of each ticket and the listing. */
static void put_secrets(int of_tape, size_t size)
{
    set.now++;
    put_pieces(text, textlen, size);
    if (!of_tape || size < 8)
        return;
    for (size_t i = 0; i < textlen; i += HT_TICKET_BYTES) {
        ht_unpacked_ticket u = ht_unpack_ticket(text + i, HT_TICKET_BYTES);

        if (u.refused == 0)
            put_pieces((const uint8_t *)&u.ticket.loaded, 4 * sizeof(uint32_t), size);
    }
    put_pieces(listing, listinglen, size);
}

/* Runs the call; `answer` is what it must answer. Only a call that must leave nothing can be at fault. */
static size_t look(const char *what, void (*call)(void), int of_tape, uint32_t answer, int must_clear)
{
    size_t size = textlen >= 8 ? 8 : textlen, found = 0;

    memset(own_stack, 0x5a, OWN_STACK_BYTES);
    own_stack_run(call, OWN_STACK_BYTES);
    if (refused != answer) {
        printf("clearing: %s, text length %zu: answers %u in place of %u\n", what, textlen, refused, answer);
        exit(1);
    }
    if (size >= 4) {
        put_secrets(of_tape, size);
        found = found_on_stack(size);
    }
    if (print_table) {
        put_secrets(of_tape, 4);
        size_t fours = found_on_stack(4);
        set.now++;
        put_pieces(key, sizeof key, 8);
        printf("%-52s%8zu%8zu%8zu%8zu\n", what, textlen, found, fours, found_on_stack(8));
    }
    if (!must_clear || size < 4)
        return found;
    cases++;
    if (found > 0 && faults++ < 20)
        printf("clearing: %s, text length %zu: pieces of %zu bytes left on the stack: %zu\n", what, textlen, size, found);
    return found;
}

/* The test must be able to fail: this leaves the text. */
static void leaves_text(void)
{
    volatile uint8_t copy[64];

    for (size_t i = 0; i < sizeof copy; i++)
        copy[i] = text[i];
    refused = copy[0] ^ text[0];
}

static void control(void)
{
    int table = print_table;

    print_table = 0;
    textlen = 64;
    random_bytes(text, textlen);
    must(look("leaves_text", leaves_text, 0, 0, 0) == 57, "clearing: the test is broken: left text is not found");
    textlen = 5;
    must(look("leaves_text", leaves_text, 0, 0, 0) == 1, "clearing: the test is broken: left short text is not found");
    print_table = table;
}

static void message(size_t n)
{
    textlen = n;
    outlen = sizeof out;
    random_bytes(text, n);
    must(ht_seal(key, sizeof key, nonce, sizeof nonce, data, sizeof data, text, n, sealed, n + HT_TAG_BYTES).refused == 0,
        "clearing: no sealing");
    look("ht_open, done", run_open, 0, 0, 0);
    sealed[n + random_word() % HT_TAG_BYTES] ^= 1;
    look("ht_open, 7", run_open, 0, 7, 1);

    taglen = HT_LEAST_TAG_BYTES + n % (HT_TAG_BYTES - HT_LEAST_TAG_BYTES + 1);
    must(ht_seal_tag(key, sizeof key, nonce, sizeof nonce, data, sizeof data, text, n, taglen, sealed, n + taglen).refused == 0,
        "clearing: no sealing");
    look("ht_open_tag, done", run_open_tag, 0, 0, 0);
    sealed[n + random_word() % taglen] ^= 1;
    look("ht_open_tag, 7", run_open_tag, 0, 7, 1);
}

static void tape_of(size_t n, enum bad bad)
{
    uint32_t verdict = bad == NONE_BAD ? 0 : 8;
    static const char *const opened[] = {"ht_open_tape, done", "ht_open_tape, 8 for the last ticket",
        "ht_open_tape, 8 for the first"};
    static const char *const listed[] = {"ht_list_tape, done", "ht_list_tape, text 'REFUSED 8' for the last ticket",
        "ht_list_tape, text 'REFUSED 8' for the first"};

    textlen = n * HT_TICKET_BYTES;
    make_plain(text, n, bad);
    tapelen = make_tape(tape, text, n);
    outlen = sizeof out;
    listinglen = 0;
    if (bad == NONE_BAD) {
        /* what follows the head's line is made of the text */
        size_t all = ht_list_tape(key, sizeof key, tape, tapelen, out, outlen).bytes;
        const uint8_t *lines = memchr(out, '\n', all);
        must(lines != NULL, "clearing: no listing");
        listinglen = all - (size_t)(lines - out);
        memcpy(listing, lines, listinglen);
    }
    look(opened[bad], run_open_tape, 1, verdict, bad != NONE_BAD);
    look(listed[bad], run_list_tape, 1, 0, bad != NONE_BAD);
    if (bad == NONE_BAD) {
        outlen = listinglen;
        look("ht_list_tape, 6", run_list_tape, 1, 6, 1);
        outlen = 0;
        look("ht_list_tape, 6 with no room at all", run_list_tape, 1, 6, 1);
    } else {
        outlen = 9;
        look("ht_list_tape, 6 for the text 'REFUSED 8'", run_list_tape, 1, 6, 1);
    }
    outlen = sizeof out;
    tape[tapelen - 1 - random_word() % HT_TAG_BYTES] ^= 1;
    look("ht_open_tape, 7", run_open_tape, 1, 7, 1);
    look("ht_list_tape, text 'REFUSED 7'", run_list_tape, 1, 0, 1);
    outlen = 9;
    look("ht_list_tape, 6 for the text 'REFUSED 7'", run_list_tape, 1, 6, 1);
}

int main(int argc, char **argv)
{
    static const size_t lengths[] = {100, 128, 255, 256, 511, 512, 513, 1024, 1025, 2048, 2049, 4096, 4097, 8192, 8193, 16384,
        32769, 65535, 65536};
    static const size_t tickets[] = {1, 2, 3, 19, 39, 40, 41, 78, 79, 157, 158, 315, 316, 500, 630, 631, 2521, 5000};

    print_table = argc > 1 && strcmp(argv[1], "--table") == 0;
    own_stack_make();
    random_bytes(key, sizeof key);
    random_bytes(nonce, sizeof nonce);
    random_bytes(data, sizeof data);
    control();
    if (print_table)
        printf("%-52s%8s%8s%8s%8s\n", "call and answer", "text", "of 8", "of 4", "key");
    for (size_t n = 1; n <= 64; n++)
        message(n);
    for (size_t i = 0; i < sizeof lengths / sizeof *lengths; i++)
        message(lengths[i]);
    for (size_t i = 0; i < sizeof tickets / sizeof *tickets; i++)
        for (enum bad bad = NONE_BAD; bad <= ALL_BAD; bad++)
            tape_of(tickets[i], bad);
    if (faults > 0) {
        printf("clearing: %d of %d refused calls leave 8 bytes or more of decrypted text on the stack\n", faults, cases);
        return 1;
    }
    printf("clearing: %d refused openings and listings leave no 8 bytes of text on the stack\n", cases);
    return 0;
}
