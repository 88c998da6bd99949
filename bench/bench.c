/* Times the library beside a peer in C and a peer in Rust, all in one process and by turns, and prints one table. bench/run builds it and
 * runs it.
 *
 *     bench SECONDS [COUNTS]    times each row for so long; COUNTS is a file of callgrind's totals, as bench/run writes it
 *     bench --count             for callgrind: makes each call of the table once, within the function `counted`
 */
#include <fcntl.h>
#include <spawn.h>
#include <stdio.h>
#include <stdlib.h>
#include <string.h>
#include <sys/resource.h>
#include <sys/wait.h>
#include <time.h>
#include "acorn_opt.h"
#include "haul_tape.h"
#include "peer_pairing.h"
#include "peer_rust.h"
#include "peer_tape.h"

extern char **environ;

/* crates/bench_totals: the total net by the library's own function `totals`, which it does not export; null where it is not linked */
__attribute__((weak)) uint64_t bench_totals(const uint8_t *plain, size_t plainlen);

enum { MOST = HT_MOST_BYTES, TICKETS = HT_MOST_TICKETS, TAG = HT_TAG_BYTES };
enum { LIBRARY, C, RUST, MAKERS };

/* ---- what the calls of a row are given, and where they write ---- */

static uint8_t key[16], nonce[16], text[MOST], sealed[MOST + TAG], tape[HT_MOST_TAPE_BYTES], plain[HT_MOST_PLAIN_BYTES];
static uint8_t second[HT_MOST_PLAIN_BYTES];    /* plain bytes of another tape, with partly the same trucks */
static uint8_t again[HT_MOST_TAPE_BYTES];      /* the tape, as another mast heard it */
static ht_ticket tickets[TICKETS];
static const ht_head head = { 7, 2, 1 };
static size_t n;                   /* tickets of a tape */
static size_t heard;               /* bytes of it that each of two masts heard */
static size_t textlen, datalen;    /* bytes of a message */
static size_t each;                /* bytes of a piece */
static uint8_t out[HT_MOST_LISTING_BYTES], unread[MOST];
static uint32_t refused;           /* stays 0 while every call is done */
static uint64_t net;               /* of the tickets, as the last call has it; or its numbers of trucks, of bytes heard or of pairs */
static uint64_t plain_net;         /* of the tickets in the plain bytes */

/* ---- messages ---- */

static void seal_by_library(void)
{
    refused |= ht_seal(key, 16, nonce, 16, text, datalen, text, textlen, out, sizeof out).refused;
}

static void seal_by_c(void)
{
    unsigned long long len;
    opt_crypto_aead_encrypt(out, &len, text, textlen, text, datalen, 0, nonce, key);
}

static void seal_by_rust(void)
{
    rust_seal(key, nonce, text, datalen, text, textlen, out);
}

static void open_by_library(void)
{
    refused |= ht_open(key, 16, nonce, 16, text, datalen, sealed, textlen + TAG, out, sizeof out).refused;
}

static void open_by_c(void)
{
    unsigned long long len;
    refused |= opt_crypto_aead_decrypt(out, &len, 0, sealed, textlen + TAG, text, datalen, nonce, key) != 0;
}

static void open_by_rust(void)
{
    refused |= rust_open(key, nonce, text, datalen, sealed, textlen + TAG, out);
}

/* ---- sessions ---- */

/* For each piece, from `at` on and `some` bytes long; the last may be shorter than the others. */
#define PIECES(bytes) for (size_t at = 0, some; some = (bytes) - at < each ? (bytes) - at : each, some > 0; at += some)

static void session_by_library(void)
{
    ht_session s;
    ht_session_fresh_sealing(&s);
    refused |= ht_session_begin(&s, key, 16, nonce, 16).refused;
    PIECES(datalen) refused |= ht_session_data(&s, text + at, some).refused;
    PIECES(textlen) refused |= ht_session_seal_text(&s, text + at, some, out + at, some).refused;
    refused |= ht_session_seal_close(&s, out + textlen, TAG).refused;
}

static void session_by_c(void)
{
    acorn_state s;
    opt_init(&s, key, nonce);
    PIECES(datalen) opt_data(&s, text + at, some);
    opt_data_end(&s);
    PIECES(textlen) opt_enc(&s, text + at, out + at, some);
    opt_text_end(&s);
    opt_final(&s, out + textlen);
}

static void check_by_library(void)
{
    ht_session s;
    ht_session_fresh_checking(&s);
    refused |= ht_session_begin(&s, key, 16, nonce, 16).refused;
    PIECES(textlen) refused |= ht_session_check_text(&s, sealed + at, some).refused;
    refused |= ht_session_check_close(&s, sealed + textlen, TAG).refused;
}

/* The peer has no checking: it opens, and nobody looks at the text. */
static void check_by_c(void)
{
    unsigned long long len;
    refused |= opt_crypto_aead_decrypt(unread, &len, 0, sealed, textlen + TAG, text, 0, nonce, key) != 0;
}

static void check_pieces_by_c(void)
{
    acorn_state s;
    uint8_t tag[TAG], differ = 0;
    opt_init(&s, key, nonce);
    opt_data_end(&s);
    PIECES(textlen) opt_dec(&s, sealed + at, unread + at, some);
    opt_text_end(&s);
    opt_final(&s, tag);
    for (int i = 0; i < TAG; i++)
        differ |= tag[i] ^ sealed[textlen + i];
    refused |= differ;
}

/* ---- tapes ---- */

#define SET_FIELDS(t, i)                                                     \
    do {                                                                     \
        (t).form = 1;                                                        \
        (t).truck = (uint16_t)(1 + ((i) & 511));                             \
        (t).shovel = (uint8_t)(1 + ((i) & 31));                              \
        (t).tip = (uint8_t)(63 - ((i) & 31));                                \
        (t).grade = (uint8_t)((i) & 7);                                      \
        (t).loaded = 8 * (i);                                                \
        (t).tipped = 8 * (i) + 600;                                          \
        (t).gross = 250000 + (i);                                            \
        (t).tare = 110000;                                                   \
    } while (0)

/* A tape of tickets that lie ready in memory, and one with all fields of a ticket set just before its add. */
#define WRITE(maker, writer, fresh, start, add, finish)                      \
    static void write_ready_by_##maker(void)                                 \
    {                                                                        \
        writer w;                                                            \
        fresh(&w);                                                           \
        refused |= start(&w, key, 16, head, out, 9).refused;                 \
        for (size_t i = 0; i < n; i++)                                       \
            refused |= add(&w, tickets[i], out + 9 + 13 * i, 13).refused;    \
        refused |= finish(&w, out + 9 + 13 * n, TAG).refused;                \
    }                                                                        \
    static void write_set_by_##maker(void)                                   \
    {                                                                        \
        writer w;                                                            \
        ht_ticket t;                                                         \
        fresh(&w);                                                           \
        refused |= start(&w, key, 16, head, out, 9).refused;                 \
        for (uint32_t i = 0; i < n; i++) {                                   \
            SET_FIELDS(t, i);                                                \
            refused |= add(&w, t, out + 9 + 13 * i, 13).refused;             \
        }                                                                    \
        refused |= finish(&w, out + 9 + 13 * n, TAG).refused;                \
    }

WRITE(library, ht_writer, ht_writer_fresh, ht_writer_start, ht_writer_add, ht_writer_finish)
WRITE(c, peer_writer, peer_fresh, peer_start, peer_add, peer_finish)
WRITE(rust, rust_writer, rust_fresh, rust_start, rust_add, rust_finish)

#define OPEN_TAPE(maker, open_tape)                                          \
    static void open_tape_by_##maker(void)                                   \
    {                                                                        \
        ht_opened r = open_tape(key, 16, tape, 25 + 13 * n, out, sizeof out); \
        refused |= r.refused | (r.tickets != n);                             \
        net = r.net;                                                         \
    }

OPEN_TAPE(library, ht_open_tape)
OPEN_TAPE(c, peer_open_tape)
OPEN_TAPE(rust, rust_open_tape)

static void list_by_library(void)
{
    refused |= ht_list_tape(key, 16, tape, 25 + 13 * n, out, sizeof out).refused;
}

static void read_by_library(void)
{
    ht_reading r = { 0 };
    net = 0;
    while (r = ht_read_ticket(plain, 13 * n, r.position), !r.refused && !r.at_end)
        net += r.ticket.gross - r.ticket.tare;
    refused |= r.refused;
}

static void unpack_from(const uint8_t *packed)
{
    net = 0;
    for (size_t i = 0; i < n; i++) {
        ht_unpacked_ticket t = ht_unpack_ticket(packed + 13 * i, 13);
        refused |= t.refused;
        net += t.ticket.gross - t.ticket.tare;
    }
}

static void pack_into(const ht_ticket *all, uint8_t *packed)
{
    for (size_t i = 0; i < n; i++)
        refused |= ht_pack_ticket(all[i], packed + 13 * i, 13).refused;
}

static void unpack_by_library(void) { unpack_from(plain); }
static void pack_by_library(void) { pack_into(tickets, out); }

/* ---- forms ---- */

/* The same tickets in form 2, ready and packed. What packing writes goes aside: the bytes of the two forms are not compared. */
static ht_ticket day_tickets[TICKETS];
static uint8_t day_plain[13 * TICKETS], aside[13 * TICKETS];

static void unpack_form_2_by_library(void) { unpack_from(day_plain); }
static void pack_form_2_by_library(void) { pack_into(day_tickets, aside); }
static void pack_form_1_by_library(void) { pack_into(tickets, aside); }

static void move_by_library(void)
{
    net = 0;
    for (size_t i = 0; i < n; i++) {
        ht_unpacked_ticket t = ht_move_ticket(day_tickets[i], 1);
        refused |= t.refused;
        net += t.ticket.gross - t.ticket.tare;
    }
}

/* ---- trucks ---- */

#define TRUCKS(maker, of_one, of_two)                                        \
    static void trucks_by_##maker(void)                                      \
    {                                                                        \
        ht_truck_count r = of_one(plain, 13 * n);                            \
        refused |= r.refused;                                                \
        net = r.trucks;                                                      \
    }                                                                        \
    static void trucks_of_two_by_##maker(void)                               \
    {                                                                        \
        ht_truck_counts r = of_two(plain, 13 * n, second, 13 * n);           \
        refused |= r.refused;                                                \
        net = (uint64_t)r.both << 40 | (uint64_t)r.either << 20 | r.just_one; \
    }

TRUCKS(library, ht_trucks, ht_trucks_of_two)
TRUCKS(c, peer_trucks, peer_trucks_of_two)

/* The same calls where `totals` stands beside them: it has other numbers, and these are held against the peer's. */
static void trucks_alone_by_library(void)
{
    refused |= ht_trucks(plain, 13 * n).refused;
}

static void trucks_of_two_alone_by_library(void)
{
    refused |= ht_trucks_of_two(plain, 13 * n, second, 13 * n).refused;
}

static void totals_by_library(void)
{
    refused |= bench_totals(plain, 13 * n) != plain_net;
}

/* ---- receptions ---- */

/* The library compares eight bytes at once. Where its loop lies is the linker's choice; a loop across two cache lines may take longer. */
#define PARTING(maker, parting)                                              \
    static void parting_by_##maker(void)                                     \
    {                                                                        \
        ht_parted r = parting(tape, heard, again, heard);                    \
        refused |= r.refused;                                                \
        net = r.place;                                                       \
    }

PARTING(library, ht_parting)
PARTING(c, peer_parting)
PARTING(words, peer_parting_by_words)

#define LONGER(maker, longer)                                                \
    static void longer_by_##maker(void)                                      \
    {                                                                        \
        ht_reception r = longer(tape, heard, again, heard);                  \
        refused |= r.mast != 1;                                              \
        net = r.bytes;                                                       \
    }

LONGER(library, ht_longer)
LONGER(c, peer_longer)

/* ---- pairs ---- */

static uint8_t cab[HT_MOST_PLAIN_BYTES], crusher[HT_MOST_PLAIN_BYTES];
static uint32_t numbers[4 * TICKETS];    /* those of the pairs, and of what is left over on either tape */

#define PAIR(maker, pair_tapes)                                              \
    static void pair_by_##maker(void)                                        \
    {                                                                        \
        ht_paired r = pair_tapes(cab, 13 * n, crusher, 13 * n, numbers, 2 * TICKETS, \
            numbers + 2 * TICKETS, TICKETS, numbers + 3 * TICKETS, TICKETS); \
        refused |= r.refused;                                                \
        net = r.pairs << 40 | r.left_first << 20 | r.left_second;            \
    }

PAIR(library, ht_pair_tapes)
PAIR(c, peer_pair_tapes)

static void unpack_both_by_library(void)
{
    unpack_from(cab);
    unpack_from(crusher);
}

/* ---- the table ---- */

/* A call or several, the makers that have it, and the sizes that are timed. A program stands in the library's place; it makes RUNS runs.
 * Of two tapes to be paired the second has times close to the first's, all later or all earlier; `each` is the number of their trucks. */
typedef struct {
    const char *what;
    enum { TEXT, DATA, TAPE, HEARD, CLOSE, LATER, EARLIER } given;
    size_t each;
    void (*by[MAKERS])(void);
    size_t sizes[21];    /* up to the first 0 that is not in front */
    const char *program;
} call;

enum { RUNS = 400 };

#define BY_ALL(work) { work##_by_library, work##_by_c, work##_by_rust }
#define LENGTHS { 0, 16, 64, 512, 655, 1024, 2048, 6554, 8192, 65536 }
#define GROWTH { 0, 655, 6554, 65536 }
#define TICKET_GROWTH { 0, 50, 500, 5000 }
#define HEARD_GROWTH { 0, 650, 6503, 65025 }
#define PAIRS(given, times, each, trucks)                                    \
    { "ht_pair_tapes: tickets on each of two tapes, " trucks ", " times " (in Rust's place: ht_unpack_ticket over both tapes)", given, each, \
        { pair_by_library, pair_by_c, unpack_both_by_library }, { 0, 500, 5000 }, 0 }
#define PAIRS_OF_TRUCKS(each, trucks) PAIRS(CLOSE, "most in pairs", each, trucks), PAIRS(LATER, "the second far later", each, trucks), \
    PAIRS(EARLIER, "the second far earlier", each, trucks)

static const call calls[] = {
    { "ht_seal: bytes of text", TEXT, 0, BY_ALL(seal), LENGTHS, 0 },
    { "ht_seal: bytes of data", DATA, 0, BY_ALL(seal), LENGTHS, 0 },
    { "ht_open: bytes of text (C decrypts into its output at once)", TEXT, 0, BY_ALL(open),
        { 0, 1, 16, 64, 256, 511, 512, 513, 600, 655, 1024, 1025, 2048, 2049, 4096, 6554, 8192, 8193, 16384, 65536 }, 0 },
    { "ht_open: bytes of data", DATA, 0, BY_ALL(open), GROWTH, 0 },
    { "ht_session, checking: bytes of text in one piece (C opens)", TEXT, MOST, { check_by_library, check_by_c, 0 }, LENGTHS, 0 },
    { "ht_session, checking: bytes of text in pieces of 13 (C opens, by the cipher's parts)", TEXT, 13,
        { check_by_library, check_pieces_by_c, 0 }, GROWTH, 0 },
    { "ht_session, sealing: bytes of text in pieces of 13 (C by the cipher's parts)", TEXT, 13,
        { session_by_library, session_by_c, 0 }, GROWTH, 0 },
    { "ht_session, sealing: bytes of text in pieces of 1,024 (C by the cipher's parts)", TEXT, 1024,
        { session_by_library, session_by_c, 0 }, GROWTH, 0 },
    { "ht_session, sealing: bytes of data in pieces of 13 (C by the cipher's parts)", DATA, 13,
        { session_by_library, session_by_c, 0 }, GROWTH, 0 },
    { "ht_writer: tickets that are ready in memory", TAPE, 0, BY_ALL(write_ready), { 0, 1, 40, 50, 500, 5000 }, 0 },
    { "ht_writer: tickets whose fields are set just before their add", TAPE, 0, BY_ALL(write_set), { 0, 1, 40, 50, 500, 5000 }, 0 },
    { "ht_open_tape: tickets (C decrypts into its output at once)", TAPE, 0, BY_ALL(open_tape),
        { 0, 1, 2, 10, 39, 40, 50, 500, 5000 }, 0 },
    { "ht_list_tape: tickets", TAPE, 0, { list_by_library, 0, 0 }, TICKET_GROWTH, 0 },
    { "ht_read_ticket: tickets, a call for each and one at the end", TAPE, 0, { read_by_library, 0, 0 }, TICKET_GROWTH, 0 },
    { "ht_unpack_ticket: tickets, a call for each", TAPE, 0, { unpack_by_library, 0, 0 }, TICKET_GROWTH, 0 },
    { "ht_pack_ticket: tickets, a call for each", TAPE, 0, { pack_by_library, 0, 0 }, TICKET_GROWTH, 0 },
    { "ht_unpack_ticket: tickets of form 2, a call for each (in C's place: the library, form 1)", TAPE, 0,
        { unpack_form_2_by_library, unpack_by_library, 0 }, TICKET_GROWTH, 0 },
    { "ht_pack_ticket: tickets of form 2, a call for each (in C's place: the library, form 1)", TAPE, 0,
        { pack_form_2_by_library, pack_form_1_by_library, 0 }, TICKET_GROWTH, 0 },
    { "ht_move_ticket: tickets from form 2 to form 1, a call for each", TAPE, 0, { move_by_library, 0, 0 }, TICKET_GROWTH, 0 },
    { "ht_trucks: tickets", TAPE, 0, { trucks_by_library, trucks_by_c, 0 }, TICKET_GROWTH, 0 },
    { "ht_trucks: tickets (in C's place: ticket::totals, over the same bytes)", TAPE, 0,
        { trucks_alone_by_library, totals_by_library, 0 }, TICKET_GROWTH, 0 },
    { "ht_trucks_of_two: tickets on each of two tapes", TAPE, 0, { trucks_of_two_by_library, trucks_of_two_by_c, 0 }, TICKET_GROWTH, 0 },
    { "ht_trucks_of_two: tickets on each of two tapes (in C's place: ticket::totals, over one of them)", TAPE, 0,
        { trucks_of_two_alone_by_library, totals_by_library, 0 }, TICKET_GROWTH, 0 },
    { "ht_parting: bytes of each of two equal receptions (C byte by byte; in Rust's place: C by words of 8 bytes)", HEARD, 0,
        { parting_by_library, parting_by_c, parting_by_words }, HEARD_GROWTH, 0 },
    { "ht_longer: bytes of each of two equal receptions (C byte by byte)", HEARD, 0, { longer_by_library, longer_by_c, 0 }, HEARD_GROWTH, 0 },
    PAIRS_OF_TRUCKS(1, "1 truck"),
    PAIRS_OF_TRUCKS(20, "20 trucks"),
    PAIRS_OF_TRUCKS(1000, "1,000 trucks"),
    { "bench_pieces, a Rattle program: bytes of text through a session in pieces of 13 (C by the cipher's parts)", TEXT, 13,
        { 0, session_by_c, 0 }, { 65000 }, "target/bin/bench_pieces" },
    { "bench_tape, a Rattle program: tickets through a writer, their fields set just before their add", TAPE, 0,
        { 0, write_set_by_c, write_set_by_rust }, { 5000 }, "target/bin/bench_tape" },
};

/* A row: a call with one size. */
typedef struct {
    const call *call;
    size_t size;
    double time[MAKERS], count[MAKERS];    /* nanoseconds and instructions of a call; 0 where there are none */
} row;

enum { CALLS = sizeof calls / sizeof calls[0], MOST_ROWS = 200, PASSES = 10 };
static row rows[MOST_ROWS];
static size_t all;

static _Noreturn void fail(const char *what, const char *why)
{
    fprintf(stderr, "bench: %s: %s\n", what, why);
    exit(1);
}

static int pairs(const call *c)
{
    return c->given == CLOSE || c->given == LATER || c->given == EARLIER;
}

/* Another build of the library is timed without the programs and `totals`. */
static int left_out(const call *c)
{
    int totals = c->by[C] == totals_by_library;
    return (totals && !bench_totals) || ((totals || c->program) && getenv("HAUL_TAPE_LIB"));
}

static void make_rows(void)
{
    for (const call *c = calls; c < calls + CALLS; c++)
        for (size_t i = 0; (i == 0 || c->sizes[i]) && !left_out(c); i++) {
            if (all == MOST_ROWS) fail(c->what, "no room");
            rows[all++] = (row){ .call = c, .size = c->sizes[i] };
        }
}

static void make_inputs(void)
{
    for (size_t i = 0; i < MOST; i++)
        text[i] = (uint8_t)(i * 167 + (i >> 8));
    for (int i = 0; i < 16; i++)
        key[i] = (uint8_t)(i * 3 + 1), nonce[i] = (uint8_t)(i * 5 + 2);
    for (uint32_t i = 0; i < TICKETS; i++) {    /* those of the second tape: odd trucks, to 1,023 */
        SET_FIELDS(tickets[i], i);
        tickets[i].truck = (uint16_t)(2 * tickets[i].truck - 1);
    }
    n = TICKETS;
    write_ready_by_c();
    refused |= peer_open_tape(key, 16, out, 25 + 13 * n, second, sizeof second).refused;
    for (uint32_t i = 0; i < TICKETS; i++) {
        SET_FIELDS(tickets[i], i);
        ht_unpacked_ticket moved = ht_move_ticket(tickets[i], 2);
        day_tickets[i] = moved.ticket;
        refused |= moved.refused | ht_pack_ticket(moved.ticket, day_plain + 13 * i, 13).refused;
    }
}

/* Two tapes to be paired. The trucks come by turns, and all times rise. Where they are close, the second clock is a minute ahead, and of
 * sixteen of its tickets one has a truck that the first tape has not. */
static void make_tapes_to_pair(const call *c)
{
    const int close = c->given == CLOSE;
    for (uint32_t i = 0; i < n; i++) {
        ht_ticket t;
        SET_FIELDS(t, i);
        t.loaded = 0;
        t.truck = (uint16_t)(1 + i % c->each);
        t.tipped = close ? 8 * i : 4 * i + (c->given == EARLIER ? 22000 : 0);
        refused |= ht_pack_ticket(t, cab + 13 * i, 13).refused;
        t.truck = close && i % 16 == 15 ? 1023 : t.truck;
        t.tipped = close ? 8 * i + 60 : 4 * i + (c->given == LATER ? 22000 : 0);
        refused |= ht_pack_ticket(t, crusher + 13 * i, 13).refused;
    }
}

/* What the calls of a row are given, made by the peer in C. */
static void prepare(const row *r)
{
    unsigned long long len;
    each = r->call->each;
    textlen = r->call->given == TEXT ? r->size : 0, datalen = r->call->given == DATA ? r->size : 0;
    opt_crypto_aead_encrypt(sealed, &len, text, textlen, text, datalen, 0, nonce, key);
    n = r->call->given == TAPE || pairs(r->call) ? r->size : r->call->given == HEARD ? TICKETS : 0;
    heard = r->call->given == HEARD ? r->size : 0;
    write_ready_by_c();
    memcpy(tape, out, 25 + 13 * n);
    memcpy(again, out, 25 + 13 * n);
    ht_opened opened = peer_open_tape(key, 16, tape, 25 + 13 * n, plain, sizeof plain);
    refused |= opened.refused;
    plain_net = opened.net;
    if (pairs(r->call)) make_tapes_to_pair(r->call);
}

/* Ends the program where a call is sent back, or where the makers write different bytes or have different totals or other numbers. */
static void compare(const row *r)
{
    static uint8_t first[sizeof out];
    static uint32_t first_numbers[4 * TICKETS];
    uint64_t first_net = 0;
    int makers = 0;
    prepare(r);
    for (int m = 0; m < MAKERS; m++) {
        if (!r->call->by[m]) continue;
        memset(out, 0, sizeof out), memset(numbers, 0, sizeof numbers), net = 0;
        r->call->by[m]();
        if (refused) fail(r->call->what, "a call is sent back");
        if (r->call->by[m] == unpack_both_by_library) continue;    /* other work, of which only the time is compared */
        if (makers++ == 0) memcpy(first, out, sizeof out), memcpy(first_numbers, numbers, sizeof numbers), first_net = net;
        if (memcmp(first, out, sizeof out) != 0 || memcmp(first_numbers, numbers, sizeof numbers) != 0 || net != first_net)
            fail(r->call->what, "library and peer differ");
    }
}

/* The rows have receptions that do not part. Here are those that do: all pairs of lengths to 40, the second parting from the first at each
 * place, or nowhere. */
static void compare_receptions(void)
{
    enum { LONGEST = 40 };
    uint8_t a[LONGEST], b[LONGEST];
    memcpy(a, text, LONGEST), memcpy(b, text, LONGEST);
    for (size_t place = LONGEST;; b[--place] ^= 1) {
        for (size_t i = 0; i <= LONGEST; i++)
            for (size_t j = 0; j <= LONGEST; j++) {
                ht_parted p = ht_parting(a, i, b, j), c = peer_parting(a, i, b, j), w = peer_parting_by_words(a, i, b, j);
                ht_reception l = ht_longer(a, i, b, j), k = peer_longer(a, i, b, j);
                if (p.refused != c.refused || p.place != c.place || p.refused != w.refused || p.place != w.place
                    || l.mast != k.mast || l.bytes != k.bytes)
                    fail("receptions", "library and peer differ");
            }
        if (place == 0) break;
    }
}

/* ---- times ---- */

static double now(void)
{
    struct timespec t;
    clock_gettime(CLOCK_MONOTONIC, &t);
    return 1e9 * (double)t.tv_sec + (double)t.tv_nsec;
}

/* The time of the processor alone, that of ended children in it: for turns so long that other processes come between. */
static double used(void)
{
    double sum = 0;
    for (int i = 0; i < 2; i++) {
        struct rusage u;
        getrusage(i ? RUSAGE_CHILDREN : RUSAGE_SELF, &u);
        sum += 1e9 * (double)(u.ru_utime.tv_sec + u.ru_stime.tv_sec) + 1e3 * (double)(u.ru_utime.tv_usec + u.ru_stime.tv_usec);
    }
    return sum;
}

static void run(const char *path)
{
    char *argv[] = { (char *)path, NULL };
    posix_spawn_file_actions_t silent;
    pid_t child;
    int status;
    posix_spawn_file_actions_init(&silent);
    posix_spawn_file_actions_addopen(&silent, 1, "/dev/null", O_WRONLY, 0);
    if (posix_spawn(&child, path, &silent, NULL, argv, environ) != 0 || waitpid(child, &status, 0) < 0 || status != 0)
        fail(path, "cannot be run");
    posix_spawn_file_actions_destroy(&silent);
}

/* Nanoseconds of a call, over so many. */
static double turn(const row *r, int maker, int times)
{
    double (*clock)(void) = r->call->program ? used : now;
    double start = clock();
    if (!r->call->by[maker])
        run(r->call->program);
    else
        for (int i = 0; i < times; i++)
            r->call->by[maker]();
    return (clock() - start) / times;
}

/* Rounds of a row for so many nanoseconds. In a round each maker has a turn, and the order goes round, too. The best turn of each
 * counts: over several passes each has turns with the highest clock and nothing else running. */
static void time_row(row *r, double nanoseconds)
{
    const double length = 40e3;    /* of a turn, if a call is not longer */
    double start = now(), one;
    prepare(r);
    one = turn(r, r->call->program ? C : LIBRARY, 3);
    int times = r->call->program ? RUNS : one < length ? (int)(length / one) + 1 : 1;
    for (int i = 0; i < 4 || now() - start < nanoseconds; i++)
        for (int k = 0; k < MAKERS; k++) {
            int m = (i + k) % MAKERS;
            if (!r->call->by[m] && !(m == LIBRARY && r->call->program)) continue;
            double time = turn(r, m, times);
            if (r->time[m] == 0 || time < r->time[m]) r->time[m] = time;
        }
}

/* ---- instruction counts ---- */

__attribute__((noipa)) void counted(void (*work)(void))
{
    work();
}

static void count_rows(void)
{
    for (size_t i = 0; i < all; i++) {
        prepare(&rows[i]);
        for (int m = 0; m < MAKERS; m++)
            if (rows[i].call->by[m]) counted(rows[i].call->by[m]);
    }
}

/* The totals in that order, and then those of the programs. */
static void read_counts(const char *path)
{
    FILE *f = fopen(path, "r");
    int good = f != NULL;
    for (size_t i = 0; i < all; i++)
        for (int m = 0; m < MAKERS; m++)
            if (rows[i].call->by[m]) good = good && fscanf(f, "%lf", &rows[i].count[m]) == 1;
    for (size_t i = 0; i < all; i++)
        if (rows[i].call->program) good = good && fscanf(f, "%lf", &rows[i].count[LIBRARY]) == 1, rows[i].count[LIBRARY] /= RUNS;
    if (!good || fscanf(f, "%*f") != EOF) fail(path, "not as many counts as there are rows");
    fclose(f);
}

/* ---- printing ---- */

static void print_number(int width, int digits, double x)
{
    if (x > 0)
        printf(" %*.*f", width, digits, x);
    else
        printf(" %*s", width, "-");
}

static void print_numbers(const double *x, double one, const char *end)
{
    print_number(9, 0, x[LIBRARY]);
    print_number(9, 0, x[C]);
    print_number(6, 3, x[C] > 0 ? x[LIBRARY] / x[C] : 0);
    print_number(9, 0, x[RUST]);
    print_number(6, 3, x[RUST] > 0 ? x[LIBRARY] / x[RUST] : 0);
    if (one > 0)
        printf(" %7.*f%s", one < 100 ? 2 : 1, one, end);
    else
        printf("%*s%s", *end == '\n' ? 0 : 8, "", end);
}

static void print_table(void)
{
    const row *none = NULL;    /* the row of size 0 of the same call */
    puts("A row is a whole message, session or tape; of a program, one of its runs. Ratio: the library's number to the peer's. Each: what\n"
         "one byte or ticket comes to in the library's number, that of size 0 taken off, at 1, 10 and 100 % of the limit.\n");
    printf("%14s%33s%20s |%33s\n", "", "nanoseconds", "", "instructions");
    printf("%7s %6s", "size", "limit");
    for (int i = 0; i < 2; i++)
        printf(" %9s %9s %6s %9s %6s %7s%s", "library", "C", "ratio", "Rust", "ratio", "each", i ? "\n" : " |");
    for (const row *r = rows; r < rows + all; r++) {
        size_t limit = r->call->given == TAPE || pairs(r->call) ? TICKETS : r->call->given == HEARD ? HT_MOST_TAPE_BYTES : MOST;
        int percent = r->size == limit ? 100 : r->size == (limit + 5) / 10 ? 10 : r->size == limit / 100 ? 1 : 0;
        double time = 0, count = 0;
        if (r == rows || r->call != r[-1].call) {
            printf("\n%s\n", r->call->what);
            none = r->size == 0 ? r : NULL;
        }
        if (percent && none) {
            time = (r->time[LIBRARY] - none->time[LIBRARY]) / (double)r->size;
            count = (r->count[LIBRARY] - none->count[LIBRARY]) / (double)r->size;
        }
        printf("%7zu ", r->size);
        if (percent)
            printf("%4d %%", percent);
        else
            printf("%6s", "");
        print_numbers(r->time, time, " |");
        print_numbers(r->count, count, "\n");
    }
}

/* The worst rows of pairing. It is to take at most 20 times the unpacking of both tapes, and at most 15 times as long for ten times the
 * tickets. */
static void print_pairing(void)
{
    double unpacking = 0, growth = 0;
    for (const row *r = rows + 1; r < rows + all; r++) {
        if (!pairs(r->call) || r->size != TICKETS) continue;
        double to_unpacking = r->time[LIBRARY] / r->time[RUST], grown = r->time[LIBRARY] / r[-1].time[LIBRARY];
        if (to_unpacking > unpacking) unpacking = to_unpacking;
        if (grown > growth) growth = grown;
    }
    printf("\nPairing of 5,000 tickets takes, in its worst rows, %.2f times the unpacking of both tapes (at most 20) and %.2f times the\n"
           "pairing of 500 (at most 15).\n", unpacking, growth);
}

int main(int argc, char **argv)
{
    if (argc < 2) fail("usage", "bench SECONDS [COUNTS] or bench --count");
    make_inputs();
    make_rows();
    for (size_t i = 0; i < all; i++)
        compare(&rows[i]);
    compare_receptions();
    if (strcmp(argv[1], "--count") == 0) {
        count_rows();
        return 0;
    }
    if (argc > 2) read_counts(argv[2]);
    for (int pass = 0; pass < PASSES; pass++)
        for (size_t i = 0; i < all; i++)
            time_row(&rows[i], 1e9 * atof(argv[1]) / PASSES);
    if (refused) fail("timing", "a call was sent back");
    print_table();
    print_pairing();
    return 0;
}
