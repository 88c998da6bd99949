/* Every call of the header: two tickets go onto a tape, the tape is opened and read back, a message is sealed and checked in pieces,
 * the trucks of tapes are counted, tickets are judged by their weights and by their times in both forms and moved from one form to the
 * other, messages have tags of every length, two receptions of a tape are compared, and the tickets of two tapes are paired. Prints what it
 * read, and ends with 1 where anything is not as it should be.
 */
#include "haul_tape.h"

#include <inttypes.h>
#include <stddef.h>
#include <stdio.h>
#include <stdlib.h>
#include <string.h>

static const uint8_t key[HT_KEY_BYTES] = {1, 2, 3, 4, 5, 6, 7, 8, 9, 10, 11, 12, 13, 14, 15, 16};

_Static_assert(sizeof(ht_ticket) == 24 && offsetof(ht_ticket, truck) == 2 && offsetof(ht_ticket, tip) == 5 && offsetof(ht_ticket, loaded) == 8, "layout");
_Static_assert(sizeof(ht_head) == 12 && sizeof(ht_answer) == 24 && sizeof(ht_written) == 16 && sizeof(ht_opened) == 24, "layout");
_Static_assert(sizeof(ht_reading) == 40 && sizeof(ht_unpacked_ticket) == 28 && sizeof(ht_unpacked_head) == 16, "layout");
_Static_assert(sizeof(ht_truck_count) == 8 && sizeof(ht_truck_counts) == 16 && sizeof(ht_truck_set) == 128, "layout");
_Static_assert(sizeof(ht_session) == 88 && sizeof(ht_writer) == 96, "layout");
_Static_assert(sizeof(ht_parted) == 16 && offsetof(ht_parted, place) == 8, "layout");
_Static_assert(sizeof(ht_reception) == 16 && offsetof(ht_reception, bytes) == 8, "layout");
_Static_assert(sizeof(ht_paired) == 32 && offsetof(ht_paired, pairs) == 8 && offsetof(ht_paired, left_second) == 24, "layout");

static void must(int holds, const char *what)
{
    if (!holds) {
        fprintf(stderr, "calls: %s\n", what);
        exit(1);
    }
}

static int same_ticket(ht_ticket a, ht_ticket b)
{
    return a.form == b.form && a.truck == b.truck && a.shovel == b.shovel && a.tip == b.tip && a.grade == b.grade
        && a.loaded == b.loaded && a.tipped == b.tipped && a.gross == b.gross && a.tare == b.tare;
}

/* The writer hands out the tape piece by piece: head, tickets, tag. Nothing is kept but the words of `w`. */
static size_t write_tape(ht_head head, const ht_ticket *tickets, size_t n, uint8_t *tape, size_t room)
{
    ht_writer w;
    ht_answer a;
    size_t at = 0;

    ht_writer_fresh(&w);
    a = ht_writer_start(&w, key, sizeof key, head, tape, room);
    must(a.refused == 0, "start is refused");
    at += a.bytes;
    for (size_t i = 0; i < n; i++) {
        a = ht_writer_add(&w, tickets[i], tape + at, room - at);
        must(a.refused == 0, "a ticket is refused");
        at += a.bytes;
    }
    must(ht_writer_add(&w, (ht_ticket){0}, tape + at, room - at).refused == 4, "a ticket of zeros is taken");
    a = ht_writer_finish(&w, tape + at, room - at);
    must(a.refused == 0, "finish is refused");
    must(ht_writer_finish(&w, tape, room).refused == 1, "a finished tape is finished again");
    return at + a.bytes;
}

/* Opening writes 13 plain bytes a ticket, from which the tickets are read one by one. */
static void read_tape(uint8_t *tape, size_t tapelen, ht_head head, const ht_ticket *tickets, uint64_t n)
{
    uint8_t plain[2 * HT_TICKET_BYTES] = {0}, zeros[sizeof plain] = {0}, packed[HT_TICKET_BYTES];

    /* a changed tape is refused, and no byte is written */
    tape[tapelen - 1] ^= 1;
    must(ht_open_tape(key, sizeof key, tape, tapelen, plain, sizeof plain).refused == 7, "a changed tape opens");
    must(memcmp(plain, zeros, sizeof plain) == 0, "a refused call writes");
    tape[tapelen - 1] ^= 1;

    ht_unpacked_head h = ht_unpack_head(tape, HT_HEAD_BYTES); /* the head is not encrypted */
    must(h.refused == 0, "the head does not unpack");
    must(h.head.device == head.device && h.head.shift == head.shift && h.head.sheet == head.sheet, "the head differs");
    ht_opened o = ht_open_tape(key, sizeof key, tape, tapelen, plain, sizeof plain);
    must(o.refused == 0 && o.tickets == n, "the tape does not open");
    printf("device %" PRIu32 ", shift %" PRIu32 ", sheet %" PRIu32 "\n", h.head.device, h.head.shift, h.head.sheet);

    ht_reading r = {0};
    for (;;) {
        uint64_t i = r.position;
        r = ht_read_ticket(plain, sizeof plain, i);
        must(r.refused == 0, "a ticket does not unpack");
        if (r.at_end)
            break;
        must(r.position == i + 1 && same_ticket(r.ticket, tickets[i]), "another ticket was read");
        ht_ticket t = r.ticket;
        printf("truck %u, shovel %u, tip %u, grade %u, ", t.truck, t.shovel, t.tip, t.grade);
        printf("loaded %" PRIu32 ", tipped %" PRIu32 ", gross %" PRIu32 ", tare %" PRIu32 "\n", t.loaded, t.tipped, t.gross, t.tare);

        /* a ticket packs to the 13 bytes that it was read from, and they unpack to it */
        must(ht_pack_ticket(t, packed, sizeof packed).bytes == sizeof packed, "a ticket does not pack");
        must(memcmp(packed, plain + i * HT_TICKET_BYTES, sizeof packed) == 0, "a ticket packs to other bytes");
        must(same_ticket(ht_unpack_ticket(packed, sizeof packed).ticket, t), "a ticket unpacks to another");
    }
    must(r.position == n, "the end comes too early");
    must(ht_trucks(plain, sizeof plain).trucks == n, "the trucks are counted otherwise"); /* each ticket has another */
    printf("%" PRIu64 " tickets, net %" PRIu64 " kg\n", o.tickets, o.net);
}

/* Document 01's ticket and head pack to the bytes that it gives, and are listed as it says. */
static void known_answers(void)
{
    static const uint8_t ticket_bytes[HT_TICKET_BYTES] = {0x10, 0x14, 0x20, 0xd0, 0x38, 0x40, 0x41, 0xa0, 0xf4, 0x24, 0x06, 0xb6, 0xc0};
    static const uint8_t head_bytes[HT_HEAD_BYTES] = {0, 0, 0, 7, 0, 0, 0x20, 0, 1};
    static const char listing[] = "TAPE 7 2 1\n1 5 2 3 4 3600 4200 140000\nTOTAL 1 140000\n";
    const ht_ticket ticket = {.form = 1, .truck = 5, .shovel = 2, .tip = 3, .grade = 4,
        .loaded = 3600, .tipped = 4200, .gross = 250000, .tare = 110000};
    const ht_head head = {.device = 7, .shift = 2, .sheet = 1};
    uint8_t packed[HT_TICKET_BYTES], tape[HT_HEAD_BYTES + HT_TICKET_BYTES + HT_TAG_BYTES];
    static uint8_t text[HT_MOST_LISTING_BYTES];

    must(ht_pack_ticket(ticket, packed, sizeof packed).refused == 0, "the ticket does not pack");
    must(memcmp(packed, ticket_bytes, sizeof ticket_bytes) == 0, "the ticket packs to other bytes");
    must(ht_pack_head(head, packed, sizeof packed).refused == 0, "the head does not pack");
    must(memcmp(packed, head_bytes, sizeof head_bytes) == 0, "the head packs to other bytes");
    size_t n = write_tape(head, &ticket, 1, tape, sizeof tape);
    ht_written w = ht_list_tape(key, sizeof key, tape, n, text, sizeof text);
    must(w.refused == 0 && w.bytes == sizeof listing - 1, "the listing has another length");
    must(memcmp(text, listing, sizeof listing - 1) == 0, "the listing differs");
}

/* A message in pieces, and at once: the same bytes. */
static void message(void)
{
    static const uint8_t nonce[HT_NONCE_BYTES] = {1}; /* of one message only under this key */
    static const uint8_t head[] = "station 7", text[] = "pump 2 stopped at 04:10";
    const size_t n = sizeof text, first = 10;
    uint8_t sealed[sizeof text + HT_TAG_BYTES], whole[sizeof sealed], opened[sizeof text];
    ht_session s;

    ht_session_fresh_sealing(&s);
    must(ht_session_begin(&s, key, sizeof key, nonce, sizeof nonce).refused == 0, "begin is refused");
    must(ht_session_data(&s, head, sizeof head).refused == 0, "data is refused");
    must(ht_session_seal_text(&s, text, first, sealed, n).bytes == first, "text is refused");
    must(ht_session_seal_text(&s, text + first, n - first, sealed + first, n - first).bytes == n - first, "text is refused");
    ht_answer a = ht_session_seal_close(&s, sealed + n, HT_TAG_BYTES);
    must(a.bytes == HT_TAG_BYTES && a.steps == 3072 + 8 * (sizeof head + n), "close is refused");

    ht_written wr = ht_seal(key, sizeof key, nonce, sizeof nonce, head, sizeof head, text, n, whole, sizeof whole);
    must(wr.refused == 0 && wr.bytes == sizeof whole, "seal is refused");
    must(memcmp(sealed, whole, sizeof whole) == 0, "pieces give other bytes");
    wr = ht_open(key, sizeof key, nonce, sizeof nonce, head, sizeof head, sealed, sizeof sealed, opened, sizeof opened);
    must(wr.refused == 0 && wr.bytes == n, "open is refused");
    must(memcmp(opened, text, n) == 0, "another text opens");

    /* a checking session takes the ciphertext and says whether the tag is right */
    ht_session_fresh_checking(&s);
    must(ht_session_begin(&s, key, sizeof key, nonce, sizeof nonce).refused == 0, "begin is refused");
    must(ht_session_data(&s, head, sizeof head).refused == 0, "data is refused");
    must(ht_session_check_text(&s, sealed, n).refused == 0, "text is refused");
    must(ht_session_check_close(&s, sealed + n, HT_TAG_BYTES).refused == 0, "the tag differs");
    printf("%zu bytes sealed and checked in %" PRIu64 " steps: %s\n", n, a.steps, (const char *)opened);
}

/* ---- trucks out on the shift ---- */

/* opened bytes, and the number that they are refused with */
typedef struct { const uint8_t *plain; size_t bytes; uint32_t refused; } opened_tape;

/* The plain bytes of a ticket for each truck. */
static opened_tape tape_of(const uint16_t *trucks, size_t n, uint8_t *plain)
{
    for (size_t i = 0; i < n; i++) {
        ht_ticket t = {.form = 1, .truck = trucks[i], .shovel = 2, .tip = 3, .grade = 4,
            .loaded = 3600, .tipped = 4200, .gross = 250000, .tare = 110000};
        must(ht_pack_ticket(t, plain + i * HT_TICKET_BYTES, HT_TICKET_BYTES).refused == 0, "a ticket does not pack");
    }
    return (opened_tape){plain, n * HT_TICKET_BYTES, 0};
}

/* One tape. The set is written whole, or where refused left as it was, and no word beside it is written. */
static ht_truck_set trucks_on(opened_tape t, uint32_t trucks)
{
    const uint64_t pattern = 0x5a5a5a5a5a5a5a5a;
    struct { uint64_t before[2]; ht_truck_set set; uint64_t behind[2]; } placed;
    uint32_t bits = 0;

    ht_truck_count c = ht_trucks(t.plain, t.bytes);
    must(c.refused == t.refused && c.trucks == trucks, "ht_trucks answers otherwise");
    memset(&placed, 0x5a, sizeof placed);
    c = ht_truck_set_of(t.plain, t.bytes, &placed.set);
    must(c.refused == t.refused && c.trucks == trucks, "ht_truck_set_of answers otherwise");
    for (size_t i = 0; i < 2; i++)
        must(placed.before[i] == pattern && placed.behind[i] == pattern, "a word beside the set is written");
    for (size_t i = 0; i < 16; i++) {
        must(t.refused == 0 || placed.set.words[i] == pattern, "a refused call writes a set");
        for (uint64_t word = placed.set.words[i]; word != 0; word &= word - 1)
            bits++;
    }
    must(t.refused != 0 || bits == trucks, "the set has another number of trucks");
    return placed.set;
}

/* Two tapes, in both orders. */
static void trucks_on_two(opened_tape a, opened_tape b, uint32_t refused, uint32_t both, uint32_t either, uint32_t just_one)
{
    for (int turn = 0; turn < 2; turn++) {
        opened_tape first = turn == 0 ? a : b, second = turn == 0 ? b : a;
        ht_truck_counts c = ht_trucks_of_two(first.plain, first.bytes, second.plain, second.bytes);

        must(c.refused == refused, "ht_trucks_of_two is refused otherwise");
        must(c.both == both && c.either == either && c.just_one == just_one, "ht_trucks_of_two answers otherwise");
    }
}

static void trucks(void)
{
    static const uint16_t first_trucks[7] = {63, 5, 64, 1023, 5, 63, 5}, second_trucks[6] = {1023, 1, 64, 128, 1023, 129};
    static uint16_t every[1023], many[HT_MOST_TICKETS + 1];
    static uint8_t first_plain[7 * HT_TICKET_BYTES], second_plain[6 * HT_TICKET_BYTES], every_plain[1023 * HT_TICKET_BYTES];
    static uint8_t many_plain[HT_MOST_PLAIN_BYTES + HT_TICKET_BYTES], bad_plain[3][3 * HT_TICKET_BYTES], ticket[HT_TICKET_BYTES];
    const uint64_t last = UINT64_C(1) << 63;

    /* one tape: a truck counts once, however often it hauled */
    const opened_tape none = {first_plain, 0, 0};
    const opened_tape first = tape_of(first_trucks, 7, first_plain), second = tape_of(second_trucks, 6, second_plain);
    const ht_truck_set first_set = {{last | 1 << 5, 1, [15] = last}}, second_set = {{1 << 1, 1, 3, [15] = last}}, no_set = {{0}};
    ht_truck_set set = trucks_on(first, 4);
    must(memcmp(&set, &first_set, sizeof set) == 0, "another set");
    set = trucks_on(second, 5);
    must(memcmp(&set, &second_set, sizeof set) == 0, "another set");
    set = trucks_on(none, 0);
    must(memcmp(&set, &no_set, sizeof set) == 0, "another set");

    /* every truck by itself, and all of them */
    for (uint16_t k = 1; k <= 1023; k++) {
        every[k - 1] = k;
        set = trucks_on(tape_of(&k, 1, ticket), 1);
        must(set.words[k / 64] == UINT64_C(1) << k % 64, "a truck is another bit");
    }
    const opened_tape all = tape_of(every, 1023, every_plain);
    trucks_on(all, 1023);

    /* two tapes: 64 and 1,023 are on both */
    trucks_on_two(first, second, 0, 2, 7, 5);
    trucks_on_two(first, first, 0, 4, 4, 0);
    trucks_on_two(first, none, 0, 0, 4, 4);
    trucks_on_two(none, none, 0, 0, 0, 0);
    trucks_on_two(first, all, 0, 4, 1023, 1019);
    printf("4 trucks on a tape, 5 on another: 2 on both, 7 on either, 5 on just one\n");

    /* 5,000 tickets are taken, and 5,001 are not */
    for (size_t i = 0; i < HT_MOST_TICKETS + 1; i++)
        many[i] = (uint16_t)(1 + i % 700);
    tape_of(many, HT_MOST_TICKETS + 1, many_plain);
    const opened_tape most = {many_plain, HT_MOST_PLAIN_BYTES, 0};
    trucks_on(most, 700);
    trucks_on_two(most, all, 0, 700, 1023, 323);

    /* wrong lengths, tickets that do not unpack, and both: each with each */
    for (size_t i = 0; i < 3; i++) {
        tape_of(first_trucks, 3, bad_plain[i]);
        bad_plain[i][(i + 1) * HT_TICKET_BYTES - 1] |= 1; /* a spare bit of the first ticket, the second or the third */
    }
    const opened_tape refused[] = {
        {first_plain, 1, 2}, {first_plain, 12, 2}, {first_plain, 14, 2}, {many_plain, HT_MOST_PLAIN_BYTES - 1, 2},
        {many_plain, HT_MOST_PLAIN_BYTES + 1, 2}, {many_plain, HT_MOST_PLAIN_BYTES + 13, 2}, {bad_plain[0], 38, 2},
        {bad_plain[0], 39, 8}, {bad_plain[1], 39, 8}, {bad_plain[2], 39, 8},
    };
    const size_t n = sizeof refused / sizeof *refused;
    for (size_t i = 0; i < n; i++) {
        trucks_on(refused[i], 0);
        trucks_on_two(refused[i], first, refused[i].refused, 0, 0, 0);
        trucks_on_two(refused[i], none, refused[i].refused, 0, 0, 0);
        for (size_t j = 0; j < n; j++)
            trucks_on_two(refused[i], refused[j], refused[i].refused == 8 ? refused[j].refused : 2, 0, 0, 0);
    }
}

/* ---- gross and tare ---- */

enum { ROOM = 2 * HT_TICKET_BYTES };

static void fill(uint8_t *bytes, size_t n)
{
    memset(bytes, 0x5a, n);
}

static void must_be_filled(const uint8_t *bytes, size_t n)
{
    for (size_t i = 0; i < n; i++)
        must(bytes[i] == 0x5a, "a byte is written that must not be");
}

/* Packing a ticket, into 12 bytes and into more than 13: a broken rule comes before a short output. */
static void packs(ht_ticket t, int right, const uint8_t *packed)
{
    uint8_t out[ROOM];

    fill(out, sizeof out);
    must(ht_pack_ticket(t, out, HT_TICKET_BYTES - 1).refused == (right ? 6 : 4), "a ticket is packed in 12 bytes");
    must_be_filled(out, sizeof out);
    ht_written w = ht_pack_ticket(t, out, sizeof out);
    must(w.refused == (right ? 0 : 4) && w.bytes == (right ? HT_TICKET_BYTES : 0), "ht_pack_ticket answers otherwise");
    must_be_filled(out + w.bytes, sizeof out - w.bytes);
    must(memcmp(out, packed, w.bytes) == 0, "a ticket packs to other bytes");
}

/* What a ticket's bytes unpack to. */
static void unpacks(ht_ticket t, int right, const uint8_t *packed)
{
    const ht_ticket none = {0};
    ht_unpacked_ticket u = ht_unpack_ticket(packed, HT_TICKET_BYTES);

    must(u.refused == (right ? 0 : 8) && same_ticket(u.ticket, right ? t : none), "ht_unpack_ticket answers otherwise");
}

/* A ticket that breaks the rule, added to a tape that has been started. */
static void is_not_added(ht_ticket t)
{
    uint8_t out[ROOM];
    ht_writer writer, before;

    ht_writer_fresh(&writer);
    must(ht_writer_start(&writer, key, sizeof key, (ht_head){7, 2, 1}, out, sizeof out).refused == 0, "start is refused");
    before = writer;
    fill(out, sizeof out);
    ht_answer a = ht_writer_add(&writer, t, out, sizeof out);
    must(a.refused == 4 && a.bytes == 0 && a.steps == 0, "ht_writer_add answers otherwise");
    must(memcmp(&writer, &before, sizeof writer) == 0, "a refused call changes the writer");
    must_be_filled(out, sizeof out);
}

/* A ticket with this gross and tare, on a tape behind another. It keeps the rule where the tare is at most the gross. */
static void weighed(uint32_t gross, uint32_t tare)
{
    const ht_head head = {.device = 7, .shift = 2, .sheet = 1};
    const ht_ticket first = {.form = 1, .truck = 5, .shovel = 2, .tip = 3, .grade = 4,
        .loaded = 3600, .tipped = 4200, .gross = 250000, .tare = 110000}, zeros = {0};
    const int right = tare <= gross;
    const uint32_t refused = right ? 0 : 8;
    ht_ticket t = first, no_tare;
    uint8_t plain[ROOM], out[ROOM], nonce[HT_NONCE_BYTES] = {0}, tape[HT_HEAD_BYTES + ROOM + HT_TAG_BYTES], by_writer[sizeof tape];
    uint8_t *packed = plain + HT_TICKET_BYTES;
    char listing[100] = "REFUSED 8\n", text[100];

    /* the ticket's bytes, whether it keeps the rule or not: the tare goes between the gross and two spare bits */
    t.truck = 6, t.gross = gross, t.tare = 0;
    no_tare = t, t.tare = tare;
    must(ht_pack_ticket(first, plain, HT_TICKET_BYTES).refused == 0, "a ticket does not pack");
    must(ht_pack_ticket(no_tare, packed, HT_TICKET_BYTES).refused == 0, "a ticket without tare does not pack");
    packed[10] |= (uint8_t)(tare >> 14), packed[11] = (uint8_t)(tare >> 6), packed[12] = (uint8_t)(tare << 2);

    packs(t, right, packed);
    unpacks(t, right, packed);

    /* a tape, by ht_seal, and by the writer where it takes the ticket */
    must(ht_pack_head(head, nonce, HT_HEAD_BYTES).refused == 0, "the head does not pack");
    memcpy(tape, nonce, HT_HEAD_BYTES);
    ht_written w = ht_seal(key, sizeof key, nonce, sizeof nonce, nonce, HT_HEAD_BYTES, plain, ROOM, tape + HT_HEAD_BYTES, ROOM + HT_TAG_BYTES);
    must(w.refused == 0, "the tape does not seal");
    if (right) {
        must(write_tape(head, (ht_ticket[]){first, t}, 2, by_writer, sizeof by_writer) == sizeof tape, "the tape has another length");
        must(memcmp(tape, by_writer, sizeof tape) == 0, "the writer writes another tape");
    } else {
        is_not_added(t);
    }

    /* open, read, count trucks, list */
    const uint64_t net = right ? 140000 + gross - tare : 0;
    fill(out, sizeof out);
    ht_opened o = ht_open_tape(key, sizeof key, tape, sizeof tape, out, sizeof out);
    must(o.refused == refused && o.tickets == (right ? 2 : 0) && o.net == net, "ht_open_tape answers otherwise");
    if (right)
        must(memcmp(out, plain, sizeof plain) == 0, "another text opens");
    else
        must_be_filled(out, sizeof out);
    ht_reading r = ht_read_ticket(plain, sizeof plain, 1);
    must(r.refused == refused && r.at_end == 0 && r.position == (right ? 2 : 1), "ht_read_ticket answers otherwise");
    must(same_ticket(r.ticket, right ? t : zeros), "another ticket was read");
    const opened_tape both = {plain, ROOM, refused}, alone = {plain, HT_TICKET_BYTES, 0};
    trucks_on(both, right ? 2 : 0);
    trucks_on_two(both, alone, refused, right ? 1 : 0, right ? 2 : 0, right ? 1 : 0);
    if (right)
        snprintf(listing, sizeof listing, "TAPE 7 2 1\n1 5 2 3 4 3600 4200 140000\n2 6 2 3 4 3600 4200 %" PRIu32 "\nTOTAL 2 %" PRIu64 "\n",
            gross - tare, net);
    w = ht_list_tape(key, sizeof key, tape, sizeof tape, (uint8_t *)text, sizeof text);
    must(w.refused == 0 && w.bytes == strlen(listing), "the listing has another length");
    must(memcmp(text, listing, w.bytes) == 0, "the listing differs");
}

static void weights(void)
{
    static const uint32_t gross[] = {0, 1, 5, 110000, 250000, 524287, 524288, 1048574, 1048575};
    uint8_t packed[HT_TICKET_BYTES];

    for (size_t i = 0; i < sizeof gross / sizeof *gross; i++) {
        weighed(gross[i], 0);
        if (gross[i] > 0)
            weighed(gross[i], gross[i] - 1);
        weighed(gross[i], gross[i]); /* an empty trip */
        if (gross[i] < 1048575)
            weighed(gross[i], gross[i] + 1);
        weighed(gross[i], 1048575);
    }
    const ht_ticket heavy = {.form = 1, .truck = 5, .shovel = 2, .tip = 3, .grade = 4,
        .loaded = 3600, .tipped = 4200, .gross = 1048576, .tare = 1048576};
    must(ht_pack_ticket(heavy, packed, sizeof packed).refused == 4, "a gross and tare of 1,048,576 are taken");
    printf("tare at most gross is taken, with net 0 where they are equal, and tare above gross is not\n");
}

/* ---- forms 1 and 2 ---- */

/* document 01's ticket, case (h), in a form and with these times */
static ht_ticket timed(uint8_t form, uint32_t loaded, uint32_t tipped)
{
    return (ht_ticket){.form = form, .truck = 5, .shovel = 2, .tip = 3, .grade = 4,
        .loaded = loaded, .tipped = tipped, .gross = 250000, .tare = 110000};
}

/* The ticket's bytes, whether it keeps the rule or not: in form 2 times have 17 bits, else 16 and there are two spare bits. 0 where a
 * field does not fit. */
static int pack_anyway(ht_ticket t, uint8_t *packed)
{
    const unsigned time = t.form == 2 ? 17 : 16;
    const uint32_t values[] = {t.form, t.truck, t.shovel, t.tip, t.grade, t.loaded, t.tipped, t.gross, t.tare};
    const unsigned widths[] = {4, 10, 6, 6, 4, time, time, 20, 20};
    size_t bit = 0;

    memset(packed, 0, HT_TICKET_BYTES);
    for (size_t i = 0; i < sizeof widths / sizeof *widths; i++) {
        if (values[i] >> widths[i] != 0)
            return 0;
        for (unsigned left = widths[i]; left-- > 0; bit++)
            packed[bit / 8] |= (uint8_t)((values[i] >> left & 1) << (7 - bit % 8));
    }
    return 1;
}

/* A tape of a form 1 ticket, this one and a form 2 ticket is written, opened, read, counted and listed where the ticket keeps the rule; else
 * each of these calls is refused. */
static void on_mixed_tape(ht_ticket t, const uint8_t *packed, int right)
{
    enum { BYTES = 3 * HT_TICKET_BYTES };
    const ht_head head = {.device = 7, .shift = 2, .sheet = 1};
    ht_ticket first = timed(1, 0, 43199), last = timed(2, 65535, 86399);
    uint8_t plain[BYTES], out[BYTES], nonce[HT_NONCE_BYTES] = {0}, tape[HT_HEAD_BYTES + BYTES + HT_TAG_BYTES], by_writer[sizeof tape];
    char listing[200] = "REFUSED 8\n", text[200];

    first.truck = 1, last.truck = 1023;
    const ht_ticket none = {0}, tickets[3] = {first, t, last};
    must(pack_anyway(first, plain) && pack_anyway(last, plain + 2 * HT_TICKET_BYTES), "a field does not fit");
    memcpy(plain + HT_TICKET_BYTES, packed, HT_TICKET_BYTES);
    must(ht_pack_head(head, nonce, HT_HEAD_BYTES).refused == 0, "the head does not pack");
    memcpy(tape, nonce, HT_HEAD_BYTES);
    ht_written w = ht_seal(key, sizeof key, nonce, sizeof nonce, nonce, HT_HEAD_BYTES, plain, BYTES, tape + HT_HEAD_BYTES, BYTES + HT_TAG_BYTES);
    must(w.refused == 0, "the tape does not seal");
    if (right) {
        must(write_tape(head, tickets, 3, by_writer, sizeof by_writer) == sizeof tape, "the tape has another length");
        must(memcmp(tape, by_writer, sizeof tape) == 0, "the writer writes another tape");
        snprintf(listing, sizeof listing, "TAPE 7 2 1\n1 1 2 3 4 0 43199 140000\n2 5 2 3 4 %" PRIu32 " %" PRIu32 " 140000\n"
            "3 1023 2 3 4 65535 86399 140000\nTOTAL 3 420000\n", t.loaded, t.tipped);
    }

    fill(out, sizeof out);
    ht_opened o = ht_open_tape(key, sizeof key, tape, sizeof tape, out, sizeof out);
    must(o.refused == (right ? 0 : 8) && o.tickets == (right ? 3 : 0) && o.net == (right ? 420000 : 0), "ht_open_tape answers otherwise");
    if (right)
        must(memcmp(out, plain, sizeof plain) == 0, "another text opens");
    else
        must_be_filled(out, sizeof out);
    for (uint64_t i = 0; i < 4; i++) {
        const int bad = i == 1 && !right;
        ht_reading r = ht_read_ticket(plain, sizeof plain, i);
        must(r.refused == (bad ? 8 : 0) && r.at_end == (i == 3) && r.position == (bad || i == 3 ? i : i + 1), "ht_read_ticket answers otherwise");
        must(same_ticket(r.ticket, bad || i == 3 ? none : tickets[i]), "another ticket was read");
    }
    const opened_tape all = {plain, BYTES, right ? 0 : 8}, alone = {plain, HT_TICKET_BYTES, 0};
    trucks_on(all, right ? 3 : 0);
    trucks_on_two(all, alone, all.refused, right ? 1 : 0, right ? 3 : 0, right ? 2 : 0);
    w = ht_list_tape(key, sizeof key, tape, sizeof tape, (uint8_t *)text, sizeof text);
    must(w.refused == 0 && w.bytes == strlen(listing), "the listing has another length");
    must(memcmp(text, listing, w.bytes) == 0, "the listing differs");
}

/* A move, and its answer: the ticket with that form alone changed, or zeros. */
static void moves(ht_ticket t, uint8_t form, uint32_t refused)
{
    ht_ticket wanted = t;

    wanted.form = form;
    if (refused != 0)
        wanted = (ht_ticket){0};
    ht_unpacked_ticket u = ht_move_ticket(t, form);
    must(u.refused == refused, "ht_move_ticket is refused otherwise");
    must(same_ticket(u.ticket, wanted), "ht_move_ticket answers another ticket");
}

/* A ticket that keeps the rule or breaks it, through every call that takes or gives one; and moved to every form. */
static void judged(ht_ticket t, int right)
{
    const uint32_t late = t.form == 2 && t.tipped > 43199 ? 11 : 0;
    uint8_t packed[HT_TICKET_BYTES], moved[HT_TICKET_BYTES];
    const int fits = pack_anyway(t, packed);

    packs(t, right, packed);
    if (!right)
        is_not_added(t);
    must(fits || !right, "a field does not fit");
    if (fits) {
        unpacks(t, right, packed);
        on_mixed_tape(t, packed, right);
    }

    for (unsigned form = 0; form < 256; form++)
        moves(t, (uint8_t)form, !right || form < 1 || form > 2 ? 4 : form == 1 ? late : 0);
    for (uint8_t form = 1; form <= 2 && right && late == 0; form++) { /* there and back: the same bytes */
        ht_ticket back = ht_move_ticket(ht_move_ticket(t, form).ticket, t.form).ticket;
        must(ht_pack_ticket(back, moved, sizeof moved).refused == 0 && memcmp(moved, packed, sizeof moved) == 0, "a ticket moved back has other bytes");
    }
}

static void forms(void)
{
    static const uint8_t worked[2][HT_TICKET_BYTES] = {
        {0x10, 0x14, 0x20, 0xd0, 0x38, 0x40, 0x41, 0xa0, 0xf4, 0x24, 0x06, 0xb6, 0xc0},
        {0x20, 0x14, 0x20, 0xd0, 0x1c, 0x20, 0x10, 0x68, 0x3d, 0x09, 0x01, 0xad, 0xb0},
    };
    static const uint8_t other_forms[] = {0, 3, 4, 15, 17, 18, 129, 130, 255};
    static const uint32_t times[] = {0, 1, 3600, 4200, 43198, 43199, 43200, 65535, 65536, 65536 + 4200, 86398, 86399, 86400, 131071, 131072,
        131072 + 4200, UINT32_MAX};
    const size_t n = sizeof times / sizeof *times;
    uint8_t packed[HT_TICKET_BYTES];

    /* document 01's ticket in both forms, and each moved to the other */
    for (uint8_t form = 1; form <= 2; form++) {
        ht_ticket t = timed(form, 3600, 4200);
        for (uint8_t from = 1; from <= 2; from++) {
            must(ht_pack_ticket(t, packed, sizeof packed).refused == 0, "the ticket does not pack");
            must(memcmp(packed, worked[form - 1], sizeof packed) == 0, "the ticket packs to other bytes");
            t = ht_move_ticket(timed(from, 3600, 4200), form).ticket;
        }
        must(same_ticket(ht_unpack_ticket(worked[form - 1], HT_TICKET_BYTES).ticket, t), "the bytes unpack to another ticket");
    }

    for (size_t i = 0; i < n; i++)
        for (size_t j = 0; j < n; j++) {
            judged(timed(1, times[i], times[j]), times[i] <= times[j] && times[j] <= 43199);
            judged(timed(2, times[i], times[j]), times[i] <= times[j] && times[j] <= 86399);
        }
    for (size_t i = 0; i < sizeof other_forms; i++) {
        judged(timed(other_forms[i], 3600, 4200), 0);
        judged(timed(other_forms[i], 3600, 43200), 0); /* 4 before 11 */
    }

    /* a late form 2 ticket with another field wrong: 4 before 11 */
    ht_ticket wrong[] = {timed(2, 0, 43200), timed(2, 0, 43200), timed(2, 0, 43200), timed(2, 0, 43200), timed(2, 0, 86399), timed(2, 0, 86399)};
    wrong[0].truck = 0, wrong[1].truck = 1024, wrong[2].shovel = 64, wrong[3].tip = 0, wrong[4].grade = 10, wrong[5].tare = 250001;
    for (size_t i = 0; i < sizeof wrong / sizeof *wrong; i++)
        judged(wrong[i], 0);
    printf("tickets of form 1 and 2 are taken up to seconds 43,199 and 86,399, on one tape too, and move from one form to the other\n");
}

/* ---- tags of 8 to 16 bytes ---- */

static const uint8_t tag_nonce[HT_NONCE_BYTES] = {2}, tag_data[] = "station 7", tag_text[] = "pump 2 stopped at 04:10";
#define DATA_BYTES sizeof tag_data
#define TEXT_BYTES sizeof tag_text
#define TAG_STEPS (3072 + 8 * (DATA_BYTES + TEXT_BYTES))

static uint8_t long_sealed[TEXT_BYTES + HT_TAG_BYTES]; /* with all sixteen bytes, by ht_seal */
static uint8_t long_bytes[HT_MOST_BYTES + HT_TAG_BYTES + 1], much[HT_MOST_BYTES + HT_TAG_BYTES];

static ht_written seal_tag(size_t taglen, uint8_t *out, size_t outlen)
{
    return ht_seal_tag(key, sizeof key, tag_nonce, sizeof tag_nonce, tag_data, DATA_BYTES, tag_text, TEXT_BYTES, taglen, out, outlen);
}

static ht_written open_tag(const uint8_t *sealed, size_t sealedlen, size_t taglen, uint8_t *out, size_t outlen)
{
    return ht_open_tag(key, sizeof key, tag_nonce, sizeof tag_nonce, tag_data, DATA_BYTES, sealed, sealedlen, taglen, out, outlen);
}

static int wrote(ht_written w, uint32_t refused, uint64_t bytes)
{
    return w.refused == refused && w.bytes == bytes;
}

static int answered(ht_answer a, uint32_t refused, uint64_t bytes, uint64_t steps)
{
    return a.refused == refused && a.bytes == bytes && a.steps == steps;
}

static int same_session(const ht_session *a, const ht_session *b)
{
    return memcmp(a, b, sizeof *a) == 0;
}

/* Whole messages: with more room than is needed, and with just so much. */
static void whole_with_tag(size_t n, const uint8_t *sealed)
{
    const size_t bytes = TEXT_BYTES + n;
    uint8_t out[TEXT_BYTES + HT_TAG_BYTES + 5], changed[TEXT_BYTES + HT_TAG_BYTES];

    for (size_t room = bytes; room <= sizeof out; room++) {
        fill(out, sizeof out);
        must(wrote(seal_tag(n, out, room), 0, bytes), "ht_seal_tag answers otherwise");
        must(memcmp(out, sealed, bytes) == 0, "ht_seal_tag writes other bytes");
        must_be_filled(out + bytes, sizeof out - bytes);
    }
    for (size_t room = TEXT_BYTES; room <= sizeof out; room++) {
        fill(out, sizeof out);
        must(wrote(open_tag(sealed, bytes, n, out, room), 0, TEXT_BYTES), "ht_open_tag answers otherwise");
        must(memcmp(out, tag_text, TEXT_BYTES) == 0, "another text opens");
        must_be_filled(out + TEXT_BYTES, sizeof out - TEXT_BYTES);
    }

    /* refused: short outputs, a bit turned, a byte cut off, another length */
    fill(out, sizeof out);
    for (size_t room = 0; room < bytes; room++)
        must(wrote(seal_tag(n, out, room), 6, 0), "a short output is taken");
    for (size_t room = 0; room < TEXT_BYTES; room++)
        must(wrote(open_tag(sealed, bytes, n, out, room), 6, 0), "a short output is taken");
    for (size_t bit = 0; bit < 8 * bytes; bit++) {
        memcpy(changed, sealed, bytes);
        changed[bit / 8] ^= (uint8_t)(1 << bit % 8);
        must(wrote(open_tag(changed, bytes, n, out, sizeof out), 7, 0), "a changed message opens");
    }
    for (size_t cut = 1; cut <= bytes; cut++)
        must(wrote(open_tag(sealed, bytes - cut, n, out, sizeof out), bytes - cut < n ? 2 : 7, 0), "a cut message opens");
    for (size_t other = HT_LEAST_TAG_BYTES; other <= HT_TAG_BYTES; other++)
        must(other == n || wrote(open_tag(sealed, bytes, other, out, sizeof out), 7, 0), "a message opens with another length");
    must_be_filled(out, sizeof out);
}

/* A session of either kind before its close. */
static void up_to_close(ht_session *s, size_t n, int sealing, uint8_t *sealed)
{
    const size_t first = 10;

    if (sealing)
        ht_session_fresh_sealing(s);
    else
        ht_session_fresh_checking(s);
    must(answered(ht_session_begin_tag(s, key, sizeof key, tag_nonce, sizeof tag_nonce, n), 0, 0, 1792), "begin is refused");
    must(ht_session_data(s, tag_data, DATA_BYTES).refused == 0, "data is refused");
    for (size_t at = 0, piece = first; at < TEXT_BYTES; at += piece, piece = TEXT_BYTES - first) {
        ht_answer a = sealing ? ht_session_seal_text(s, tag_text + at, piece, sealed + at, piece) : ht_session_check_text(s, sealed + at, piece);
        must(a.refused == 0, "text is refused");
    }
}

/* In pieces: the close writes, or is given, as many bytes as were fixed. */
static void pieces_with_tag(size_t n, const uint8_t *sealed)
{
    uint8_t out[TEXT_BYTES + HT_TAG_BYTES + 5], tag[2 * HT_TAG_BYTES] = {0};
    ht_session s, before;

    for (size_t room = 0; room <= HT_TAG_BYTES + 5; room++) {
        fill(out, sizeof out);
        up_to_close(&s, n, 1, out);
        before = s;
        ht_answer a = ht_session_seal_close(&s, out + TEXT_BYTES, room);
        if (room < n) {
            must(answered(a, 6, 0, 0) && same_session(&s, &before), "a tag is written to a short output");
            must_be_filled(out + TEXT_BYTES, sizeof out - TEXT_BYTES);
            a = ht_session_seal_close(&s, out + TEXT_BYTES, n);
        }
        must(answered(a, 0, n, TAG_STEPS), "close answers otherwise");
        must(memcmp(out, sealed, TEXT_BYTES + n) == 0, "pieces give other bytes");
        must_be_filled(out + TEXT_BYTES + n, sizeof out - TEXT_BYTES - n);
        must(ht_session_seal_close(&s, out, sizeof out).refused == 1, "a closed session is closed again");
    }

    /* the right tag stands at the end of the first sixteen, so that every other length has right bytes, too */
    memcpy(tag, long_sealed + TEXT_BYTES, HT_TAG_BYTES);
    memcpy(out, sealed, TEXT_BYTES);
    up_to_close(&s, n, 0, out);
    before = s;
    for (size_t other = 0; other <= sizeof tag; other++) {
        const uint8_t *from = other < HT_TAG_BYTES ? tag + HT_TAG_BYTES - other : tag;
        must(other == n || answered(ht_session_check_close(&s, from, other), 2, 0, 0), "a tag of another length is taken");
        must(same_session(&s, &before), "a refused call changes the session");
    }
    must(answered(ht_session_check_close(&s, tag + HT_TAG_BYTES - n, n), 0, 0, TAG_STEPS), "the tag differs");
    must(ht_session_check_close(&s, tag + HT_TAG_BYTES - n, n).refused == 1, "a closed session is closed again");
    for (size_t bit = 0; bit < 8 * n; bit++) {
        memcpy(tag, sealed + TEXT_BYTES, n);
        tag[bit / 8] ^= (uint8_t)(1 << bit % 8);
        s = before;
        must(answered(ht_session_check_close(&s, tag, n), 7, 0, 0), "a changed tag is taken");
        must(ht_session_check_close(&s, tag, n).refused == 1, "a session goes on after 7");
    }
}

/* The numbers of the calls on whole messages, with less and less that is wrong. A wrong length of the tag is 9, whatever else is wrong. */
static void order_with_tag(size_t n)
{
    const uint32_t length = n < HT_LEAST_TAG_BYTES || n > HT_TAG_BYTES ? 9 : 0;
    uint8_t out[1];
    const struct { size_t keylen, noncelen, datalen, textlen, outlen; uint32_t sealing, opening; } cases[] = {
        {15, 16, HT_MOST_BYTES + 1, HT_MOST_BYTES + 1, 0, 2, 2},
        {16, 17, HT_MOST_BYTES + 1, HT_MOST_BYTES + 1, 0, 2, 2},
        {0, 0, 0, 0, 1, 2, 2},
        {16, 16, HT_MOST_BYTES + 1, 1, 0, 5, 5},
        {16, 16, 0, HT_MOST_BYTES + 1, 0, 5, 5},
        {16, 16, HT_MOST_BYTES, HT_MOST_BYTES, 1, 6, 6},
        {16, 16, 0, 1, 0, 6, 6},
        {16, 16, 0, 1, 1, 6, 7},
        {16, 16, 0, 0, 0, 6, 7},
    };

    fill(out, sizeof out);
    for (size_t i = 0; i < sizeof cases / sizeof *cases; i++) {
        const size_t k = cases[i].keylen, m = cases[i].noncelen, d = cases[i].datalen, t = cases[i].textlen, o = cases[i].outlen;
        const size_t sealedlen = length == 0 ? t + n : t;

        ht_written w = ht_seal_tag(long_bytes, k, long_bytes, m, long_bytes, d, long_bytes, t, n, out, o);
        must(wrote(w, length != 0 ? length : cases[i].sealing, 0), "ht_seal_tag is refused otherwise");
        w = ht_open_tag(long_bytes, k, long_bytes, m, long_bytes, d, long_bytes, sealedlen, n, out, o);
        must(wrote(w, length != 0 ? length : cases[i].opening, 0), "ht_open_tag is refused otherwise");
    }
    for (size_t sealedlen = 0; sealedlen < (length == 0 ? n : HT_TAG_BYTES); sealedlen++) {
        ht_written w = ht_open_tag(long_bytes, 16, long_bytes, 16, long_bytes, HT_MOST_BYTES + 1, long_bytes, sealedlen, n, out, 0);
        must(wrote(w, length != 0 ? length : 2, 0), "ht_open_tag takes sealed bytes shorter than the tag");
    }
    must_be_filled(out, sizeof out);
}

/* 1, 9, 2: a refused begin leaves the session as it was, and it can still be begun with any length. */
static void begins_with_tag(size_t n, int sealing)
{
    const uint32_t length = n < HT_LEAST_TAG_BYTES || n > HT_TAG_BYTES ? 9 : 0;
    static const size_t sizes[][2] = {{16, 16}, {15, 16}, {16, 17}, {0, 0}};
    uint8_t out[HT_TAG_BYTES + 5];
    ht_session fresh, s, begun;

    if (sealing)
        ht_session_fresh_sealing(&fresh);
    else
        ht_session_fresh_checking(&fresh);
    s = fresh;
    for (size_t i = length == 0 ? 1 : 0; i < sizeof sizes / sizeof *sizes; i++) {
        ht_answer a = ht_session_begin_tag(&s, key, sizes[i][0], tag_nonce, sizes[i][1], n);
        must(answered(a, length != 0 ? length : 2, 0, 0) && same_session(&s, &fresh), "ht_session_begin_tag is refused otherwise");
    }
    for (size_t taglen = 0; taglen <= HT_TAG_BYTES; taglen = taglen == 0 ? HT_LEAST_TAG_BYTES : taglen + 1) {
        const size_t fixed = taglen == 0 ? HT_TAG_BYTES : taglen; /* with 0 begin is meant, which fixes sixteen */

        s = fresh;
        ht_answer a = ht_session_begin_tag(&s, key, 15, tag_nonce, sizeof tag_nonce, n);
        must(a.refused == (length != 0 ? length : 2), "ht_session_begin_tag is refused otherwise");
        if (taglen == 0)
            a = ht_session_begin(&s, key, sizeof key, tag_nonce, sizeof tag_nonce);
        else
            a = ht_session_begin_tag(&s, key, sizeof key, tag_nonce, sizeof tag_nonce, taglen);
        must(answered(a, 0, 0, 1792), "begin answers otherwise");
        begun = s;
        for (size_t i = 0; i < sizeof sizes / sizeof *sizes; i++) {
            a = ht_session_begin_tag(&s, key, sizes[i][0], tag_nonce, sizes[i][1], n);
            must(answered(a, 1, 0, 0) && same_session(&s, &begun), "a session is begun twice");
        }
        must(ht_session_begin(&s, key, sizeof key, tag_nonce, sizeof tag_nonce).refused == 1, "a session is begun twice");
        fill(out, sizeof out);
        if (sealing) {
            must(ht_session_check_close(&s, out, fixed).refused == 1, "a sealing session is closed by the other call");
            must(answered(ht_session_seal_close(&s, out, sizeof out), 0, fixed, 3072), "close answers otherwise");
            must_be_filled(out + fixed, sizeof out - fixed);
        } else {
            must(ht_session_seal_close(&s, out, sizeof out).refused == 1, "a checking session is closed by the other call");
            must(ht_session_check_close(&s, out, fixed - 1).refused == 2, "a tag of another length is taken");
            must(ht_session_check_close(&s, out, fixed + 1).refused == 2, "a tag of another length is taken");
            must(answered(ht_session_check_close(&s, out, fixed), 7, 0, 0), "another tag is taken");
        }
        must(ht_session_begin_tag(&s, key, 15, tag_nonce, sizeof tag_nonce, n).refused == 1, "a closed session is begun");
    }
}

/* Of word 10 of a session the lowest eight bits are its tag's length. One that no tag has is read as sixteen, and a call that is not refused
 * stores sixteen. */
static void read_as_sixteen(uint64_t length)
{
    uint8_t out[TEXT_BYTES + HT_TAG_BYTES];
    ht_session s, before;

    up_to_close(&s, HT_LEAST_TAG_BYTES, 1, out);
    must(s.words[10] == HT_LEAST_TAG_BYTES, "a session holds another length");
    s.words[10] = length;
    before = s;
    must(ht_session_seal_close(&s, out + TEXT_BYTES, HT_TAG_BYTES - 1).refused == 6 && same_session(&s, &before), "a refused call changes the session");
    must(ht_session_seal_text(&s, tag_text, 0, out, 0).refused == 0 && s.words[10] == HT_TAG_BYTES, "a length that no tag has is stored");
    s = before;
    must(answered(ht_session_seal_close(&s, out + TEXT_BYTES, HT_TAG_BYTES), 0, HT_TAG_BYTES, TAG_STEPS), "close answers otherwise");
    must(memcmp(out, long_sealed, sizeof long_sealed) == 0 && s.words[10] == HT_TAG_BYTES, "a length that no tag has is not read as sixteen");

    up_to_close(&s, HT_LEAST_TAG_BYTES, 0, long_sealed);
    s.words[10] = length;
    before = s;
    must(ht_session_check_close(&s, long_sealed + sizeof long_sealed - HT_LEAST_TAG_BYTES, HT_LEAST_TAG_BYTES).refused == 2, "a short tag is taken");
    must(same_session(&s, &before), "a refused call changes the session");
    must(answered(ht_session_check_close(&s, long_sealed + TEXT_BYTES, HT_TAG_BYTES), 0, 0, TAG_STEPS), "the tag differs");
    must(s.words[10] == HT_TAG_BYTES, "a length that no tag has is stored");
}

/* A number above 7 in word 9 of a session or writer is a closed session: word 9 says nothing of the tag's length. */
static void read_as_closed(uint64_t number)
{
    static const ht_ticket ticket = {.form = 1, .truck = 417, .shovel = 9, .tip = 33, .loaded = 3600, .tipped = 4815, .gross = 5};
    uint8_t out[TEXT_BYTES + HT_TAG_BYTES];
    ht_session s, before;
    ht_writer w, started;

    up_to_close(&s, HT_LEAST_TAG_BYTES, 1, out);
    s.words[9] = number;
    before = s;
    fill(out, sizeof out);
    must(ht_session_begin(&s, key, sizeof key, tag_nonce, sizeof tag_nonce).refused == 1, "a closed session is begun");
    must(ht_session_begin_tag(&s, key, sizeof key, tag_nonce, sizeof tag_nonce, 8).refused == 1, "a closed session is begun");
    must(ht_session_data(&s, tag_data, 1).refused == 1, "a closed session takes data");
    must(ht_session_seal_text(&s, tag_text, 1, out, 1).refused == 1, "a closed session takes text");
    must(ht_session_check_text(&s, tag_text, 1).refused == 1, "a closed session takes text");
    must(ht_session_seal_close(&s, out, sizeof out).refused == 1, "a closed session is closed again");
    must(ht_session_check_close(&s, out, HT_TAG_BYTES).refused == 1, "a closed session is closed again");
    must(same_session(&s, &before), "a refused call changes the session");

    ht_writer_fresh(&w);
    must(ht_writer_start(&w, key, sizeof key, (ht_head){7, 2, 1}, out, sizeof out).refused == 0, "start is refused");
    fill(out, sizeof out);
    w.words[9] = number;
    started = w;
    must(ht_writer_add(&w, ticket, out, sizeof out).refused == 1, "a writer of a closed session takes a ticket");
    must(ht_writer_finish(&w, out, sizeof out).refused == 1, "a writer of a closed session is finished");
    must(memcmp(&w, &started, sizeof w) == 0, "a refused call changes the writer");
    must_be_filled(out, sizeof out);
}

/* The most bytes of text, and the same with one byte more. */
static void most_with_tag(size_t n)
{
    static uint8_t opened[HT_MOST_BYTES];
    const uint8_t *nonce = tag_nonce;

    ht_written w = ht_seal_tag(key, 16, nonce, 16, long_bytes, HT_MOST_BYTES, long_bytes, HT_MOST_BYTES, n, much, HT_MOST_BYTES + n);
    must(wrote(w, 0, HT_MOST_BYTES + n), "the most bytes are refused");
    w = ht_open_tag(key, 16, nonce, 16, long_bytes, HT_MOST_BYTES, much, HT_MOST_BYTES + n, n, opened, HT_MOST_BYTES);
    must(wrote(w, 0, HT_MOST_BYTES), "the most bytes do not open");
    must(memcmp(opened, long_bytes, HT_MOST_BYTES) == 0, "another text opens");
    w = ht_seal_tag(key, 16, nonce, 16, long_bytes, 0, long_bytes, HT_MOST_BYTES + 1, n, much, sizeof much);
    must(wrote(w, 5, 0), "a byte of text too many is sealed");
    w = ht_open_tag(key, 16, nonce, 16, long_bytes, 0, long_bytes, HT_MOST_BYTES + 1 + n, n, opened, sizeof opened);
    must(wrote(w, 5, 0), "a byte of text too many is opened");
}

static void tags(void)
{
    static const size_t wrong[] = {0, 1, 7, 17, 24, 32, 64, 128, 255, 264, 65544, UINT32_MAX, (size_t)1 << 32 | 8, (size_t)1 << 63 | 16,
        SIZE_MAX - 15, SIZE_MAX};
    uint8_t sealed[TEXT_BYTES + HT_TAG_BYTES];

    for (size_t i = 0; i < sizeof long_bytes; i++)
        long_bytes[i] = (uint8_t)(i * 7 + i / 256);
    ht_written w = ht_seal(key, sizeof key, tag_nonce, sizeof tag_nonce, tag_data, DATA_BYTES, tag_text, TEXT_BYTES, long_sealed, sizeof long_sealed);
    must(wrote(w, 0, sizeof long_sealed), "seal is refused");
    for (size_t n = HT_LEAST_TAG_BYTES; n <= HT_TAG_BYTES; n++) {
        /* the short tag is the last bytes of the sixteen */
        memcpy(sealed, long_sealed, TEXT_BYTES);
        memcpy(sealed + TEXT_BYTES, long_sealed + sizeof long_sealed - n, n);
        whole_with_tag(n, sealed);
        pieces_with_tag(n, sealed);
        order_with_tag(n);
        begins_with_tag(n, 1);
        begins_with_tag(n, 0);
        most_with_tag(n);
    }
    for (size_t i = 0; i < sizeof wrong / sizeof *wrong; i++) {
        order_with_tag(wrong[i]);
        begins_with_tag(wrong[i], 1);
        begins_with_tag(wrong[i], 0);
        if (wrong[i] % 256 < HT_LEAST_TAG_BYTES || wrong[i] % 256 > HT_TAG_BYTES)
            read_as_sixteen(wrong[i]);
        if (wrong[i] > 7)
            read_as_closed(wrong[i]);
    }
    for (uint64_t number = 8; number < 80; number++)
        read_as_closed(number);
    printf("tags of 8 to 16 bytes are written and checked, and no others\n");
}

/* ---- two masts hear one tape ---- */

typedef struct { const uint8_t *heard; size_t bytes; } reception;

static void answers(reception first, reception second, ht_parted parted, ht_reception longer)
{
    ht_parted p = ht_parting(first.heard, first.bytes, second.heard, second.bytes);
    ht_reception l = ht_longer(first.heard, first.bytes, second.heard, second.bytes);

    must(p.refused == parted.refused && p.place == parted.place, "ht_parting answers otherwise");
    must(l.mast == longer.mast && l.bytes == longer.bytes, "ht_longer answers otherwise");
}

/* One is the beginning of the other: in both orders the longer is told, and of two with as many bytes the first. */
static void together(reception longer, reception shorter)
{
    const int equal = longer.bytes == shorter.bytes;

    answers(longer, shorter, (ht_parted){0, 0}, (ht_reception){1, longer.bytes});
    answers(shorter, longer, (ht_parted){0, 0}, (ht_reception){equal ? 1 : 2, longer.bytes});
}

static void apart(reception a, reception b, uint64_t place)
{
    answers(a, b, (ht_parted){10, place}, (ht_reception){1, 0});
    answers(b, a, (ht_parted){10, place}, (ht_reception){1, 0});
}

static void receptions(void)
{
    static uint8_t one[70000], other[sizeof one], copy[sizeof one];
    static const size_t lengths[] = {0, 1, 2, 7, 8, 9, 24, 25, 38, 255, 256, 257, HT_MOST_TAPE_BYTES - 1, HT_MOST_TAPE_BYTES, 65535, 65536,
        sizeof one - 1, sizeof one};
    const size_t n = sizeof lengths / sizeof *lengths;
    const uint8_t repeated[] = {5, 6, 5, 6, 5, 7};

    for (size_t i = 0; i < sizeof one; i++)
        one[i] = (uint8_t)(i * 7 + i / 256);

    /* whole and cut, empty and equal ones among them; in two buffers, and in one */
    memcpy(other, one, sizeof one);
    for (size_t i = 0; i < n; i++)
        for (size_t j = 0; j <= i; j++) {
            together((reception){one, lengths[i]}, (reception){other, lengths[j]});
            together((reception){one, lengths[i]}, (reception){one, lengths[j]});
        }

    /* one byte differs, in one bit or in all: with as many bytes on both sides, with one or both cut behind that byte, and cut before it */
    for (size_t i = 0; i < n - 1; i++)
        for (size_t bits = 1; bits <= 256; bits *= 2) {
            const size_t place = lengths[i], behind = place + 1;

            memcpy(other, one, sizeof one);
            other[place] ^= (uint8_t)(bits == 256 ? 255 : bits);
            memcpy(copy, other, sizeof other);
            apart((reception){one, sizeof one}, (reception){other, sizeof other}, place);
            apart((reception){one, sizeof one}, (reception){other, behind}, place);
            apart((reception){one, behind}, (reception){other, sizeof other}, place);
            apart((reception){one, behind}, (reception){other, behind}, place);
            together((reception){one, sizeof one}, (reception){other, place});
            together((reception){other, sizeof other}, (reception){one, place});
            must(memcmp(other, copy, sizeof other) == 0, "a reception is written");
            memset(other + behind, 0x5a, sizeof other - behind); /* the first such byte counts */
            apart((reception){one, sizeof one}, (reception){other, sizeof other}, place);
        }
    for (size_t i = 0; i < sizeof one; i++)
        must(one[i] == (uint8_t)(i * 7 + i / 256), "a reception is written");

    /* one byte each */
    for (unsigned a = 0; a < 256; a++)
        for (unsigned b = 0; b < 256; b++) {
            const uint8_t bytes[2] = {(uint8_t)a, (uint8_t)b};
            if (a == b)
                together((reception){bytes, 1}, (reception){bytes + 1, 1});
            else
                apart((reception){bytes, 1}, (reception){bytes + 1, 1}, 0);
        }

    /* one over the other */
    together((reception){repeated, 3}, (reception){repeated + 2, 2});
    together((reception){repeated + 2, 3}, (reception){repeated, 2});
    together((reception){repeated, 3}, (reception){repeated + 2, 3});
    apart((reception){repeated, 4}, (reception){repeated + 2, 4}, 3);
    apart((reception){repeated, 6}, (reception){repeated + 1, 5}, 0);
    apart((reception){one, sizeof one - 1}, (reception){one + 1, sizeof one - 1}, 0);
}

/* A tape heard whole by one mast and cut by the other opens from the part that ht_longer tells. */
static void heard_by_two(const uint8_t *tape, size_t tapelen, uint64_t tickets)
{
    uint8_t cut[HT_HEAD_BYTES + 2 * HT_TICKET_BYTES + HT_TAG_BYTES], plain[2 * HT_TICKET_BYTES];

    memcpy(cut, tape, tapelen);
    for (size_t bytes = 0; bytes <= tapelen; bytes++)
        for (int turn = 0; turn < 2; turn++) {
            const reception a = {tape, tapelen}, b = {cut, bytes}, heard[2] = {turn == 0 ? a : b, turn == 0 ? b : a};
            ht_reception l = ht_longer(heard[0].heard, heard[0].bytes, heard[1].heard, heard[1].bytes);
            must(l.mast == 1 || l.mast == 2, "there is no such mast");
            ht_opened o = ht_open_tape(key, sizeof key, heard[l.mast - 1].heard, l.bytes, plain, sizeof plain);
            must(o.refused == 0 && o.tickets == tickets, "the longer reception does not open");
        }
    printf("two masts: the longer reception opens, and the place is told where they part\n");
}

/* ---- cab against crusher ---- */

/* what pairing looks at in a ticket */
typedef struct { uint16_t truck; uint32_t tipped; } tipping;

/* The plain bytes of a ticket for each, in form 1 and form 2 by turns; after second 43,199 in form 2 alone. */
static opened_tape tape_tipped(const tipping *t, size_t n, uint8_t *plain)
{
    for (size_t i = 0; i < n; i++) {
        ht_ticket ticket = timed((uint8_t)(i % 2 == 1 || t[i].tipped > 43199 ? 2 : 1), 0, t[i].tipped);
        ticket.truck = t[i].truck;
        must(ht_pack_ticket(ticket, plain + i * HT_TICKET_BYTES, HT_TICKET_BYTES).refused == 0, "a ticket does not pack");
    }
    return (opened_tape){plain, n * HT_TICKET_BYTES, 0};
}

/* the outputs, with numbers before and behind: the pairs, and what is left over on the first tape and on the second */
static struct { uint32_t before[2], numbers[2 * HT_MOST_TICKETS + 4]; } outputs[3];

static ht_paired pair_into(opened_tape first, opened_tape second, const size_t *room)
{
    memset(outputs, 0x5a, sizeof outputs);
    return ht_pair_tapes(first.plain, first.bytes, second.plain, second.bytes, outputs[0].numbers, room[0], outputs[1].numbers, room[1],
        outputs[2].numbers, room[2]);
}

static void must_be_written(size_t output, const uint32_t *numbers, size_t n)
{
    must(memcmp(outputs[output].numbers, numbers, n * sizeof *numbers) == 0, "ht_pair_tapes writes other numbers");
    must_be_filled((const uint8_t *)outputs[output].before, sizeof outputs[output].before);
    must_be_filled((const uint8_t *)(outputs[output].numbers + n), sizeof outputs[output].numbers - n * sizeof *numbers);
}

static void is_not_paired(opened_tape first, opened_tape second, const size_t *room, uint32_t refused)
{
    ht_paired p = pair_into(first, second, room);

    must(p.refused == refused, "ht_pair_tapes is refused otherwise");
    must(p.pairs == 0 && p.left_first == 0 && p.left_second == 0, "a refused ht_pair_tapes answers more than a number");
    must_be_filled((const uint8_t *)outputs, sizeof outputs);
}

/* Two tapes must have these n pairs; the tickets in none of them are left over. */
static void are_paired(opened_tape first, opened_tape second, const uint32_t *pairs, size_t n)
{
    static uint8_t in_pair[2][HT_MOST_TICKETS + 1];
    static uint32_t left[2][HT_MOST_TICKETS];
    const size_t tickets[2] = {first.bytes / HT_TICKET_BYTES, second.bytes / HT_TICKET_BYTES};
    const uint32_t *const wanted[3] = {pairs, left[0], left[1]};
    size_t count[3] = {2 * n, 0, 0}, room[3];

    memset(in_pair, 0, sizeof in_pair);
    for (size_t i = 0; i < 2 * n; i++)
        in_pair[i % 2][pairs[i]] = 1;
    for (size_t side = 0; side < 2; side++)
        for (uint32_t position = 1; position <= tickets[side]; position++)
            if (!in_pair[side][position])
                left[side][count[1 + side]++] = position;

    /* outputs of the numbers needed, and of three more */
    for (size_t more = 0; more <= 3; more += 3) {
        for (size_t i = 0; i < 3; i++)
            room[i] = count[i] + more;
        ht_paired p = pair_into(first, second, room);
        must(p.refused == 0 && p.pairs == n && p.left_first == count[1] && p.left_second == count[2], "ht_pair_tapes answers otherwise");
        for (size_t i = 0; i < 3; i++)
            must_be_written(i, wanted[i], count[i]);
    }

    /* one output or more a number short, where it has any, or without room */
    for (unsigned cut = 1; cut < 8; cut++)
        for (size_t by = 0; by < 2; by++) {
            int shorter = 0;
            for (size_t i = 0; i < 3; i++) {
                const int is_cut = cut >> i & 1 && count[i] > 0;
                room[i] = !is_cut ? count[i] + by : by == 0 ? count[i] - 1 : 0;
                shorter |= is_cut;
            }
            if (shorter)
                is_not_paired(first, second, room, 6);
        }
}

/* Two short tapes, and the pairs. */
static const struct {
    size_t first_tickets, second_tickets, pairs;
    tipping first[6], second[6];
    uint32_t numbers[12];
} known_pairs[] = {
    /* 120 seconds apart, either clock ahead, and 121; up to the last second of a shift */
    {1, 1, 1, {{5, 1000}}, {{5, 1120}}, {1, 1}},
    {1, 1, 1, {{5, 1120}}, {{5, 1000}}, {1, 1}},
    {1, 1, 0, {{5, 1000}}, {{5, 1121}}, {0}},
    {1, 1, 0, {{5, 1121}}, {{5, 1000}}, {0}},
    {1, 1, 1, {{5, 0}}, {{5, 120}}, {1, 1}},
    {1, 1, 0, {{5, 121}}, {{5, 0}}, {0}},
    {1, 1, 1, {{1023, 86399}}, {{1023, 86279}}, {1, 1}},
    {1, 1, 0, {{1023, 86278}}, {{1023, 86399}}, {0}},
    /* another truck */
    {1, 1, 0, {{5, 1000}}, {{6, 1000}}, {0}},
    {1, 2, 1, {{1, 1000}}, {{1023, 1000}, {1, 1000}}, {1, 2}},
    /* two that want one */
    {2, 1, 1, {{5, 1000}, {5, 1010}}, {{5, 1010}}, {1, 1}},
    {1, 2, 1, {{5, 1010}}, {{5, 900}, {5, 1010}}, {1, 1}},
    {2, 1, 1, {{5, 800}, {5, 1010}}, {{5, 1010}}, {2, 1}},
    {3, 2, 2, {{5, 1000}, {5, 1000}, {5, 1000}}, {{5, 1120}, {5, 1120}}, {1, 1, 2, 2}},
    /* the first that is free, though another is nearer: so that as many as can be are paired */
    {2, 2, 2, {{5, 1000}, {5, 1100}}, {{5, 900}, {5, 1010}}, {1, 1, 2, 2}},
    {2, 3, 2, {{5, 1000}, {5, 1100}}, {{5, 880}, {5, 1000}, {5, 1100}}, {1, 1, 2, 2}},
    {3, 3, 2, {{5, 1000}, {5, 2000}, {5, 3000}}, {{5, 1100}, {5, 1500}, {5, 2900}}, {1, 1, 3, 3}},
    {2, 4, 2, {{5, 1000}, {5, 3000}}, {{5, 1000}, {5, 1500}, {5, 2000}, {5, 3120}}, {1, 1, 2, 4}},
    /* equal times */
    {3, 3, 3, {{5, 1000}, {5, 1000}, {5, 1000}}, {{5, 1000}, {5, 1000}, {5, 1000}}, {1, 1, 2, 2, 3, 3}},
    {2, 3, 2, {{5, 1000}, {5, 1000}}, {{5, 880}, {5, 880}, {5, 880}}, {1, 1, 2, 2}},
    /* several trucks: pairs in the first tape's order, and times that fall from one truck to another */
    {3, 3, 3, {{5, 1000}, {6, 500}, {7, 900}}, {{7, 1000}, {6, 400}, {5, 1000}}, {1, 3, 2, 2, 3, 1}},
    {4, 5, 3, {{5, 1000}, {6, 1000}, {5, 1200}, {6, 1300}}, {{6, 1100}, {6, 1200}, {5, 800}, {5, 1110}, {7, 1000}}, {1, 4, 2, 1, 4, 2}},
    {6, 6, 3, {{1, 100}, {2, 100}, {1, 100}, {2, 300}, {3, 0}, {1, 101}}, {{3, 121}, {1, 220}, {2, 200}, {4, 0}, {1, 221}, {1, 300}},
        {1, 2, 2, 3, 6, 5}},
};

/* Tapes of n tickets: those of a truck come every `trucks` tickets, and all times rise by `step` from `start` on. */
static opened_tape regular(size_t n, size_t trucks, uint32_t start, uint32_t step, uint8_t *plain)
{
    static tipping t[HT_MOST_TICKETS + 1];

    for (size_t i = 0; i < n; i++)
        t[i] = (tipping){(uint16_t)(1 + i % trucks), start + (uint32_t)i * step};
    return tape_tipped(t, n, plain);
}

static void pairing(void)
{
    static uint8_t one_plain[HT_MOST_PLAIN_BYTES + HT_TICKET_BYTES], other_plain[HT_MOST_PLAIN_BYTES], copies[2][HT_MOST_PLAIN_BYTES];
    static uint32_t in_order[2 * HT_MOST_TICKETS];
    const size_t most = HT_MOST_TICKETS, enough[3] = {2 * most, most, most}, none[3] = {0};

    for (size_t i = 0; i < sizeof known_pairs / sizeof *known_pairs; i++) {
        const opened_tape first = tape_tipped(known_pairs[i].first, known_pairs[i].first_tickets, one_plain);
        const opened_tape second = tape_tipped(known_pairs[i].second, known_pairs[i].second_tickets, other_plain);
        memcpy(copies[0], first.plain, first.bytes), memcpy(copies[1], second.plain, second.bytes);
        are_paired(first, second, known_pairs[i].numbers, known_pairs[i].pairs);
        must(memcmp(copies[0], first.plain, first.bytes) == 0 && memcmp(copies[1], second.plain, second.bytes) == 0, "a tape is written");
    }

    /* no tickets, on either tape and on both; and 5,000 of one truck on both */
    for (uint32_t i = 0; i < 2 * most; i++)
        in_order[i] = 1 + i / 2;
    for (size_t trucks = 1; trucks <= 1023; trucks += 511) {
        const opened_tape all = regular(most, trucks, 0, 8, one_plain), nothing = {other_plain, 0, 0};
        are_paired(all, nothing, in_order, 0);
        are_paired(nothing, all, in_order, 0);
        are_paired(nothing, nothing, in_order, 0);
        are_paired(all, all, in_order, most);
        are_paired(all, regular(most, trucks, 120, 8, other_plain), in_order, most);
        are_paired(regular(most, trucks, 120, 8, other_plain), all, in_order, most);
        are_paired(all, regular(most - 1, trucks, 0, 8, other_plain), in_order, most - 1);
        are_paired(all, regular(most, trucks, 40200, 0, other_plain), in_order, 0);
        are_paired(regular(most, trucks, 40200, 0, other_plain), all, in_order, 0);
    }
    are_paired(regular(most, 1, 9, 0, one_plain), regular(most, 1, 9, 0, other_plain), in_order, most);

    /* 121 seconds late, and 8 between two of the truck: the first ticket is left over, and each other is paired with the one before it */
    for (uint32_t i = 0; i < 2 * (most - 1); i++)
        in_order[i] = i % 2 == 0 ? i / 2 + 2 : i / 2 + 1;
    are_paired(regular(most, 1, 0, 8, one_plain), regular(most, 1, 121, 8, other_plain), in_order, most - 1);

    /* two tapes that are taken, and those that are refused: each with each, with room for everything and with none */
    static uint8_t refused_plain[9][HT_MOST_PLAIN_BYTES + HT_TICKET_BYTES];
    opened_tape tapes[] = {
        regular(3, 2, 1000, 10, refused_plain[0]),
        regular(most, 700, 0, 8, refused_plain[1]),
        regular(most + 1, 700, 0, 8, refused_plain[2]), /* a ticket too many */
        regular(3, 2, 1000, 10, refused_plain[3]),      /* a byte too few, below */
        regular(3, 2, 1000, 10, refused_plain[4]),      /* the last ticket does not unpack */
        tape_tipped((tipping[]){{5, 1000}, {6, 0}, {6, 9}, {5, 999}}, 4, refused_plain[5]),
        regular(most, 1, 40200, 0, refused_plain[6]),   /* the last time falls by a second */
        tape_tipped((tipping[]){{5, 1000}, {5, 0}, {5, 0}}, 3, refused_plain[7]), /* a time falls, and the last ticket does not unpack */
        tape_tipped((tipping[]){{5, 1000}, {5, 0}, {5, 0}}, 3, refused_plain[8]), /* both, and a byte too few */
    };
    const uint32_t numbers[] = {0, 0, 2, 2, 8, 12, 12, 8, 2};
    const size_t tapes_count = sizeof tapes / sizeof *tapes;
    tapes[3].bytes--;
    tapes[8].bytes--;
    tape_tipped(&(tipping){1, 40199}, 1, refused_plain[6] + (most - 1) * HT_TICKET_BYTES);
    refused_plain[4][3 * HT_TICKET_BYTES - 1] |= 1; /* a spare bit of form 1 */
    refused_plain[7][3 * HT_TICKET_BYTES - 1] |= 1;
    refused_plain[8][3 * HT_TICKET_BYTES - 1] |= 1;
    for (size_t i = 0; i < tapes_count; i++)
        for (size_t j = 0; j < tapes_count; j++) {
            const uint32_t a = numbers[i], b = numbers[j], number = a == 0 ? b : b == 0 ? a : a < b ? a : b;
            if (number != 0)
                is_not_paired(tapes[i], tapes[j], enough, number);
            is_not_paired(tapes[i], tapes[j], none, number == 0 ? 6 : number); /* 6 comes last */
        }
    printf("tickets of a truck tipped at most 120 seconds apart are paired, in tape order, and falling times are refused\n");
}

int main(void)
{
    static const ht_ticket tickets[2] = {
        {.form = 1, .truck = 417, .shovel = 9, .tip = 33, .grade = 4,
            .loaded = 3600, .tipped = 4815, .gross = 371250, .tare = 168900},
        {.form = 1, .truck = 1023, .shovel = 63, .tip = 1, .grade = 0,
            .loaded = 43000, .tipped = 43199, .gross = 1048575, .tare = 0},
    };
    const ht_head head = {.device = 4000000001, .shift = 1234, .sheet = 1000000};
    uint8_t tape[HT_HEAD_BYTES + 2 * HT_TICKET_BYTES + HT_TAG_BYTES], packed[HT_HEAD_BYTES];

    size_t n = write_tape(head, tickets, 2, tape, sizeof tape);
    must(n == sizeof tape, "the tape has another length");
    must(ht_pack_head(head, packed, sizeof packed).bytes == HT_HEAD_BYTES, "the head does not pack");
    must(memcmp(packed, tape, sizeof packed) == 0, "the tape begins otherwise");
    read_tape(tape, n, head, tickets, 2);
    known_answers();
    message();
    trucks();
    weights();
    forms();
    tags();
    receptions();
    heard_by_two(tape, n, 2);
    pairing();
    return 0;
}
