/* Branches and addresses do not depend on secrets. Run by memcheck, which is told that the secret bytes are not defined, and then
 * reports each branch and each address that depends on them. Secret are the key, the text, and the words 0 to 5 of a session or
 * writer, which are the cipher's state. Nonce and data are marked like them where nothing may be reported. Not secret are
 * lengths, heads, ciphertext and tags, nor what the other words hold: counts, kind, phase, and in a session the tag's length.
 *
 * Sealing, sessions and the writer give no report; of a checking session's close the verdict on the tag may be reported. A ticket
 * to be written is judged by the rule and packed by its form, by branches, before it is sealed: so the writer is run with tickets that
 * are not marked, and gives no report; and again with tickets that are, and gives at most one a comparison of the rule and one of the
 * form, and the same number for all but the first, before which the data ends: tickets that keep the rule take one way but for the form.
 *
 * An opening whose tag differs gives one report, the verdict; so does a message that opens. A tape whose tag matches gives it,
 * and then those of the ticket rule and of the listing's text, whose number depends on the tickets. tests/stack_and_secrets looks
 * at where the reports stand: none may be an address, and none in the cipher.
 *
 * A call that is refused for lengths, phase or head gives no report. After a close or finish no word depends on a secret.
 *
 * Not run are the calls without a key on tickets, heads and opened bytes: packing, unpacking, moving, reading, counting trucks and pairing. The
 * header says of counting trucks and of pairing that branches and addresses depend on the tickets, and nothing of the others. Nor are the calls
 * on two receptions, which are sealed bytes: the header says that branches depend on them.
 */
#include "tapes.h"

#include <valgrind/memcheck.h>

#define SECRET(place, bytes) ((void)VALGRIND_MAKE_MEM_UNDEFINED(place, bytes))
#define PUBLIC(place, bytes) ((void)VALGRIND_MAKE_MEM_DEFINED(place, bytes))
#define STATE_BYTES (6 * sizeof(uint64_t))
/* those of the ticket rule, as the library makes it: eight of form, truck, shovel and tip, two of the last second by form, and four; and
 * one of the form in packing */
#define RULE_COMPARISONS 15

static uint8_t data[HT_MOST_BYTES], text[HT_MOST_BYTES], sealed[HT_MOST_BYTES + HT_TAG_BYTES];
static uint8_t plain[HT_MOST_PLAIN_BYTES], tape[HT_MOST_TAPE_BYTES], out[HT_MOST_LISTING_BYTES];
static unsigned seen;
static int faults, counts;

/* Says in memcheck's log which call comes next, and counts from here. */
static void next(const char *call)
{
    VALGRIND_PRINTF("next: %s\n", call);
    seen = VALGRIND_COUNT_ERRORS;
}

static void answers(const char *call, uint32_t refused, uint32_t wanted)
{
    PUBLIC(&refused, sizeof refused);
    if (refused != wanted) {
        printf("secrets: %s answers %u in place of %u\n", call, refused, wanted);
        exit(1);
    }
}

/* A call must give so many reports, or with `or_more` at least so many. */
static void reports(const char *call, size_t bytes, unsigned wanted, int or_more)
{
    unsigned found = VALGRIND_COUNT_ERRORS - seen;

    counts++;
    if (found == wanted || (or_more && found > wanted))
        return;
    if (faults++ < 20)
        printf("secrets: %s, text length %zu: reports %u, must be %u\n", call, bytes, found, wanted);
}

/* The verdict on a tag is one branch; or none, where the answer alone depends on it. The answer is looked at behind the count. */
static void verdict(const char *call, size_t bytes, uint32_t refused, uint32_t wanted)
{
    uint32_t undefined = 0;

    (void)VALGRIND_GET_VBITS(&refused, &undefined, sizeof undefined);
    if (undefined == 0 || VALGRIND_COUNT_ERRORS != seen)
        reports(call, bytes, 1, 0);
    answers(call, refused, wanted);
}

/* ---- what must be reported, so that the test can fail ---- */

static volatile uint8_t sink;

__attribute__((noipa)) static void branches_on(const uint8_t *secret)
{
    if (*secret & 1)
        sink = 1;
}

__attribute__((noipa)) static void looks_up(const uint8_t *secret)
{
    sink = data[*secret];
}

static void control(void)
{
    next("control");
    SECRET(key, sizeof key);
    branches_on(key);
    must(VALGRIND_COUNT_ERRORS - seen == 1, "secrets: the test is broken: a branch on a secret is not reported");
    looks_up(key);
    must(VALGRIND_COUNT_ERRORS - seen == 2, "secrets: the test is broken: an address made of a secret is not reported");
    sink = key[0] ^ key[1];
    must(VALGRIND_COUNT_ERRORS - seen == 2, "secrets: the test is broken: a sum of secrets is reported");
}

/* ---- messages ---- */

static void message(size_t n)
{
    ht_written w;

    SECRET(text, n);
    SECRET(data, n);
    SECRET(nonce, sizeof nonce);
    next("ht_seal");
    w = ht_seal(key, sizeof key, nonce, sizeof nonce, data, n, text, n, sealed, n + HT_TAG_BYTES);
    reports("ht_seal", n, 0, 0);
    answers("ht_seal", w.refused, 0);
    PUBLIC(data, n);
    PUBLIC(nonce, sizeof nonce);
    PUBLIC(sealed, n + HT_TAG_BYTES);

    next("ht_open");
    w = ht_open(key, sizeof key, nonce, sizeof nonce, data, n, sealed, n + HT_TAG_BYTES, out, n);
    verdict("ht_open", n, w.refused, 0);
    sealed[n + 15] ^= 1;
    next("ht_open, 7");
    w = ht_open(key, sizeof key, nonce, sizeof nonce, data, n, sealed, n + HT_TAG_BYTES, out, n);
    verdict("ht_open, 7", n, w.refused, 7);
    sealed[n + 15] ^= 1;

    next("refused messages");
    w = ht_seal(key, sizeof key, nonce, sizeof nonce, data, n, text, n, out, n + 15);
    answers("ht_seal", w.refused, 6);
    w = ht_open(key, 15, nonce, sizeof nonce, data, n, sealed, n + HT_TAG_BYTES, out, n);
    answers("ht_open", w.refused, 2);
    if (n > 0) {
        w = ht_open(key, sizeof key, nonce, sizeof nonce, data, n, sealed, n + HT_TAG_BYTES, out, n - 1);
        answers("ht_open", w.refused, 6);
    }
    reports("refused messages", n, 0, 0);
}

/* The same with a tag of so many bytes. */
static void message_with_tag(size_t n, size_t taglen)
{
    ht_written w;

    SECRET(text, n);
    SECRET(data, n);
    SECRET(nonce, sizeof nonce);
    next("ht_seal_tag");
    w = ht_seal_tag(key, sizeof key, nonce, sizeof nonce, data, n, text, n, taglen, sealed, n + taglen);
    reports("ht_seal_tag", n, 0, 0);
    answers("ht_seal_tag", w.refused, 0);
    PUBLIC(data, n);
    PUBLIC(nonce, sizeof nonce);
    PUBLIC(sealed, n + taglen);

    next("ht_open_tag");
    w = ht_open_tag(key, sizeof key, nonce, sizeof nonce, data, n, sealed, n + taglen, taglen, out, n);
    verdict("ht_open_tag", n, w.refused, 0);
    for (size_t i = 0; i < taglen; i += taglen - 1) {
        sealed[n + i] ^= 1; /* the tag's first byte, and then its last, too */
        next("ht_open_tag, 7");
        w = ht_open_tag(key, sizeof key, nonce, sizeof nonce, data, n, sealed, n + taglen, taglen, out, n);
        verdict("ht_open_tag, 7", n, w.refused, 7);
    }

    next("refused messages with a short tag");
    w = ht_seal_tag(key, sizeof key, nonce, sizeof nonce, data, n, text, n, taglen, out, n + taglen - 1);
    answers("ht_seal_tag", w.refused, 6);
    w = ht_seal_tag(key, sizeof key, nonce, sizeof nonce, data, n, text, n, 7, out, sizeof out);
    answers("ht_seal_tag", w.refused, 9);
    w = ht_open_tag(key, 15, nonce, sizeof nonce, data, n, sealed, n + taglen, taglen, out, n);
    answers("ht_open_tag", w.refused, 2);
    w = ht_open_tag(key, sizeof key, nonce, sizeof nonce, data, n, sealed, taglen - 1, taglen, out, n);
    answers("ht_open_tag", w.refused, 2);
    w = ht_open_tag(key, sizeof key, nonce, sizeof nonce, data, n, sealed, n + taglen, 17, out, n);
    answers("ht_open_tag", w.refused, 9);
    if (n > 0) {
        w = ht_open_tag(key, sizeof key, nonce, sizeof nonce, data, n, sealed, n + taglen, taglen, out, n - 1);
        answers("ht_open_tag", w.refused, 6);
    }
    reports("refused messages with a short tag", n, 0, 0);
}

/* ---- sessions ---- */

/* Begins with a tag of so many bytes; for 0 by the call that fixes sixteen. */
static ht_answer begin(ht_session *s, size_t taglen)
{
    if (taglen == 0)
        return ht_session_begin(s, key, sizeof key, nonce, sizeof nonce);
    answers("ht_session_begin_tag", ht_session_begin_tag(s, key, sizeof key, nonce, sizeof nonce, 7).refused, 9);
    return ht_session_begin_tag(s, key, sizeof key, nonce, sizeof nonce, taglen);
}

/* What of a session and an answer is not secret must be defined: this would be reported, too. */
static void counts_known(const ht_session *s, ht_answer *a)
{
    (void)VALGRIND_CHECK_MEM_IS_DEFINED(&s->words[6], sizeof s->words - STATE_BYTES);
    (void)VALGRIND_CHECK_MEM_IS_DEFINED(&a->refused, sizeof a->refused);
    (void)VALGRIND_CHECK_MEM_IS_DEFINED(&a->bytes, sizeof a->bytes + sizeof a->steps);
}

static void session_in_pieces(size_t n, size_t piece, size_t taglen)
{
    const size_t fixed = taglen == 0 ? HT_TAG_BYTES : taglen;
    uint8_t tag[HT_TAG_BYTES];
    ht_session s;
    ht_answer a;

    SECRET(text, n);
    SECRET(data, n);
    SECRET(nonce, sizeof nonce);
    next("a sealing session");
    ht_session_fresh_sealing(&s);
    a = begin(&s, taglen);
    counts_known(&s, &a);
    for (size_t at = 0; at < n; at += piece) {
        SECRET(&s, STATE_BYTES);
        a = ht_session_data(&s, data + at, piece);
        counts_known(&s, &a);
    }
    answers("ht_session_seal_text", ht_session_seal_text(&s, text, 5, out, 4).refused, 6);
    for (size_t at = 0; at < n; at += piece) {
        SECRET(&s, STATE_BYTES);
        a = ht_session_seal_text(&s, text + at, piece, sealed + at, piece);
        counts_known(&s, &a);
    }
    answers("ht_session_seal_close", ht_session_seal_close(&s, tag, fixed - 1).refused, 6);
    a = ht_session_seal_close(&s, tag, sizeof tag);
    counts_known(&s, &a);
    (void)VALGRIND_CHECK_MEM_IS_DEFINED(&s, sizeof s); /* nothing of the state is left */
    answers("ht_session_seal_close", a.refused, 0);
    answers("ht_session_seal_close", ht_session_seal_close(&s, tag, sizeof tag).refused, 1);
    reports("a sealing session", n, 0, 0);

    PUBLIC(tag, fixed);
    for (uint8_t wrong = 0; wrong <= 1; wrong++) {
        next("a checking session");
        ht_session_fresh_checking(&s);
        a = begin(&s, taglen);
        counts_known(&s, &a);
        for (size_t at = 0; at < n; at += piece) {
            SECRET(&s, STATE_BYTES);
            a = ht_session_data(&s, data + at, piece);
            counts_known(&s, &a);
        }
        for (size_t at = 0; at < n; at += piece) {
            SECRET(&s, STATE_BYTES);
            a = ht_session_check_text(&s, sealed + at, piece);
            counts_known(&s, &a);
        }
        answers("ht_session_check_close", ht_session_check_close(&s, tag, fixed - 1).refused, 2);
        reports("a checking session", n, 0, 0);
        tag[0] ^= wrong;
        next("ht_session_check_close");
        a = ht_session_check_close(&s, tag, fixed);
        (void)VALGRIND_CHECK_MEM_IS_DEFINED(&s, sizeof s);
        verdict("ht_session_check_close", n, a.refused, wrong ? 7 : 0);
    }
}

/* ---- tapes ---- */

static void write_tape(size_t n, int secret_tickets)
{
    const char *what = secret_tickets ? "a writer, secret tickets" : "a writer";
    ht_writer w;
    ht_answer a;
    unsigned each = 0;
    size_t at;

    next(what);
    ht_writer_fresh(&w);
    answers("ht_writer_start", ht_writer_start(&w, key, 15, tape_head, tape, sizeof tape).refused, 2);
    a = ht_writer_start(&w, key, sizeof key, tape_head, tape, sizeof tape);
    at = a.bytes;
    reports("ht_writer_start", HT_TICKET_BYTES * n, 0, 0);
    for (size_t i = 0; i < n; i++) {
        ht_ticket t = random_ticket();

        SECRET(&w, STATE_BYTES);
        if (secret_tickets)
            SECRET(&t, sizeof t);
        next(what);
        a = ht_writer_add(&w, t, tape + at, sizeof tape - at);
        if (i < 2) {
            each = VALGRIND_COUNT_ERRORS - seen;
            must(secret_tickets ? each > 0 && each <= RULE_COMPARISONS : each == 0, "secrets: reports of ht_writer_add");
        }
        reports(what, HT_TICKET_BYTES * n, each, 0);
        (void)VALGRIND_CHECK_MEM_IS_DEFINED(&w.words[6], sizeof w.words - STATE_BYTES);
        answers("ht_writer_add", a.refused, 0);
        at += a.bytes;
    }
    next(what);
    answers("ht_writer_add", ht_writer_add(&w, (ht_ticket){0}, tape + at, sizeof tape - at).refused, 4);
    SECRET(&w, STATE_BYTES);
    a = ht_writer_finish(&w, tape + at, sizeof tape - at);
    (void)VALGRIND_CHECK_MEM_IS_DEFINED(&w, sizeof w); /* nothing of the state is left */
    at += a.bytes;
    must(at == HT_HEAD_BYTES + HT_TICKET_BYTES * n + HT_TAG_BYTES, "secrets: the tape has another length");
    reports(what, HT_TICKET_BYTES * n, 0, 0);
}

/* A listing that is done prints what it opened: its bytes, and how many they are, depend on the tickets. */
static void open_tape(size_t n, enum bad bad)
{
    uint32_t opened = n > 0 && bad != NONE_BAD ? 8 : 0;
    size_t bytes = HT_TICKET_BYTES * n, tapelen;
    ht_opened o;
    ht_written w;

    make_plain(plain, n, bad);
    SECRET(plain, bytes);
    tapelen = make_tape(tape, plain, n);
    PUBLIC(tape, tapelen);

    next("ht_open_tape");
    o = ht_open_tape(key, sizeof key, tape, tapelen, out, sizeof out);
    reports("ht_open_tape", bytes, 1, n > 0);
    answers("ht_open_tape", o.refused, opened);
    next("ht_list_tape");
    w = ht_list_tape(key, sizeof key, tape, tapelen, out, sizeof out);
    reports("ht_list_tape", bytes, 1, 1);
    answers("ht_list_tape", w.refused, 0);

    tape[tapelen - 1] ^= 1;
    next("ht_open_tape, 7");
    o = ht_open_tape(key, sizeof key, tape, tapelen, out, sizeof out);
    verdict("ht_open_tape, 7", bytes, o.refused, 7);
    next("ht_list_tape of a tape that is refused with 7");
    w = ht_list_tape(key, sizeof key, tape, tapelen, out, sizeof out);
    reports("ht_list_tape of a tape that is refused with 7", bytes, 1, 0);
    answers("ht_list_tape", w.refused, 0);
    PUBLIC(out, 10);
    must(memcmp(out, "REFUSED 7\n", 10) == 0, "secrets: ht_list_tape lists a tape whose tag differs");

    next("refused tapes");
    if (n > 0)
        answers("ht_open_tape", ht_open_tape(key, sizeof key, tape, tapelen, out, bytes - 1).refused, 6);
    answers("ht_open_tape", ht_open_tape(key, sizeof key, tape, tapelen - 1, out, sizeof out).refused, 2);
    answers("ht_list_tape", ht_list_tape(key, 15, tape, tapelen, out, sizeof out).refused, 0);
    tape[3] = tape[2] = tape[1] = tape[0] = 0;
    answers("ht_open_tape", ht_open_tape(key, sizeof key, tape, tapelen, out, sizeof out).refused, 3);
    reports("refused tapes", bytes, 0, 0);
}

int main(void)
{
    static const size_t lengths[] = {0, 1, 2, 3, 4, 5, 7, 8, 15, 16, 64, 100, 512, 513, 2048, 4100, 8192, 8193, 65536};
    static const size_t pieces[][2] = {{0, 1}, {1, 1}, {26, 13}, {30, 3}, {96, 4}, {512, 32}, {1000, 500}};
    static const size_t tickets[] = {0, 1, 2, 39, 40, 100, 630, 631, 5000};

    must(RUNNING_ON_VALGRIND, "secrets: to be run by valgrind");
    random_bytes(key, sizeof key);
    random_bytes(nonce, sizeof nonce);
    random_bytes(data, sizeof data);
    random_bytes(text, sizeof text);
    control();
    for (size_t i = 0; i < sizeof lengths / sizeof *lengths; i++) {
        message(lengths[i]);
        message_with_tag(lengths[i], HT_LEAST_TAG_BYTES + i % 9); /* 19 text lengths: each tag length has two */
    }
    for (size_t i = 0; i < sizeof pieces / sizeof *pieces; i++)
        session_in_pieces(pieces[i][0], pieces[i][1], 0);
    for (size_t taglen = HT_LEAST_TAG_BYTES; taglen <= HT_TAG_BYTES; taglen++)
        session_in_pieces(30, 3, taglen);
    for (size_t i = 0; i < sizeof tickets / sizeof *tickets; i++) {
        write_tape(tickets[i], 0);
        write_tape(tickets[i], 1);
        for (enum bad bad = NONE_BAD; bad <= ALL_BAD; bad++)
            open_tape(tickets[i], bad);
    }
    if (faults > 0) {
        printf("secrets: %d of %d counts of reports are wrong\n", faults, counts);
        return 1;
    }
    printf("secrets: %d counts of reports are right\n", counts);
    return 0;
}
