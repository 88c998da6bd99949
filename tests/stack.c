/* Measures the stack that each call of the header takes, and holds it against the table below. The script that runs it
 * compares the table with the header.
 *
 * Counted are the bytes from the call's return address downwards; arguments on the stack are the caller's. Each case is run
 *
 *   on a painted stack, where the lowest byte that has changed is looked for: with two paints, as a byte may be written with the
 *   paint's own value, and with the stack's end at four places, as a call may align its frame;
 *
 *   and on a stack of the promised size, rounded up to 16, below which nothing can be touched, so that a touch that changes nothing is
 *   seen, too.
 *
 * With --table it prints what it measured; 'touched' is the smallest stack of the second kind on which the call ends.
 */
#include "own_stack.h"
#include "tapes.h"

#include <sys/resource.h>
#include <sys/wait.h>
#include <unistd.h>

#define ANY SIZE_MAX

/* What the header promises: bytes of stack by call. An opening or listing may have several rows, by the bytes of text that it opens
 * (sealedlen - 16 or - taglen, tapelen - 25): the first row that reaches so far holds, and the last is for ANY number. */
static const struct { const char *call; size_t upto; size_t bytes; } promises[] = {
    {"ht_seal", ANY, 640},
    {"ht_open", 0, 640},
    {"ht_open", 2048, 3 * 1024},
    {"ht_open", 8192, 10 * 1024},
    {"ht_open", 16384, 20 * 1024},
    {"ht_open", ANY, 74 * 1024},
    {"ht_seal_tag", ANY, 640},
    {"ht_open_tag", 0, 640},
    {"ht_open_tag", 2048, 3 * 1024},
    {"ht_open_tag", 8192, 10 * 1024},
    {"ht_open_tag", 16384, 20 * 1024},
    {"ht_open_tag", ANY, 74 * 1024},
    {"ht_session_fresh_sealing", ANY, 640},
    {"ht_session_fresh_checking", ANY, 640},
    {"ht_session_begin", ANY, 640},
    {"ht_session_begin_tag", ANY, 640},
    {"ht_session_data", ANY, 640},
    {"ht_session_seal_text", ANY, 640},
    {"ht_session_seal_close", ANY, 640},
    {"ht_session_check_text", ANY, 640},
    {"ht_session_check_close", ANY, 640},
    {"ht_pack_ticket", ANY, 640},
    {"ht_unpack_ticket", ANY, 640},
    {"ht_move_ticket", ANY, 640},
    {"ht_pack_head", ANY, 640},
    {"ht_unpack_head", ANY, 640},
    {"ht_writer_fresh", ANY, 640},
    {"ht_writer_start", ANY, 640},
    {"ht_writer_add", ANY, 640},
    {"ht_writer_finish", ANY, 640},
    {"ht_open_tape", 39 * 13, 1280},
    {"ht_open_tape", 157 * 13, 4 * 1024},
    {"ht_open_tape", 630 * 13, 10 * 1024},
    {"ht_open_tape", ANY, 66 * 1024},
    {"ht_read_ticket", ANY, 640},
    {"ht_list_tape", ANY, 65 * 1024},
    {"ht_trucks", ANY, 640},
    {"ht_trucks_of_two", ANY, 640},
    {"ht_truck_set_of", ANY, 640},
    {"ht_parting", ANY, 640},
    {"ht_longer", ANY, 640},
    {"ht_pair_tapes", ANY, 36 * 1024},
};

/* ---- the calls, through a pointer, so that a function that does nothing can stand in their place ---- */

typedef void (*function)(void);

static function target;

/* what the call is given; lengths that a case does not name are right ones */
static struct {
    size_t keylen, noncelen, datalen, textlen, secondlen, taglen, outlen;
    size_t pairslen, left_firstlen, left_secondlen;
    const uint8_t *text; /* text, sealed bytes, a piece, a tag, a tape, a reception, packed or plain bytes */
    const uint8_t *second; /* the plain bytes of a second tape, or a second reception */
    ht_session session;
    ht_writer writer;
    ht_ticket ticket;
    uint8_t form;
    ht_head head;
    ht_truck_set set;
    uint64_t position;
} given, saved;

/* what it answers; each answer begins with `refused`, but that of ht_longer with the mast */
static union {
    uint32_t refused;
    ht_written written;
    ht_answer answer;
    ht_opened opened;
    ht_unpacked_ticket ticket;
    ht_unpacked_head head;
    ht_reading reading;
    ht_truck_count trucks;
    ht_truck_counts two;
    ht_parted parted;
    ht_reception longer;
    ht_paired paired;
} got;

static uint8_t data[HT_MOST_BYTES + 1], out[HT_MOST_LISTING_BYTES];
static uint32_t pairs[2 * HT_MOST_TICKETS], left_first[HT_MOST_TICKETS], left_second[HT_MOST_TICKETS];

#define NOTHING __attribute__((noipa)) static
NOTHING void no_answer(void) {}
NOTHING ht_written no_written(void) { return (ht_written){0, 0}; }
NOTHING ht_answer no_session(void) { return (ht_answer){0, 0, 0}; }
NOTHING ht_opened no_opened(void) { return (ht_opened){0, 0, 0}; }
NOTHING ht_unpacked_ticket no_ticket(void) { return (ht_unpacked_ticket){.refused = 0}; }
NOTHING ht_unpacked_head no_head(void) { return (ht_unpacked_head){.refused = 0}; }
NOTHING ht_reading no_reading(void) { return (ht_reading){.refused = 0}; }
NOTHING ht_truck_count no_trucks(void) { return (ht_truck_count){0, 0}; }
NOTHING ht_truck_counts no_two(void) { return (ht_truck_counts){0, 0, 0, 0}; }
NOTHING ht_parted no_parted(void) { return (ht_parted){0, 0}; }
NOTHING ht_reception no_longer(void) { return (ht_reception){0, 0}; }
NOTHING ht_paired no_paired(void) { return (ht_paired){0, 0, 0, 0}; }

/* CALL(name, the field of `got`, what stands in its place, its arguments) */
#define CALL(name, field, nothing, ...) \
    static void run_##name(void) { got.field = ((__typeof__(&name))target)(__VA_ARGS__); } \
    static struct call name##_call = {#name, run_##name, (function)name, (function)nothing, 0};
#define CALL_WITHOUT_ANSWER(name, ...) \
    static void run_##name(void) { ((__typeof__(&name))target)(__VA_ARGS__); } \
    static struct call name##_call = {#name, run_##name, (function)name, (function)no_answer, 0};

/* `callers` is what stands above the return address: the room of what runs the call, and arguments. 0 where not yet measured. */
struct call { const char *name; function run, real, nothing; size_t callers; };

#define KEY key, given.keylen
#define NONCE nonce, given.noncelen
#define DATA data, given.datalen
#define TEXT given.text, given.textlen
#define SECOND given.second, given.secondlen
#define OUT out, given.outlen
CALL(ht_seal, written, no_written, KEY, NONCE, DATA, TEXT, OUT)
CALL(ht_open, written, no_written, KEY, NONCE, DATA, TEXT, OUT)
CALL(ht_seal_tag, written, no_written, KEY, NONCE, DATA, TEXT, given.taglen, OUT)
CALL(ht_open_tag, written, no_written, KEY, NONCE, DATA, TEXT, given.taglen, OUT)
CALL_WITHOUT_ANSWER(ht_session_fresh_sealing, &given.session)
CALL_WITHOUT_ANSWER(ht_session_fresh_checking, &given.session)
CALL(ht_session_begin, answer, no_session, &given.session, KEY, NONCE)
CALL(ht_session_begin_tag, answer, no_session, &given.session, KEY, NONCE, given.taglen)
CALL(ht_session_data, answer, no_session, &given.session, DATA)
CALL(ht_session_seal_text, answer, no_session, &given.session, TEXT, OUT)
CALL(ht_session_seal_close, answer, no_session, &given.session, OUT)
CALL(ht_session_check_text, answer, no_session, &given.session, TEXT)
CALL(ht_session_check_close, answer, no_session, &given.session, TEXT)
CALL(ht_pack_ticket, written, no_written, given.ticket, OUT)
CALL(ht_unpack_ticket, ticket, no_ticket, TEXT)
CALL(ht_move_ticket, ticket, no_ticket, given.ticket, given.form)
CALL(ht_pack_head, written, no_written, given.head, OUT)
CALL(ht_unpack_head, head, no_head, TEXT)
CALL_WITHOUT_ANSWER(ht_writer_fresh, &given.writer)
CALL(ht_writer_start, answer, no_session, &given.writer, KEY, given.head, OUT)
CALL(ht_writer_add, answer, no_session, &given.writer, given.ticket, OUT)
CALL(ht_writer_finish, answer, no_session, &given.writer, OUT)
CALL(ht_open_tape, opened, no_opened, KEY, TEXT, OUT)
CALL(ht_read_ticket, reading, no_reading, TEXT, given.position)
CALL(ht_list_tape, written, no_written, KEY, TEXT, OUT)
CALL(ht_trucks, trucks, no_trucks, TEXT)
CALL(ht_trucks_of_two, two, no_two, TEXT, SECOND)
CALL(ht_truck_set_of, trucks, no_trucks, TEXT, &given.set)
CALL(ht_parting, parted, no_parted, TEXT, SECOND)
CALL(ht_longer, longer, no_longer, TEXT, SECOND)
CALL(ht_pair_tapes, paired, no_paired, TEXT, SECOND, pairs, given.pairslen, left_first, given.left_firstlen, left_second, given.left_secondlen)

/* ---- measuring ---- */

static int print_table, faults, cases;

/* the most that was measured, by call and length */
static struct need { const char *call; size_t length, changed, touched, promised; } needs[200];
static size_t needs_count;

static size_t most(size_t a, size_t b)
{
    return a > b ? a : b;
}

static size_t promised_for(const char *call, size_t length)
{
    for (size_t i = 0; i < sizeof promises / sizeof *promises; i++)
        if (strcmp(promises[i].call, call) == 0 && length <= promises[i].upto)
            return promises[i].bytes;
    printf("stack: nothing is promised of %s\n", call);
    exit(1);
}

static void run(const struct call *c, function f, size_t bytes)
{
    given = saved;
    got.refused = 0;
    target = f;
    own_stack_run(c->run, bytes);
}

/* The distance from the stack's end to the lowest byte that is changed. */
static size_t depth(const struct call *c, function f, size_t bytes)
{
    static const uint8_t paints[] = {0x5a, 0xc6};
    size_t deepest = 0;

    for (size_t i = 0; i < sizeof paints; i++) {
        memset(own_stack, paints[i], OWN_STACK_BYTES);
        run(c, f, bytes);
        deepest = most(deepest, bytes - own_stack_unchanged(paints[i]));
    }
    return deepest;
}

/* The bytes that the call changes, from its return address downwards. */
static size_t changed_by(struct call *c, size_t bytes)
{
    if (c->callers == 0)
        c->callers = depth(c, c->nothing, OWN_STACK_BYTES) - sizeof(void *);
    return depth(c, c->real, bytes) - c->callers;
}

/* Whether the call ends on a stack of so many bytes, up to the next 16. */
static int ends_on(const struct call *c, size_t bytes)
{
    int status;
    pid_t child = fork();

    must(child >= 0, "stack: no second process");
    if (child == 0) {
        setrlimit(RLIMIT_CORE, &(struct rlimit){0, 0});
        run(c, c->real, (c->callers + bytes + 15) / 16 * 16);
        _exit(0);
    }
    must(waitpid(child, &status, 0) == child, "stack: the second process is lost");
    return WIFEXITED(status) && WEXITSTATUS(status) == 0;
}

/* The smallest such stack, where `bytes` may be too small. */
static size_t least_stack(const struct call *c, size_t bytes)
{
    size_t small = bytes, enough = bytes;

    while (!ends_on(c, enough)) {
        small = enough;
        enough += most(16, enough - bytes);
        must(enough < OWN_STACK_BYTES / 2 + bytes, "stack: a call does not end");
    }
    while (enough - small > 16) {
        size_t half = (small + enough) / 32 * 16;
        if (ends_on(c, half))
            enough = half;
        else
            small = half;
    }
    return enough;
}

static void note(const struct call *c, size_t length, size_t changed, size_t touched, size_t promised)
{
    size_t i = 0;

    while (i < needs_count && (needs[i].call != c->name || needs[i].length != length))
        i++;
    if (i == needs_count) {
        must(needs_count < sizeof needs / sizeof *needs, "stack: more lengths than the table has room for");
        needs[needs_count++] = (struct need){c->name, length, 0, 0, promised};
    }
    needs[i].changed = most(needs[i].changed, changed);
    needs[i].touched = most(needs[i].touched, touched);
}

/* Measures the call on what `saved` holds. `length` is the bytes of text where the promise may go by it, else ANY. */
static void measure(struct call *c, size_t length, uint32_t refused)
{
    size_t promised = promised_for(c->name, length), changed = 0;

    cases++;
    for (size_t end = OWN_STACK_BYTES - 48; end <= OWN_STACK_BYTES; end += 16) {
        changed = most(changed, changed_by(c, end));
        if (got.refused != refused) {
            printf("stack: %s answers %u in place of %u\n", c->name, got.refused, refused);
            exit(1);
        }
    }
    if ((changed > promised || !ends_on(c, promised)) && faults++ < 20) {
        printf("stack: %s, answer %u", c->name, refused);
        if (length != ANY)
            printf(", text length %zu", length);
        if (changed > promised)
            printf(": takes %zu bytes, promised are %zu\n", changed, promised);
        else
            printf(": touches what lies below the %zu bytes that are promised\n", promised);
    }
    if (print_table)
        note(c, length, changed, least_stack(c, changed), promised);
}

/* ---- the cases ---- */

static const size_t lengths[] = {0, 1, 2, 3, 4, 15, 16, 17, 64, 256, 512, 513, 1024, 1025, 2048, 2049, 4096, 4097, 8192, 8193,
    16384, 16385, 32768, 32769, 65535, 65536};
static const size_t ticket_counts[] = {0, 1, 2, 3, 19, 20, 39, 40, 41, 78, 79, 157, 158, 315, 316, 500, 630, 631, 1260, 1261,
    2520, 2521, 4999, 5000};
static const size_t tag_lengths[] = {8, 13, 16}, wrong_tag_lengths[] = {0, 7, 17, SIZE_MAX};
#define COUNT(list) (sizeof(list) / sizeof *(list))

static uint8_t text[HT_MOST_BYTES + 1], sealed[HT_MOST_BYTES + 1 + HT_TAG_BYTES];
static uint8_t plain[HT_MOST_PLAIN_BYTES], tape[HT_MOST_TAPE_BYTES + HT_TICKET_BYTES];
static uint8_t other_plain[HT_MOST_PLAIN_BYTES + HT_TICKET_BYTES];

/* right lengths, the shortest tag, no text, a good ticket and head, and room for everything */
static void usual(void)
{
    memset(&saved, 0, sizeof saved);
    saved.keylen = sizeof key;
    saved.noncelen = sizeof nonce;
    saved.taglen = HT_LEAST_TAG_BYTES;
    saved.text = saved.second = text;
    saved.outlen = sizeof out;
    saved.pairslen = COUNT(pairs);
    saved.left_firstlen = saved.left_secondlen = HT_MOST_TICKETS;
    saved.head = tape_head;
    saved.ticket = random_ticket();
}

static void sealing(void)
{
    for (size_t i = 0; i < COUNT(lengths); i++) {
        usual();
        saved.textlen = lengths[i];
        for (size_t j = 0; j < COUNT(lengths); j += 5) {
            saved.datalen = lengths[j];
            measure(&ht_seal_call, ANY, 0);
        }
        saved.outlen = lengths[i] + 15;
        measure(&ht_seal_call, ANY, 6);
    }
    usual(), saved.keylen = 15, measure(&ht_seal_call, ANY, 2);
    usual(), saved.noncelen = 17, measure(&ht_seal_call, ANY, 2);
    usual(), saved.textlen = HT_MOST_BYTES + 1, measure(&ht_seal_call, ANY, 5);
    usual(), saved.datalen = HT_MOST_BYTES + 1, measure(&ht_seal_call, ANY, 5);
}

static void opening(void)
{
    for (size_t i = 0; i < COUNT(lengths); i++) {
        size_t n = lengths[i];

        must(ht_seal(key, sizeof key, nonce, sizeof nonce, data, 9, text, n, sealed, n + 16).refused == 0, "stack: no sealing");
        usual();
        saved.text = sealed;
        saved.datalen = 9;
        saved.textlen = n + 16;
        measure(&ht_open_call, n, 0);
        saved.outlen = n;
        measure(&ht_open_call, n, 0);
        sealed[n] ^= 1;
        measure(&ht_open_call, n, 7);
        for (size_t j = 0; j < COUNT(lengths); j += 5) {
            saved.datalen = lengths[j];
            measure(&ht_open_call, n, 7);
        }
        if (n > 0)
            saved.outlen = n - 1, measure(&ht_open_call, n, 6);
        saved.datalen = HT_MOST_BYTES + 1, measure(&ht_open_call, n, 5);
        saved.keylen = 0, measure(&ht_open_call, n, 2);
    }
    usual(), saved.textlen = 15, measure(&ht_open_call, 0, 2);
    usual(), saved.textlen = HT_MOST_BYTES + 17, saved.text = sealed, measure(&ht_open_call, HT_MOST_BYTES, 5);
}

/* The same calls with tags of other lengths. */
static void sealing_with_tag(void)
{
    for (size_t i = 0; i < COUNT(lengths); i++)
        for (size_t k = 0; k < COUNT(tag_lengths); k++) {
            usual();
            saved.taglen = tag_lengths[k];
            saved.textlen = lengths[i];
            for (size_t j = 0; j < COUNT(lengths); j += 15) {
                saved.datalen = lengths[j];
                measure(&ht_seal_tag_call, ANY, 0);
            }
            saved.outlen = lengths[i] + tag_lengths[k];
            measure(&ht_seal_tag_call, ANY, 0);
            saved.outlen--;
            measure(&ht_seal_tag_call, ANY, 6);
        }
    usual(), saved.keylen = 15, measure(&ht_seal_tag_call, ANY, 2);
    usual(), saved.noncelen = 17, measure(&ht_seal_tag_call, ANY, 2);
    usual(), saved.textlen = HT_MOST_BYTES + 1, measure(&ht_seal_tag_call, ANY, 5);
    usual(), saved.datalen = HT_MOST_BYTES + 1, measure(&ht_seal_tag_call, ANY, 5);
    for (size_t k = 0; k < COUNT(wrong_tag_lengths); k++)
        usual(), saved.taglen = wrong_tag_lengths[k], measure(&ht_seal_tag_call, ANY, 9);
}

static void opening_with_tag(void)
{
    for (size_t i = 0; i < COUNT(lengths); i++)
        for (size_t k = 0; k < COUNT(tag_lengths); k++) {
            size_t n = lengths[i], taglen = tag_lengths[k];

            must(ht_seal_tag(key, sizeof key, nonce, sizeof nonce, data, 9, text, n, taglen, sealed, n + taglen).refused == 0,
                "stack: no sealing");
            usual();
            saved.taglen = taglen;
            saved.text = sealed;
            saved.datalen = 9;
            saved.textlen = n + taglen;
            measure(&ht_open_tag_call, n, 0);
            saved.outlen = n;
            measure(&ht_open_tag_call, n, 0);
            sealed[n] ^= 1;
            measure(&ht_open_tag_call, n, 7);
            if (n > 0)
                saved.outlen = n - 1, measure(&ht_open_tag_call, n, 6);
            saved.datalen = HT_MOST_BYTES + 1, measure(&ht_open_tag_call, n, 5);
            saved.keylen = 0, measure(&ht_open_tag_call, n, 2);
            saved.taglen = 7, measure(&ht_open_tag_call, n, 9);
        }
    for (size_t k = 0; k < COUNT(tag_lengths); k++) {
        usual(), saved.taglen = tag_lengths[k], saved.textlen = tag_lengths[k] - 1, measure(&ht_open_tag_call, 0, 2);
        usual(), saved.taglen = tag_lengths[k], saved.textlen = HT_MOST_BYTES + 1 + tag_lengths[k], saved.text = sealed;
        measure(&ht_open_tag_call, HT_MOST_BYTES, 5);
    }
    for (size_t k = 0; k < COUNT(wrong_tag_lengths); k++)
        usual(), saved.taglen = wrong_tag_lengths[k], saved.textlen = 64, measure(&ht_open_tag_call, 0, 9);
}

/* a session of the kind in `s`, with data begun */
static void begun(ht_session *s)
{
    must(ht_session_begin(s, key, sizeof key, nonce, sizeof nonce).refused == 0, "stack: no begin");
    must(ht_session_data(s, data, 9).refused == 0, "stack: no data");
}

static void sessions(void)
{
    ht_session fresh, sealing, in_text, checking, in_check, closed;
    uint8_t tag[HT_TAG_BYTES];

    usual();
    measure(&ht_session_fresh_sealing_call, ANY, 0);
    measure(&ht_session_fresh_checking_call, ANY, 0);
    ht_session_fresh_sealing(&fresh);
    sealing = fresh;
    begun(&sealing);
    in_text = sealing;
    must(ht_session_seal_text(&in_text, text, 5, out, 5).refused == 0, "stack: no text");
    ht_session_fresh_checking(&checking);
    begun(&checking);
    in_check = checking;
    must(ht_session_check_text(&in_check, out, 5).refused == 0, "stack: no ciphertext");
    closed = in_text;
    must(ht_session_seal_close(&closed, tag, sizeof tag).refused == 0, "stack: no close");

    usual(), saved.session = fresh, measure(&ht_session_begin_call, ANY, 0);
    usual(), saved.session = sealing, measure(&ht_session_begin_call, ANY, 1);
    usual(), saved.session = fresh, saved.keylen = 17, measure(&ht_session_begin_call, ANY, 2);
    for (size_t i = 0; i < COUNT(lengths); i++) {
        size_t n = lengths[i];

        usual(), saved.session = sealing, saved.datalen = n, measure(&ht_session_data_call, ANY, n + 9 > HT_MOST_BYTES ? 5 : 0);
        usual(), saved.session = in_text, saved.datalen = n, measure(&ht_session_data_call, ANY, 1);
        usual(), saved.session = sealing, saved.textlen = n, measure(&ht_session_seal_text_call, ANY, 0);
        usual(), saved.session = in_text, saved.textlen = n;
        measure(&ht_session_seal_text_call, ANY, n + 5 > HT_MOST_BYTES ? 5 : 0);
        usual(), saved.session = checking, saved.textlen = n, measure(&ht_session_seal_text_call, ANY, 1);
        usual(), saved.session = sealing, saved.textlen = n + 1, saved.outlen = n;
        measure(&ht_session_seal_text_call, ANY, n == HT_MOST_BYTES ? 5 : 6);
        usual(), saved.session = checking, saved.textlen = n, measure(&ht_session_check_text_call, ANY, 0);
        usual(), saved.session = in_check, saved.textlen = n;
        measure(&ht_session_check_text_call, ANY, n + 5 > HT_MOST_BYTES ? 5 : 0);
        usual(), saved.session = sealing, saved.textlen = n, measure(&ht_session_check_text_call, ANY, 1);
    }
    usual(), saved.session = sealing, measure(&ht_session_seal_close_call, ANY, 0);
    usual(), saved.session = in_text, measure(&ht_session_seal_close_call, ANY, 0);
    usual(), saved.session = checking, measure(&ht_session_seal_close_call, ANY, 1);
    usual(), saved.session = in_text, saved.outlen = 15, measure(&ht_session_seal_close_call, ANY, 6);
    usual(), saved.session = in_check, saved.text = tag, saved.textlen = 16, measure(&ht_session_check_close_call, ANY, 0);
    usual(), saved.session = in_check, saved.textlen = 16, measure(&ht_session_check_close_call, ANY, 7);
    usual(), saved.session = checking, saved.textlen = 16, measure(&ht_session_check_close_call, ANY, 7);
    usual(), saved.session = fresh, saved.textlen = 16, measure(&ht_session_check_close_call, ANY, 1);
    usual(), saved.session = checking, saved.textlen = 15, measure(&ht_session_check_close_call, ANY, 2);
}

/* A begin with a length, and the closes behind it. */
static void sessions_with_tag(void)
{
    ht_session fresh[2], begun;
    uint8_t tag[HT_TAG_BYTES];

    ht_session_fresh_sealing(&fresh[0]);
    ht_session_fresh_checking(&fresh[1]);
    for (int checking = 0; checking < 2; checking++) {
        for (size_t k = 0; k < COUNT(wrong_tag_lengths); k++)
            usual(), saved.session = fresh[checking], saved.taglen = wrong_tag_lengths[k], measure(&ht_session_begin_tag_call, ANY, 9);
        for (size_t k = 0; k < COUNT(tag_lengths); k++) {
            size_t n = tag_lengths[k];

            usual(), saved.session = fresh[checking], saved.taglen = n, measure(&ht_session_begin_tag_call, ANY, 0);
            saved.keylen = 17, measure(&ht_session_begin_tag_call, ANY, 2);
            begun = fresh[checking];
            must(ht_session_begin_tag(&begun, key, sizeof key, nonce, sizeof nonce, n).refused == 0, "stack: no begin");
            saved.session = begun, measure(&ht_session_begin_tag_call, ANY, 1);
            if (!checking) {
                usual(), saved.session = begun, measure(&ht_session_seal_close_call, ANY, 0);
                saved.outlen = n, measure(&ht_session_seal_close_call, ANY, 0);
                saved.outlen = n - 1, measure(&ht_session_seal_close_call, ANY, 6);
            } else {
                must(ht_seal_tag(key, sizeof key, nonce, sizeof nonce, data, 0, text, 0, n, tag, n).refused == 0, "stack: no sealing");
                usual(), saved.session = begun, saved.text = tag, saved.textlen = n, measure(&ht_session_check_close_call, ANY, 0);
                saved.text = text, measure(&ht_session_check_close_call, ANY, 7);
                saved.textlen = n - 1, measure(&ht_session_check_close_call, ANY, 2);
            }
        }
    }
}

static void tickets_and_heads(void)
{
    for (int i = 0; i < 20; i++) { /* tickets of both forms */
        usual(), measure(&ht_pack_ticket_call, ANY, 0);
        saved.outlen = 12, measure(&ht_pack_ticket_call, ANY, 6);
        saved.ticket.form = 3, measure(&ht_pack_ticket_call, ANY, 4);
        make_plain(plain, 3, LAST_BAD);
        usual(), saved.text = plain, saved.textlen = 13, measure(&ht_unpack_ticket_call, ANY, 0);
        usual(), saved.text = plain, saved.textlen = 14, measure(&ht_unpack_ticket_call, ANY, 2);
        usual(), saved.text = plain + 26, saved.textlen = 13, measure(&ht_unpack_ticket_call, ANY, 8);
        for (uint8_t form = 0; form < 4; form++) {
            usual(), saved.form = form;
            uint32_t late = saved.ticket.form == 2 && saved.ticket.tipped > 43199 ? 11 : 0;
            measure(&ht_move_ticket_call, ANY, form == 1 ? late : form == 2 ? 0 : 4);
            saved.ticket.truck = 0, measure(&ht_move_ticket_call, ANY, 4);
        }
    }
    usual(), measure(&ht_pack_head_call, ANY, 0);
    usual(), saved.outlen = 8, measure(&ht_pack_head_call, ANY, 6);
    usual(), saved.head.device = 0, measure(&ht_pack_head_call, ANY, 3);
    make_tape(tape, plain, 0);
    usual(), saved.text = tape, saved.textlen = 9, measure(&ht_unpack_head_call, ANY, 0);
    usual(), saved.text = tape, saved.textlen = 8, measure(&ht_unpack_head_call, ANY, 2);
    usual(), saved.text = data, saved.textlen = 9, memset(data, 0, 9), measure(&ht_unpack_head_call, ANY, 3);
    for (uint64_t i = 0; i < 5; i++)
        usual(), saved.text = plain, saved.textlen = 39, saved.position = i, measure(&ht_read_ticket_call, ANY, i == 2 ? 8 : 0);
    usual(), saved.text = plain, saved.textlen = 40, measure(&ht_read_ticket_call, ANY, 2);
}

static void writers(void)
{
    ht_writer fresh, started, full;

    usual();
    measure(&ht_writer_fresh_call, ANY, 0);
    ht_writer_fresh(&fresh);
    started = fresh;
    must(ht_writer_start(&started, key, sizeof key, tape_head, out, 9).refused == 0, "stack: no start");
    full = started;
    for (size_t i = 0; i < HT_MOST_TICKETS; i++) {
        if (i == 1 || i == HT_MOST_TICKETS - 1) {
            usual(), saved.writer = full, measure(&ht_writer_add_call, ANY, 0);
            usual(), saved.writer = full, measure(&ht_writer_finish_call, ANY, 0);
        }
        must(ht_writer_add(&full, random_ticket(), out, 13).refused == 0, "stack: no ticket");
    }
    usual(), saved.writer = fresh, measure(&ht_writer_start_call, ANY, 0);
    usual(), saved.writer = started, measure(&ht_writer_start_call, ANY, 1);
    usual(), saved.writer = fresh, saved.keylen = 15, measure(&ht_writer_start_call, ANY, 2);
    usual(), saved.writer = fresh, saved.head.shift = 0, measure(&ht_writer_start_call, ANY, 3);
    usual(), saved.writer = fresh, saved.outlen = 8, measure(&ht_writer_start_call, ANY, 6);
    usual(), saved.writer = started, measure(&ht_writer_add_call, ANY, 0);
    usual(), saved.writer = fresh, measure(&ht_writer_add_call, ANY, 1);
    usual(), saved.writer = started, saved.ticket.truck = 0, measure(&ht_writer_add_call, ANY, 4);
    usual(), saved.writer = full, measure(&ht_writer_add_call, ANY, 5);
    usual(), saved.writer = started, saved.outlen = 12, measure(&ht_writer_add_call, ANY, 6);
    usual(), saved.writer = started, measure(&ht_writer_finish_call, ANY, 0);
    usual(), saved.writer = full, measure(&ht_writer_finish_call, ANY, 0);
    usual(), saved.writer = fresh, measure(&ht_writer_finish_call, ANY, 1);
    usual(), saved.writer = started, saved.outlen = 15, measure(&ht_writer_finish_call, ANY, 6);
}

/* Opening and listing a tape. A listing of a tape that does not open is a call that is done. */
static void tapes(void)
{
    for (size_t i = 0; i < COUNT(ticket_counts); i++) {
        size_t n = ticket_counts[i], bytes = n * HT_TICKET_BYTES;

        for (enum bad bad = NONE_BAD; bad <= ALL_BAD; bad++) {
            uint32_t verdict = n > 0 && bad != NONE_BAD ? 8 : 0;

            make_plain(plain, n, bad);
            usual();
            saved.text = tape;
            saved.textlen = make_tape(tape, plain, n);
            measure(&ht_open_tape_call, bytes, verdict);
            measure(&ht_list_tape_call, bytes, 0);
            size_t listed = ht_list_tape(key, sizeof key, tape, saved.textlen, out, sizeof out).bytes;
            saved.outlen = listed, measure(&ht_list_tape_call, bytes, 0);
            saved.outlen = listed - 1, measure(&ht_list_tape_call, bytes, 6);
            saved.outlen = 0, measure(&ht_list_tape_call, bytes, 6);
            if (n > 0)
                saved.outlen = bytes - 1, measure(&ht_open_tape_call, bytes, 6);
            saved.outlen = sizeof out;
            tape[saved.textlen - 1] ^= 1;
            measure(&ht_open_tape_call, bytes, 7);
            measure(&ht_list_tape_call, bytes, 0);
            memset(tape, 0, HT_HEAD_BYTES);
            measure(&ht_open_tape_call, bytes, 3);
            measure(&ht_list_tape_call, bytes, 0);
            saved.keylen = 0;
            measure(&ht_open_tape_call, bytes, 2);
            measure(&ht_list_tape_call, bytes, 0);
        }
    }
    usual(), saved.text = tape, saved.textlen = 24, measure(&ht_open_tape_call, 0, 2), measure(&ht_list_tape_call, 0, 0);
    saved.textlen = HT_MOST_TAPE_BYTES + 13;
    measure(&ht_open_tape_call, HT_MOST_PLAIN_BYTES, 2), measure(&ht_list_tape_call, HT_MOST_PLAIN_BYTES, 0);
}

/* Counting the trucks of opened bytes: of one tape, and of two in every combination of tickets that unpack and that do not. */
static void trucks(void)
{
    for (size_t i = 0; i < COUNT(ticket_counts); i++) {
        size_t n = ticket_counts[i], bytes = n * HT_TICKET_BYTES;

        for (enum bad bad = NONE_BAD; bad <= ALL_BAD; bad++) {
            uint32_t verdict = n > 0 && bad != NONE_BAD ? 8 : 0;

            make_plain(plain, n, bad);
            usual(), saved.text = plain, saved.textlen = bytes;
            measure(&ht_trucks_call, ANY, verdict);
            measure(&ht_truck_set_of_call, ANY, verdict);
            for (enum bad other = NONE_BAD; other <= ALL_BAD; other++) {
                make_plain(other_plain, 40, other);
                usual(), saved.text = plain, saved.textlen = bytes, saved.second = other_plain, saved.secondlen = 40 * HT_TICKET_BYTES;
                measure(&ht_trucks_of_two_call, ANY, other != NONE_BAD ? 8 : verdict);
                usual(), saved.text = other_plain, saved.textlen = 40 * HT_TICKET_BYTES, saved.second = plain, saved.secondlen = bytes;
                measure(&ht_trucks_of_two_call, ANY, other != NONE_BAD ? 8 : verdict);
            }
            usual(), saved.text = saved.second = plain, saved.textlen = saved.secondlen = bytes;
            measure(&ht_trucks_of_two_call, ANY, verdict);
            saved.secondlen = bytes + 1, saved.second = other_plain;
            measure(&ht_trucks_of_two_call, ANY, 2);
            saved.textlen = bytes + 1, saved.text = other_plain;
            measure(&ht_trucks_of_two_call, ANY, 2);
            measure(&ht_trucks_call, ANY, 2);
            measure(&ht_truck_set_of_call, ANY, 2);
            saved.secondlen = bytes, saved.second = plain;
            measure(&ht_trucks_of_two_call, ANY, 2);
        }
    }
    usual(), saved.text = saved.second = other_plain, saved.textlen = saved.secondlen = sizeof other_plain;
    measure(&ht_trucks_call, ANY, 2);
    measure(&ht_truck_set_of_call, ANY, 2);
    measure(&ht_trucks_of_two_call, ANY, 2);
}

/* Two receptions: equally long, one shorter, one empty; and parted in the first byte, in the middle and in the last. */
static void receptions(void)
{
    for (size_t i = 0; i < COUNT(lengths); i++)
        for (size_t j = 0; j < COUNT(lengths); j += 5) {
            size_t first = lengths[i], second = lengths[j], shorter = first < second ? first : second;
            const size_t places[] = {0, shorter / 2, shorter - 1};

            memcpy(sealed, text, sizeof text);
            usual(), saved.text = text, saved.textlen = first, saved.second = sealed, saved.secondlen = second;
            measure(&ht_parting_call, ANY, 0);
            measure(&ht_longer_call, ANY, first < second ? 2 : 1);
            for (size_t k = 0; shorter > 0 && k < COUNT(places); k++) {
                sealed[places[k]] ^= 1;
                measure(&ht_parting_call, ANY, 10);
                measure(&ht_longer_call, ANY, 1);
                sealed[places[k]] ^= 1;
            }
        }
}

/* The plain bytes of n tickets whose times rise: those of a truck come every `trucks` tickets, from second `start` on and 8 seconds apart. */
static void make_rising(uint8_t *bytes, size_t n, size_t trucks, uint32_t start)
{
    for (size_t i = 0; i < n; i++) {
        ht_ticket t = random_ticket();

        t.truck = (uint16_t)(1 + i % trucks);
        t.tipped = start + 8 * (uint32_t)i;
        t.loaded = t.tipped / 2;
        t.form = t.tipped > 43199 ? 2 : t.form;
        must(ht_pack_ticket(t, bytes + i * HT_TICKET_BYTES, HT_TICKET_BYTES).refused == 0, "stack: a ticket does not pack");
    }
}

/* Pairing two tapes of as many tickets, or a tape and a short one: all in pairs, some, and none, as the second is late or the first; each
 * output too short; and a wrong length, a time that falls and a ticket that does not unpack, on either tape. */
static void pairing(void)
{
    static const size_t tickets[] = {0, 1, 2, 40, 500, 4999, 5000}, trucks[] = {1, 20, 1000};
    static const uint32_t starts[][2] = {{0, 60}, {0, 1000}, {0, 46000}, {46000, 0}};

    for (size_t i = 0; i < COUNT(tickets); i++)
        for (size_t j = 0; j < COUNT(starts); j++)
            for (size_t k = 0; k < COUNT(trucks); k++) {
                const size_t n = tickets[i], m = n > 40 && k == 1 ? 40 : n;

                make_rising(plain, n, trucks[k], starts[j][0]);
                make_rising(other_plain, m, trucks[k], starts[j][1]);
                usual(), saved.text = plain, saved.second = other_plain;
                saved.textlen = n * HT_TICKET_BYTES, saved.secondlen = m * HT_TICKET_BYTES;
                measure(&ht_pair_tapes_call, ANY, 0);
                const ht_paired p = got.paired;
                saved.pairslen = 2 * p.pairs, saved.left_firstlen = p.left_first, saved.left_secondlen = p.left_second;
                measure(&ht_pair_tapes_call, ANY, 0);
                if (p.pairs > 0)
                    saved.pairslen--, measure(&ht_pair_tapes_call, ANY, 6), saved.pairslen++;
                if (p.left_first > 0)
                    saved.left_firstlen--, measure(&ht_pair_tapes_call, ANY, 6), saved.left_firstlen++;
                if (p.left_second > 0)
                    saved.left_secondlen--, measure(&ht_pair_tapes_call, ANY, 6);
            }
    for (size_t i = 1; i < COUNT(tickets); i++)
        for (int first = 0; first < 2; first++) {
            const size_t n = tickets[i], bytes = n * HT_TICKET_BYTES;
            uint8_t *last = other_plain + bytes - HT_TICKET_BYTES;

            make_rising(plain, n, 1, 1000);
            make_rising(other_plain, n, 1, 1000);
            usual(), saved.text = first ? other_plain : plain, saved.second = first ? plain : other_plain;
            saved.textlen = bytes - (first ? 1 : 0), saved.secondlen = bytes - (first ? 0 : 1), measure(&ht_pair_tapes_call, ANY, 2);
            saved.textlen = saved.secondlen = bytes;
            make_rising(last, 1, 1, 999), measure(&ht_pair_tapes_call, ANY, n > 1 ? 12 : 0);
            make_plain(last, 1, ALL_BAD), measure(&ht_pair_tapes_call, ANY, 8);
        }
    usual(), saved.text = saved.second = other_plain, saved.textlen = saved.secondlen = sizeof other_plain;
    measure(&ht_pair_tapes_call, ANY, 2);
}

static void reads_below(void)
{
    volatile uint8_t room[20000];

    room[sizeof room - 1] = 0;
    (void)room[0];
}

/* The test must be able to fail: a call does not end on a stack 16 bytes shorter than what it changes, and a touch is seen. */
static void control(void)
{
    struct call reading = {"reads_below", reads_below, no_answer, no_answer, 0};

    usual();
    saved.textlen = 64;
    size_t bytes = changed_by(&ht_seal_call, OWN_STACK_BYTES);
    must(ends_on(&ht_seal_call, bytes), "stack: the test is broken: ht_seal does not end on the stack that it changes");
    must(!ends_on(&ht_seal_call, bytes - 16), "stack: the test is broken: a stack that is too short is not seen");
    must(changed_by(&reading, OWN_STACK_BYTES) < 64, "stack: the test is broken: a touch counts as a change");
    must(!ends_on(&reading, 10000), "stack: the test is broken: a touch is not seen");
}

/* One line for lengths that follow one another and need the same. */
static void print_needs(const char *call)
{
    const struct need *first = NULL, *last = NULL;

    for (size_t i = 0; i <= needs_count; i++) {
        const struct need *n = i < needs_count ? &needs[i] : NULL;
        if (n != NULL && strcmp(n->call, call) != 0)
            continue;
        int same = n != NULL && last != NULL && n->changed == last->changed && n->touched == last->touched
            && n->promised == last->promised;
        if (first != NULL && !same) {
            char range[48] = "any";
            if (first->length != ANY)
                snprintf(range, sizeof range, "%zu to %zu", first->length, last->length);
            printf("%-28s%16s%10zu%10zu%10zu\n", call, range, last->changed, last->touched, last->promised);
            first = NULL;
        }
        first = first == NULL ? n : first;
        last = n;
    }
}

int main(int argc, char **argv)
{
    print_table = argc > 1 && strcmp(argv[1], "--table") == 0;
    own_stack_make();
    random_bytes(key, sizeof key);
    random_bytes(nonce, sizeof nonce);
    random_bytes(data, sizeof data);
    random_bytes(text, sizeof text);
    control();
    sealing();
    opening();
    sealing_with_tag();
    opening_with_tag();
    sessions();
    sessions_with_tag();
    tickets_and_heads();
    writers();
    tapes();
    trucks();
    receptions();
    pairing();
    if (print_table) {
        printf("%-28s%16s%10s%10s%10s\n", "call", "text length", "changed", "touched", "promised");
        for (size_t i = 0; i < sizeof promises / sizeof *promises; i++)
            if (i == 0 || strcmp(promises[i].call, promises[i - 1].call) != 0)
                print_needs(promises[i].call);
    }
    if (faults > 0) {
        printf("stack: %d of %d cases take more than is promised\n", faults, cases);
        return 1;
    }
    printf("stack: %d cases of 31 calls stay within the promised bytes\n", cases);
    return 0;
}
