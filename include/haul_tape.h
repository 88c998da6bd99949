/* The haul tape library: ACORN-128 v3, haul tickets and shift tapes. Link libhaul_tape.a, which needs the C library's memcpy and
 * memset and no more. It is built for x86-64, and uses SSE registers as the calling convention there has it.
 *
 * Nothing here allocates or keeps anything: sessions, writers and sets of trucks are structs of words that the caller places, and every
 * buffer comes with its length: bytes, or numbers where it is one of uint32_t. No call reads or writes beyond the lengths given. An output,
 * session, writer or set must not overlap anything else that the call is given (so nothing is sealed in place), and a pointer must not be
 * null, not even with length 0. There is no global state: calls on different structs and buffers may run at the same time.
 *
 * Secrets: the words of a session or writer that is not closed are as secret as its key. A close that is done or ends with 7, and a
 * finish that is done, put zeros in place of the cipher's state, so that counts, phase and the tag's length are left; one that is
 * sent back stores nothing. A session or writer that is given up is cleared by setting it fresh. After an opening refused with 7 or
 * 8, or a listing refused with 6, no 8 bytes of the decrypted text in a row are on the stack, nor the whole of a text of 4 to 7;
 * after 8 and after 6 single fields of a ticket and sums may be. A call that is done may leave text there; a call on opened bytes may
 * leave fields of tickets, sets of trucks and positions of pairs there, done or refused. Every call that runs the cipher may leave words of
 * its state there, and these with the ciphertext give the text: a caller that must not leave them overwrites the stack below the call. In
 * sealing, sessions, the writer, opening and listing no branch and no address depends on the key, the text or the state, but for the
 * verdict on a tag, the rule on a ticket and its form, and what a listing prints. Tested, as built for x86-64.
 *
 * Never use a key and nonce for a second message, nor with two lengths of tag, nor a key and head for a second tape: nothing here can
 * notice it. One try at guessing a tag of n bytes succeeds with a probability of 2^(-8n), and many tries add up: sixteen bytes are
 * recommended.
 *
 * Stack, at most, from the return address down, tested on x86-64 (a dynamic linker that binds memcpy and memset late takes more,
 * once):
 *
 *   ht_open        640 bytes without text; 3 KiB for text up to 2,048 bytes, 10 KiB up to 8,192, 20 KiB up to 16,384, 74 KiB above
 *   ht_open_tag    as ht_open
 *   ht_open_tape   1,280 bytes up to 39 tickets; 4 KiB up to 157, 10 KiB up to 630, 66 KiB above
 *   ht_list_tape   65 KiB
 *   ht_pair_tapes  36 KiB
 *   each other     640 bytes
 *
 * Each answer but that of ht_longer, which is never refused, has a field `refused`: 0 where the call was done, else the number that
 * sent it back. The smallest number that applies is given, but 9 is tried right after 1, before 2, and in pairing 6 is tried last, after
 * 12; and the rest of the answer is 0 (a reading's position stays, and 10 comes with its place). The numbers beside a call stand in the
 * order in which they are tried. A refused call changes nothing: every word of its struct and every byte of its buffers is as it was; but a
 * wrong tag (7) closes a checking session.
 *
 *   1  the call does not fit the phase, or is meant for the other kind of session
 *   2  a key or nonce that is not 16 bytes; a tag of another length than the one fixed; sealed bytes shorter than the tag; a tape that
 *      is not 25 + 13n bytes, or tickets' bytes that are not 13n, with n at most 5,000; a packed ticket that is not 13 bytes, a packed
 *      head that is not 9
 *   3  a head field outside its range
 *   4  a ticket to be written or moved breaks a rule; a form asked for that is neither 1 nor 2
 *   5  more than 65,536 bytes of data, or of text; a 5,001st ticket
 *   6  the output is too short, or one of several is
 *   7  the tag differs
 *   8  a ticket does not unpack
 *   9  the length asked for a tag is not 8 to 16 bytes
 *  10  two receptions part
 *  11  a ticket of form 2 that is tipped after second 43,199 is asked for in form 1
 *  12  a truck's tipped times on a tape to be paired fall
 */
#ifndef HAUL_TAPE_H
#define HAUL_TAPE_H

#include <stddef.h>
#include <stdint.h>

#ifdef __cplusplus
extern "C" {
#endif

#define HT_KEY_BYTES 16
#define HT_NONCE_BYTES 16
#define HT_TAG_BYTES 16        /* where no other length is fixed, and the most */
#define HT_LEAST_TAG_BYTES 8
#define HT_TICKET_BYTES 13
#define HT_HEAD_BYTES 9
#define HT_MOST_BYTES 65536    /* of data, and of text, in one message */
#define HT_MOST_TICKETS 5000   /* on one tape */
#define HT_MOST_TAPE_BYTES 65025
#define HT_MOST_PLAIN_BYTES 65000
#define HT_MOST_LISTING_BYTES 190054 /* room for every listing */

/* ---- answers ---- */

/* of a call that writes: the bytes at the start of its output; nothing behind them changes */
typedef struct { uint32_t refused; uint64_t bytes; } ht_written;

/* of a call on a session or writer: the same, and the steps run since it was fresh */
typedef struct { uint32_t refused; uint64_t bytes; uint64_t steps; } ht_answer;

/* of opening a tape */
typedef struct { uint32_t refused; uint64_t tickets; uint64_t net; } ht_opened;

/* ---- whole messages ---- */

/* Writes the ciphertext of the text and then the tag: textlen + 16 bytes. 2, 5, 6. */
ht_written ht_seal(const uint8_t *key, size_t keylen, const uint8_t *nonce, size_t noncelen, const uint8_t *data, size_t datalen,
    const uint8_t *text, size_t textlen, uint8_t *out, size_t outlen);

/* Takes what ht_seal wrote, and writes the text once the tag is known to match: sealedlen - 16 bytes. 2, 5, 6, 7. */
ht_written ht_open(const uint8_t *key, size_t keylen, const uint8_t *nonce, size_t noncelen, const uint8_t *data, size_t datalen,
    const uint8_t *sealed, size_t sealedlen, uint8_t *out, size_t outlen);

/* The same with a tag of taglen bytes, 8 to 16, which are the last of the sixteen: sealing writes textlen + taglen bytes, opening
 * sealedlen - taglen. Whoever opens must know the length, as the sealed bytes do not tell it. 9, 2, 5, 6; opening 7, too. */
ht_written ht_seal_tag(const uint8_t *key, size_t keylen, const uint8_t *nonce, size_t noncelen, const uint8_t *data, size_t datalen,
    const uint8_t *text, size_t textlen, size_t taglen, uint8_t *out, size_t outlen);
ht_written ht_open_tag(const uint8_t *key, size_t keylen, const uint8_t *nonce, size_t noncelen, const uint8_t *data, size_t datalen,
    const uint8_t *sealed, size_t sealedlen, size_t taglen, uint8_t *out, size_t outlen);

/* ---- sessions: a message in pieces ---- */

/* A session. Its words are its own: set it by one of the two calls below. Two copies that both go on would use one keystream
 * twice: go on from one copy only. The words are not for storing, nor for another version of the library. Any eleven words are some
 * session: none make a call unsafe. */
typedef struct { uint64_t words[11]; } ht_session;

void ht_session_fresh_sealing(ht_session *s);
void ht_session_fresh_checking(ht_session *s);

/* begin, then data any number of times, then text any number of times, then close; data or text may be left out. An empty text
 * ends the data, too. After a close, and after 7, every call is 1, until the session is set fresh again. */
ht_answer ht_session_begin(ht_session *s, const uint8_t *key, size_t keylen, const uint8_t *nonce, size_t noncelen); /* 1, 2 */
ht_answer ht_session_data(ht_session *s, const uint8_t *piece, size_t piecelen);                                     /* 1, 5 */

/* A begin, too, which fixes the tag's length: taglen bytes, 8 to 16, which are the last of the sixteen. ht_session_begin fixes sixteen; a
 * refused begin fixes nothing. 1, 9, 2. */
ht_answer ht_session_begin_tag(ht_session *s, const uint8_t *key, size_t keylen, const uint8_t *nonce, size_t noncelen, size_t taglen);

/* sealing: writes the ciphertext of the piece; the close writes the tag, of the length fixed */
ht_answer ht_session_seal_text(ht_session *s, const uint8_t *piece, size_t piecelen, uint8_t *out, size_t outlen); /* 1, 5, 6 */
ht_answer ht_session_seal_close(ht_session *s, uint8_t *out, size_t outlen);                                       /* 1, 6 */

/* checking: takes ciphertext and writes nothing; the close is given the tag, of the length fixed. 7 closes the session, too. There is no
 * opening in pieces: text is given by ht_open and ht_open_tag alone. */
ht_answer ht_session_check_text(ht_session *s, const uint8_t *piece, size_t piecelen); /* 1, 5 */
ht_answer ht_session_check_close(ht_session *s, const uint8_t *tag, size_t taglen);    /* 1, 2, 7 */

/* ---- tickets and heads ---- */

/* form 1, or 2 for shifts of a whole day; truck 1 to 1,023; shovel and tip 1 to 63; grade 0 to 9; loaded and tipped in seconds of the
 * shift, 0 to 43,199 in form 1 and 0 to 86,399 in form 2, loaded at most tipped; gross and tare 0 to 1,048,575 kg, tare at most gross;
 * net is gross minus tare, 0 for an empty trip. Either form packs to 13 bytes, and a tape may have tickets of both. */
typedef struct {
    uint8_t form;
    uint16_t truck;
    uint8_t shovel;
    uint8_t tip;
    uint8_t grade;
    uint32_t loaded;
    uint32_t tipped;
    uint32_t gross;
    uint32_t tare;
} ht_ticket;

/* device 1 to 4,294,967,295; shift and sheet 1 to 1,000,000 */
typedef struct { uint32_t device; uint32_t shift; uint32_t sheet; } ht_head;

/* zeros in place of the ticket or head where refused */
typedef struct { uint32_t refused; ht_ticket ticket; } ht_unpacked_ticket;
typedef struct { uint32_t refused; ht_head head; } ht_unpacked_head;

ht_written ht_pack_ticket(ht_ticket ticket, uint8_t *out, size_t outlen);                 /* 4, 6 */
ht_unpacked_ticket ht_unpack_ticket(const uint8_t *packed, size_t packedlen);             /* 2, 8 */
ht_written ht_pack_head(ht_head head, uint8_t *out, size_t outlen);                       /* 3, 6 */
ht_unpacked_head ht_unpack_head(const uint8_t *packed, size_t packedlen);                 /* 2, 3 */

/* The ticket in the form asked for, 1 or 2, with every other field kept; as it is where it has that form already. From one form to the
 * other and back it is the same ticket. C cuts a greater number to eight bits before the call: 257 asks for form 1. 4, 11. */
ht_unpacked_ticket ht_move_ticket(ht_ticket ticket, uint8_t form);

/* ---- tapes ---- */

/* A tape's writer: start, add for each ticket, finish. Each writes its part of the tape at the start of its output: 9 bytes, 13
 * bytes, 16 bytes. What is said of a session's words holds of a writer's. A tape that is given up after start has used up its head. */
typedef struct { uint64_t words[12]; } ht_writer;

void ht_writer_fresh(ht_writer *w);
ht_answer ht_writer_start(ht_writer *w, const uint8_t *key, size_t keylen, ht_head head, uint8_t *out, size_t outlen); /* 1, 2, 3, 6 */
ht_answer ht_writer_add(ht_writer *w, ht_ticket ticket, uint8_t *out, size_t outlen);                                  /* 1, 4, 5, 6 */
ht_answer ht_writer_finish(ht_writer *w, uint8_t *out, size_t outlen);                                                 /* 1, 6 */

/* Opens a tape: writes 13 plain bytes for each ticket, once the tag is known to match and every ticket has unpacked; answers the
 * number of tickets and their total net. 2, 3, 6, 7, 8. */
ht_opened ht_open_tape(const uint8_t *key, size_t keylen, const uint8_t *tape, size_t tapelen, uint8_t *out, size_t outlen);

/* The ticket at a position of opened bytes, counted from 0. At the end at_end is 1, and there is no ticket. The position
 * after the call is where the next call goes on; where refused or at the end it stays. 2, 8. */
typedef struct { uint32_t refused; uint32_t at_end; uint64_t position; ht_ticket ticket; } ht_reading;

ht_reading ht_read_ticket(const uint8_t *plain, size_t plainlen, uint64_t position);

/* The listing of a tape as ASCII text: 'TAPE', device, shift and sheet; a line for each ticket with position from 1, truck, shovel,
 * tip point, grade, loaded, tipped and net; 'TOTAL', tickets and total net. Of a tape that does not open the text is 'REFUSED' and
 * the number, and the call is done. 6 where the text does not fit. */
ht_written ht_list_tape(const uint8_t *key, size_t keylen, const uint8_t *tape, size_t tapelen, uint8_t *out, size_t outlen);

/* ---- trucks out on the shift ---- */

/* How many different trucks are on an opened tape; and how many are on both of two opened tapes, on either (on one of them at least),
 * and on just one. Where the call on two is done, so is the call on each; then either plus both is the first tape's number plus the
 * second's, and just one plus both is either. */
typedef struct { uint32_t refused; uint32_t trucks; } ht_truck_count;
typedef struct { uint32_t refused; uint32_t both; uint32_t either; uint32_t just_one; } ht_truck_counts;

/* An opened tape is what ht_open_tape wrote: 13 bytes for each ticket that it answered, not the whole of the output. Of two tapes 2 is
 * tried on both before 8. Branches and addresses in these calls depend on the tickets. */
ht_truck_count ht_trucks(const uint8_t *plain, size_t plainlen);                                                  /* 2, 8 */
ht_truck_counts ht_trucks_of_two(const uint8_t *first, size_t firstlen, const uint8_t *second, size_t secondlen); /* 2, 8 */

/* A set of trucks: truck k, 1 to 1,023, is in it where words[k / 64] >> (k % 64) & 1 is 1; all other bits are 0. The trucks on at least one
 * of several tapes are their words combined by |, those on all of them by &; their number is the number of set bits. */
typedef struct { uint64_t words[16]; } ht_truck_set;

/* Answers as ht_trucks, and writes the set of the trucks on the tape. */
ht_truck_count ht_truck_set_of(const uint8_t *plain, size_t plainlen, ht_truck_set *set); /* 2, 8 */

/* ---- two masts hear one tape ---- */

/* A reception is what a mast heard of a tape: any bytes, of any length. Two of them part unless one is the beginning of the other, as it
 * is where they are equal or one is empty. They are only read, and may overlap. They are sealed bytes and not secret: branches in these
 * calls depend on them. */

/* Where they part, `refused` is 10 and `place` is that of the first byte that differs, counted from 0; else there is no place, and the
 * field is 0. */
typedef struct { uint32_t refused; uint64_t place; } ht_parted;

ht_parted ht_parting(const uint8_t *first, size_t firstlen, const uint8_t *second, size_t secondlen); /* 10 */

/* The longer of two that do not part, whole: its mast, 1 or 2, and how many bytes it has; the first mast's where both have as many. Where
 * they part, mast 1 and 0 bytes, as of two empty ones. Tags are not looked at: the part is for ht_open_tape. */
typedef struct { uint32_t mast; uint64_t bytes; } ht_reception;

ht_reception ht_longer(const uint8_t *first, size_t firstlen, const uint8_t *second, size_t secondlen);

/* ---- cab against crusher ---- */

/* Pairs the tickets of two opened tapes: same truck, tipped at most 120 seconds apart, each ticket in at most one pair. The tickets of the
 * first tape come in tape order, and each is paired with the earliest ticket of the second that fits it and has no partner yet; no other
 * pairing that keeps these rules has more pairs. A truck's tipped times must not fall from one of its tickets to the next on the same
 * tape; equal times are allowed. Branches and addresses in this call depend on the tickets. */

/* how many pairs, and how many tickets are left over on either tape: pairs plus left over are the tickets of that tape */
typedef struct { uint32_t refused; uint64_t pairs; uint64_t left_first; uint64_t left_second; } ht_paired;

/* Writes positions, counted from 1 as in the listing: two numbers a pair, the first tape's position and the second's, in the first tape's
 * order; and those of the tickets left over, each tape's in its own order. Nothing behind them changes. For tapes of n and m tickets,
 * outputs of 2 * min(n, m), n and m numbers always suffice. 2, 8 and 12 are each tried on both tapes before the next; then 6, where an
 * output is shorter than what was found. */
ht_paired ht_pair_tapes(const uint8_t *first, size_t firstlen, const uint8_t *second, size_t secondlen, uint32_t *pairs, size_t pairslen,
    uint32_t *left_first, size_t left_firstlen, uint32_t *left_second, size_t left_secondlen); /* 2, 8, 12, 6 */

#ifdef __cplusplus
}
#endif
#endif
