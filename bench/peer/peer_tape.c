/* See peer_tape.h. */
#include <string.h>
#include "peer_tape.h"

static inline void be64(uint8_t *p, uint64_t x)
{
    x = __builtin_bswap64(x);
    memcpy(p, &x, 8);
}

static inline uint64_t rd64(const uint8_t *p)
{
    uint64_t x;
    memcpy(&x, p, 8);
    return __builtin_bswap64(x);
}

/* ---- tickets and heads ---- */

static inline int valid(const ht_ticket *t)
{
    return t->form == 1 && t->truck >= 1 && t->truck <= 1023 && t->shovel >= 1 && t->shovel <= 63 && t->tip >= 1 && t->tip <= 63
        && t->grade <= 9 && t->tipped <= 43199 && t->loaded <= t->tipped && t->gross <= 1048575 && t->tare <= t->gross;
}

static inline int head_valid(ht_head h)
{
    return h.device >= 1 && h.shift >= 1 && h.shift <= 1000000 && h.sheet >= 1 && h.sheet <= 1000000;
}

/* 13 bytes, as two words that overlap by three bytes */
static inline void pack(uint8_t *p, const ht_ticket *t)
{
    uint64_t h = (uint64_t)t->form << 60 | (uint64_t)t->truck << 50 | (uint64_t)t->shovel << 44 | (uint64_t)t->tip << 38
        | (uint64_t)t->grade << 34 | (uint64_t)t->loaded << 18 | (uint64_t)t->tipped << 2 | t->gross >> 18;
    uint64_t l = (uint64_t)(t->gross & 0x3ffff) << 22 | (uint64_t)t->tare << 2;
    be64(p + 5, l | h << 40);
    be64(p, h);
}

static inline int unpack(const uint8_t *p, ht_ticket *t)
{
    uint64_t h = rd64(p), l = rd64(p + 5);
    t->form = (uint8_t)(h >> 60), t->truck = h >> 50 & 1023, t->shovel = h >> 44 & 63, t->tip = h >> 38 & 63, t->grade = h >> 34 & 15;
    t->loaded = h >> 18 & 0xffff, t->tipped = h >> 2 & 0xffff, t->gross = l >> 22 & 0xfffff, t->tare = l >> 2 & 0xfffff;
    return !(l & 3) && valid(t);
}

/* ---- writing ---- */

static ht_answer no(uint32_t number)
{
    return (ht_answer){ number, 0, 0 };
}

void peer_fresh(peer_writer *w)
{
    memset(w, 0, sizeof *w);
}

ht_answer peer_start(peer_writer *w, const uint8_t *key, size_t keylen, ht_head h, uint8_t *out, size_t outlen)
{
    uint8_t nonce[16] = { 0 };
    if (w->phase != 0) return no(1);
    if (keylen != 16) return no(2);
    if (!head_valid(h)) return no(3);
    if (outlen < 9) return no(6);
    uint64_t l = (uint64_t)h.shift << 20 | h.sheet;
    nonce[8] = (uint8_t)l;
    be64(nonce, (uint64_t)h.device << 32 | l >> 8);
    opt_init(&w->s, key, nonce);
    opt_data(&w->s, nonce, 9);
    memcpy(out, nonce, 9);
    w->data = 9, w->steps = 1864, w->phase = 1;
    return (ht_answer){ 0, 9, 1864 };
}

ht_answer peer_add(peer_writer *w, ht_ticket t, uint8_t *out, size_t outlen)
{
    uint8_t p[13];
    if (w->phase != 1) return no(1);
    if (!valid(&t)) return no(4);
    if (w->tickets >= 5000) return no(5);
    if (outlen < 13) return no(6);
    if (!w->tickets) opt_data_end(&w->s), w->steps += 256;
    pack(p, &t);
    opt_enc(&w->s, p, out, 13);
    w->text += 13, w->steps += 104, w->tickets++;
    return (ht_answer){ 0, 13, w->steps };
}

ht_answer peer_finish(peer_writer *w, uint8_t *out, size_t outlen)
{
    if (w->phase != 1) return no(1);
    if (outlen < 16) return no(6);
    if (!w->tickets) opt_data_end(&w->s), w->steps += 256;
    opt_text_end(&w->s);
    opt_final(&w->s, out);
    w->steps += 1024, w->phase = 2;
    memset(&w->s, 0, sizeof w->s);
    return (ht_answer){ 0, 16, w->steps };
}

/* ---- opening ---- */

static uint32_t before(size_t keylen, const uint8_t *tape, size_t n, size_t outlen, uint8_t *nonce)
{
    if (keylen != 16 || n < 25 || (n - 25) % 13 || n > 65025) return 2;
    uint64_t h = rd64(tape), l = rd64(tape + 1);
    if (!head_valid((ht_head){ (uint32_t)(h >> 32), l >> 20 & 0xfffff, l & 0xfffff })) return 3;
    if (outlen < n - 25) return 6;
    memset(nonce, 0, 16);
    memcpy(nonce, tape, 9);
    return 0;
}

static int totals(const uint8_t *p, size_t n, ht_opened *r)
{
    uint64_t sum = 0;
    for (size_t i = 0; i < n; i += 13) {
        ht_ticket t;
        if (!unpack(p + i, &t)) return 0;
        sum += t.gross - t.tare;
    }
    r->tickets = n / 13, r->net = sum;
    return 1;
}

ht_opened peer_open_tape(const uint8_t *key, size_t keylen, const uint8_t *tape, size_t n, uint8_t *out, size_t outlen)
{
    uint8_t nonce[16];
    unsigned long long len;
    ht_opened r = { before(keylen, tape, n, outlen, nonce), 0, 0 };
    if (r.refused) return r;
    if (opt_crypto_aead_decrypt(out, &len, 0, tape + 9, n - 9, tape, 9, nonce, key)) { r.refused = 7; return r; }
    if (!totals(out, len, &r)) { memset(out, 0, len); r.refused = 8; }
    return r;
}

/* ---- trucks ---- */

static int tickets_length(size_t n)
{
    return n % 13 == 0 && n <= 65000;
}

/* a bit for each truck */
static int truck_set(const uint8_t *p, size_t n, uint64_t *set)
{
    for (size_t i = 0; i < n; i += 13) {
        ht_ticket t;
        if (!unpack(p + i, &t)) return 0;
        set[t.truck / 64] |= (uint64_t)1 << t.truck % 64;
    }
    return 1;
}

ht_truck_count peer_trucks(const uint8_t *plain, size_t n)
{
    uint64_t set[16] = { 0 };
    ht_truck_count r = { 0, 0 };
    if (!tickets_length(n)) { r.refused = 2; return r; }
    if (!truck_set(plain, n, set)) { r.refused = 8; return r; }
    for (int i = 0; i < 16; i++)
        r.trucks += (uint32_t)__builtin_popcountll(set[i]);
    return r;
}

ht_truck_counts peer_trucks_of_two(const uint8_t *first, size_t firstlen, const uint8_t *second, size_t secondlen)
{
    uint64_t a[16] = { 0 }, b[16] = { 0 };
    ht_truck_counts r = { 0, 0, 0, 0 };
    if (!tickets_length(firstlen) || !tickets_length(secondlen)) { r.refused = 2; return r; }
    if (!truck_set(first, firstlen, a) || !truck_set(second, secondlen, b)) { r.refused = 8; return r; }
    for (int i = 0; i < 16; i++) {
        r.both += (uint32_t)__builtin_popcountll(a[i] & b[i]);
        r.either += (uint32_t)__builtin_popcountll(a[i] | b[i]);
    }
    r.just_one = r.either - r.both;
    return r;
}

/* ---- receptions ---- */

/* A loop of so few bytes of code may take twice as long where it lies across two cache lines. Here none does, wherever it is linked: it begins
 * at a multiple of 32, and gcc enters it by a jump. */
#pragma GCC optimize ("align-jumps=32", "align-loops=32")

static inline size_t shorter(size_t a, size_t b)
{
    return a < b ? a : b;
}

/* how many bytes at the front are the same, of n */
static inline size_t same(const uint8_t *a, const uint8_t *b, size_t n)
{
    size_t i = 0;
    while (i < n && a[i] == b[i])
        i++;
    return i;
}

/* the same by words; in a word that differs, the lowest set bit is in its first differing byte, where the lowest byte is the first */
static inline size_t same_by_words(const uint8_t *a, const uint8_t *b, size_t n)
{
    size_t i = 0;
    for (; n - i >= 8; i += 8) {
        uint64_t x, y;
        memcpy(&x, a + i, 8);
        memcpy(&y, b + i, 8);
        if (x != y) return i + (size_t)__builtin_ctzll(x ^ y) / 8;
    }
    return i + same(a + i, b + i, n - i);
}

static inline ht_parted parted(size_t place, size_t n)
{
    return place < n ? (ht_parted){ 10, place } : (ht_parted){ 0, 0 };
}

ht_parted peer_parting(const uint8_t *first, size_t firstlen, const uint8_t *second, size_t secondlen)
{
    size_t n = shorter(firstlen, secondlen);
    return parted(same(first, second, n), n);
}

ht_parted peer_parting_by_words(const uint8_t *first, size_t firstlen, const uint8_t *second, size_t secondlen)
{
    size_t n = shorter(firstlen, secondlen);
    return parted(same_by_words(first, second, n), n);
}

ht_reception peer_longer(const uint8_t *first, size_t firstlen, const uint8_t *second, size_t secondlen)
{
    size_t n = shorter(firstlen, secondlen);
    if (same(first, second, n) < n) return (ht_reception){ 1, 0 };
    return firstlen < secondlen ? (ht_reception){ 2, secondlen } : (ht_reception){ 1, firstlen };
}
