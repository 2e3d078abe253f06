/*
 * A message folded as it arrives, beside OpenSSL's SHA-512 of the joined bytes: every cut of 200 bytes into two and three pieces; the
 * published messages at random cuts; the status cut at each place; the limit; refused pieces and refused finishes; any bytes as a state;
 * lists of calls on several states of one chain; and lengths that only 64 bits can hold.
 *
 * Usage: fold_pieces_test [SEED [CASES]]
 */
#define _DEFAULT_SOURCE
#include <openssl/evp.h>
#include <stdlib.h>
#include <string.h>
#include <sys/mman.h>

#include "../include/smb3seal.h"
#include "check.h"
#include "guard.h"
#include "messages.h"
#include "smb3_vectors.h"

enum { CASES = 20000, STATUS = 8, MORE_PROCESSING = 0x16, STATES = 3 };

_Static_assert(sizeof(struct smb3seal_fold_state) == 224 && offsetof(struct smb3seal_fold_state, buffer) == 64 &&
                   offsetof(struct smb3seal_fold_state, count) == 192 && offsetof(struct smb3seal_fold_state, joined) == 200 &&
                   offsetof(struct smb3seal_fold_state, head) == 208 && offsetof(struct smb3seal_fold_state, underway) == 220 &&
                   offsetof(struct smb3seal_fold_state, spare) == 221,
               "struct smb3seal_fold_state");
_Static_assert(sizeof(struct smb3seal_fold_step) == 232 && offsetof(struct smb3seal_fold_step, number) == 224 &&
                   offsetof(struct smb3seal_fold_step, folded) == 228,
               "struct smb3seal_fold_step");

/* ---- what a state should stand for */

struct message {
    int underway;
    uint8_t start[64];
    uint8_t *joined;
    size_t len;
};

static uint8_t joined[STATES][LIMIT + 1];

static void hash(const uint8_t *value, const uint8_t *at, size_t n, uint8_t *digest)
{
    EVP_MD_CTX *c = EVP_MD_CTX_new();
    int ok = c != NULL && EVP_DigestInit_ex(c, EVP_sha512(), NULL) == 1 && EVP_DigestUpdate(c, value, 64) == 1 &&
             EVP_DigestUpdate(c, at, n) == 1 && EVP_DigestFinal_ex(c, digest, NULL) == 1;
    EVP_MD_CTX_free(c);
    if (!ok) fail("OpenSSL", n);
}

static int asks_for_more(const struct message *m)
{
    return m->joined[STATUS] == MORE_PROCESSING && m->joined[9] == 0 && m->joined[10] == 0 && m->joined[11] == 0xC0;
}

/* ---- the calls, each beside what it should do; each buffer is lent by this one */

static const struct lender *lender = &heap;

static struct smb3seal_fold_step begin_on(struct message *m, const uint8_t *chain, size_t chain_len)
{
    uint8_t *lent = lender->lend(CHAIN, chain, chain_len, 0);
    struct smb3seal_fold_step step = smb3seal_fold_begin(lent, chain_len);
    lender->take_back(CHAIN, lent);
    m->underway = chain_len == 64;
    m->len = 0;
    if (m->underway) memcpy(m->start, chain, 64);
    expect(step.number == (m->underway ? 0 : 40) && step.folded == 0, "beginning", chain_len);
    return step;
}

static uint32_t take(struct message *m, struct smb3seal_fold_state *state, const uint8_t *piece, size_t n)
{
    int fits = m->underway && n <= LIMIT - m->len;
    uint8_t *lent = lender->lend(MESSAGE, piece, n, 0);
    struct smb3seal_fold_step step = smb3seal_fold_piece(*state, lent, n);
    lender->take_back(MESSAGE, lent);
    expect(step.number == (fits ? 0 : 23) && step.folded == 0, "a piece", n);
    expect(fits || memcmp(&step.state, state, sizeof *state) == 0, "a refused piece leaves the state", n);
    if (fits && n > 0) memcpy(m->joined + m->len, piece, n);
    if (fits) m->len += n;
    *state = step.state;
    return step.number;
}

/* Ends the message, and returns the number. The chain is then what it should be. */
static uint32_t finish_into(struct message *m, struct smb3seal_fold_state *state, int response, uint8_t *chain, size_t chain_len)
{
    uint32_t number = chain_len != 64 ? 40 : !m->underway || m->len < HEADER ? 23 : 0;
    int folded = number == 0 && (!response || asks_for_more(m));
    uint8_t *lent = lender->lend(CHAIN, chain, chain_len, 1);
    struct smb3seal_fold_step step =
        response ? smb3seal_fold_response_finish(*state, lent, chain_len) : smb3seal_fold_finish(*state, lent, chain_len);
    expect(step.number == number, "the number of a finish", step.number);
    expect(step.folded == (uint32_t)folded, "whether it was folded", step.folded);
    if (folded) hash(m->start, m->joined, m->len, chain);
    expect(memcmp(lent, chain, chain_len) == 0, "the chain after a finish", m->len);
    lender->take_back(CHAIN, lent);
    m->underway = 0;
    m->len = 0;
    *state = step.state;
    return number;
}

static struct message message_in(size_t place)
{
    return (struct message){0, {0}, joined[place], 0};
}

/* ---- cuts */

/* The message from the chain value on, cut at these places; the chain must then be that of one fold. */
static void cut(const uint8_t *at, size_t n, size_t one, size_t two, int response)
{
    uint8_t chain[64], whole[64];
    uint32_t folded;
    fill(chain, 64);
    memcpy(whole, chain, 64);
    struct message m = message_in(0);
    struct smb3seal_fold_state s = begin_on(&m, chain, 64).state;
    take(&m, &s, at, one);
    take(&m, &s, at + one, two - one);
    take(&m, &s, at + two, n - two);
    expect(finish_into(&m, &s, response, chain, 64) == 0, "a message in pieces", n);
    uint32_t number = response ? smb3seal_fold_response(whole, 64, at, n, &folded) : smb3seal_fold(whole, 64, at, n);
    expect(number == 0 && memcmp(chain, whole, 64) == 0, "one fold of the joined bytes", one);
}

static void every_cut(void)
{
    uint8_t message[200];
    fill(message, sizeof message);
    put(message + STATUS, 0xC0000016, 4);
    for (size_t one = 0; one <= sizeof message; one++)
        for (size_t two = one; two <= sizeof message; two++) cut(message, sizeof message, one, two, (one + two) % 2 == 1);
}

/* Each of its four bytes right or wrong, and the message cut at each place before, in and behind it. */
static void status_cut(void)
{
    uint8_t message[HEADER];
    for (unsigned wrong = 0; wrong < 16; wrong++) {
        memset(message, 0x5A, sizeof message);
        put(message + STATUS, 0xC0000016, 4);
        for (size_t i = 0; i < 4; i++) message[STATUS + i] ^= (uint8_t)(wrong >> i & 1);
        for (size_t one = 0; one <= 14; one++)
            for (size_t two = one; two <= 14; two++) cut(message, sizeof message, one, two, 1);
    }
}

static void published(const struct fold *f)
{
    uint8_t chain[64];
    memcpy(chain, f->before, 64);
    struct message m = message_in(0);
    struct smb3seal_fold_state s = begin_on(&m, chain, 64).state;
    for (size_t done = 0; done < f->message.len;) {
        size_t n = below(chance(50) ? 16 : f->message.len) % (f->message.len - done + 1);
        expect(take(&m, &s, f->message.at + done, n) == 0, "a piece of a published message", n);
        done += n;
    }
    expect(finish_into(&m, &s, f->response, chain, 64) == 0, "a published message", f->message.len);
    expect(memcmp(chain, f->after, 64) == 0, "a published chain value", 0);
}

/* ---- refusals */

/* No message is under way: no piece is taken, and a finish changes nothing. */
static void need_ended(struct message *m, struct smb3seal_fold_state *s)
{
    static const uint8_t piece[HEADER] = {0xFE, 'S', 'M', 'B'};
    uint8_t chain[64] = {1};
    expect(take(m, s, piece, 0) == 23 && take(m, s, piece, sizeof piece) == 23, "a piece of no message", 0);
    struct smb3seal_fold_state copy = *s;
    expect(finish_into(m, s, 0, chain, 64) == 23 && finish_into(m, &copy, 1, chain, 64) == 23, "a finish of no message", 0);
}

static void refused_finishes(void)
{
    uint8_t piece[HEADER + 1] = {0xFE, 'S', 'M', 'B'}, chain[128] = {7};
    struct message m = message_in(0);
    struct smb3seal_fold_state none = {0};
    need_ended(&m, &none);
    for (size_t size = 0; size <= 128; size++) {
        struct smb3seal_fold_state s = begin_on(&m, chain, size).state;
        if (size != 64) need_ended(&m, &s);
    }
    for (size_t n = 0; n <= sizeof piece; n++)
        for (size_t size = 63; size <= 65; size++)
            for (int response = 0; response <= 1; response++) {
                struct smb3seal_fold_state s = begin_on(&m, chain, 64).state;
                take(&m, &s, piece, n);
                finish_into(&m, &s, response, chain, size);
                need_ended(&m, &s);
            }
}

/* The limit, one byte over it, and then what still fits. */
static void limits(void)
{
    static uint8_t bytes[LIMIT + 1];
    uint8_t chain[64] = {3};
    fill(bytes, sizeof bytes);
    for (size_t before = 0; before <= 200; before += 50) {
        struct message m = message_in(0);
        struct smb3seal_fold_state s = begin_on(&m, chain, 64).state;
        expect(take(&m, &s, bytes, before) == 0, "the first piece", before);
        expect(take(&m, &s, bytes, LIMIT + 1 - before) == 23, "one byte over the limit", before);
        expect(take(&m, &s, bytes, LIMIT - before - 10) == 0 && take(&m, &s, bytes, 11) == 23 && take(&m, &s, bytes, 10) == 0,
               "pieces that fit after one that did not", before);
        expect(take(&m, &s, bytes, 0) == 0 && take(&m, &s, bytes, 1) == 23, "nothing but an empty piece at the limit", before);
        expect(finish_into(&m, &s, 0, chain, 64) == 0, "a message at the limit", before);
    }
}

/* Lengths of 2^32 and a little, and of nearly 2^64: none is taken for the little. No byte of them is read. */
static void wide(void)
{
    const size_t four_gigabytes = (size_t)1 << 32;
    uint8_t chain[64] = {5}, *at = mmap(NULL, four_gigabytes + 4096, PROT_READ, MAP_PRIVATE | MAP_ANONYMOUS | MAP_NORESERVE, -1, 0);
    expect(at != MAP_FAILED, "4 GiB of address space", 0);
    struct smb3seal_fold_state s = smb3seal_fold_piece(smb3seal_fold_begin(chain, 64).state, at, 100).state;
    expect(smb3seal_fold_piece(s, at, four_gigabytes + 100).number == 23, "a piece over 4 GiB", 0);
    expect(smb3seal_fold_piece(s, at, SIZE_MAX - 50).number == 23, "a piece whose length would wrap", 0);
    expect(smb3seal_fold_begin(at, four_gigabytes + 64).number == 40, "a chain over 4 GiB", 0);
    munmap(at, four_gigabytes + 4096);
}

/* Any bytes are a state: the number follows from `underway`, `joined` and the chain's length; a refusal changes nothing. */
static void any_bytes(unsigned long cases)
{
    uint8_t piece[300], before[70];
    fill(piece, sizeof piece);
    for (unsigned long i = 0; i < cases; i++) {
        struct smb3seal_fold_state s;
        size_t n = below(sizeof piece), size = chance(80) ? 64 : below(70);
        begin_case(i);
        fill((uint8_t *)&s, sizeof s);
        if (chance(30)) s.underway = 0;
        if (chance(60)) s.joined = chance(50) ? below(200) : LIMIT + 150 - below(300);
        uint8_t chain[70];
        fill(before, sizeof before);
        memcpy(chain, before, sizeof chain);
        struct smb3seal_fold_step step = smb3seal_fold_piece(s, piece, n);
        int fits = s.underway != 0 && s.joined <= LIMIT && s.joined + n <= LIMIT;
        expect(step.number == (fits ? 0 : 23) && (fits || memcmp(&step.state, &s, sizeof s) == 0), "a piece with any state", n);
        step = chance(50) ? smb3seal_fold_finish(s, chain, size) : smb3seal_fold_response_finish(s, chain, size);
        uint32_t number = size != 64 ? 40 : s.underway == 0 || s.joined < HEADER || s.joined > LIMIT ? 23 : 0;
        expect(step.number == number && step.folded <= (number == 0), "a finish with any state", step.number);
        expect(step.folded == 1 || memcmp(chain, before, sizeof chain) == 0, "a chain that nothing was folded into", number);
        expect(memcmp(chain + size, before + size, sizeof chain - size) == 0 && step.state.underway == 0, "what a finish leaves", size);
    }
}

/* ---- lists of calls on several states, any of which may go into the one chain */

static void lists(unsigned long cases)
{
    static uint8_t bytes[600];
    struct message m[STATES];
    struct smb3seal_fold_state s[STATES];
    uint8_t chain[64] = {0};
    memset(s, 0, sizeof s);
    for (size_t k = 0; k < STATES; k++) m[k] = message_in(k);
    for (unsigned long i = 0; i < cases; i++) {
        size_t k = below(STATES), n = below(chance(50) ? 20 : sizeof bytes);
        begin_case(i);
        fill(bytes, n);
        if (chance(30)) put(bytes, 0xC0000016, 4);
        if (chance(12)) s[k] = begin_on(&m[k], chain, chance(95) ? 64 : below(64)).state;
        else if (chance(85)) take(&m[k], &s[k], bytes, n);
        else finish_into(&m[k], &s[k], chance(50), chain, chance(95) ? 64 : below(64));
    }
}

/* No step outside of what is lent, and no write to what is lent to be read. */
static void hard_against_a_page(void)
{
    guard_begin();
    lender = &guarded;
    for (int end = 0; end <= 1; end++) {
        guard_at_the_end(end);
        for (size_t i = 0; i < COUNT(folds); i++) published(&folds[i]);
        refused_finishes();
    }
}

int main(int argc, char **argv)
{
    begin(argc, argv);
    unsigned long cases = argc > 2 ? strtoul(argv[2], NULL, 10) : CASES;
    every_cut();
    status_cut();
    refused_finishes();
    for (unsigned long i = 0; i < 100 * COUNT(folds); i++) {
        begin_case(i);
        published(&folds[i % COUNT(folds)]);
    }
    limits();
    wide();
    any_bytes(cases);
    lists(5 * cases);
    hard_against_a_page();
    return finish();
}
