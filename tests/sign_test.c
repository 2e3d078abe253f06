/*
 * Signing and verifying: the published signed messages; random messages against OpenSSL's CMAC; every single bit, and every length, of
 * signed messages; every set of faults at once; the compound, whose messages are signed one by one with their padding; and lengths that
 * only 64 bits can hold.
 *
 * Usage: sign_test [SEED [CASES]]
 */
#define _DEFAULT_SOURCE
#include <stdlib.h>
#include <string.h>
#include <sys/mman.h>

#include "../include/smb3seal.h"
#include "check.h"
#include "messages.h"
#include "smb3_vectors.h"

enum { CASES = 50000, FLAGS = 16, SIGNATURE = 48 };

/* A call with nothing wrong: n bytes that begin with a header, as far as they reach. */
static struct call clear_call(enum function function, size_t n)
{
    struct call c = plain_call(function, 0, n < HEADER ? HEADER : n);
    put_header(c.message.at, 0, 0, SESSION);
    if (n > HEADER) memset(c.message.at + HEADER, 0xAA, n - HEADER);
    c.message.len = n;
    return c;
}

static void published(const struct signature *s)
{
    struct call c = clear_call(VERIFY, s->message.len);
    memcpy(c.key.at, s->key, 16);
    memcpy(c.message.at, s->message.at, s->message.len);
    expect_answer(&c, 0, "verifying a published message");
    c.function = SIGN;
    c.message.at[FLAGS] &= (uint8_t)~8;
    memset(c.message.at + SIGNATURE, 0x55, 16);
    expect_answer(&c, 0, "signing a published message");
    expect(memcmp(c.message.at, s->message.at, s->message.len) == 0, "published signed bytes", s->message.len);
}

/* ---- what is signed verifies, and only that */

/* Nothing but the signed flag and the signature changes. */
static void need_kept(const struct call *c, const uint8_t *before)
{
    const uint8_t *at = c->message.at;
    int flags = at[FLAGS] == (before[FLAGS] | 8) && memcmp(at + FLAGS + 1, before + FLAGS + 1, SIGNATURE - FLAGS - 1) == 0;
    expect(flags && memcmp(at, before, FLAGS) == 0 && memcmp(at + HEADER, before + HEADER, c->message.len - HEADER) == 0,
           "bytes that signing leaves", c->message.len);
}

static void sign_and_verify(struct call *c)
{
    static uint8_t before[ROOM];
    memcpy(before, c->message.at, c->message.len);
    c->function = SIGN;
    expect_answer(c, 0, "signing");
    need_kept(c, before);
    c->function = VERIFY;
    expect_answer(c, 0, "verifying what was signed");
}

static void at_random(unsigned long cases)
{
    for (unsigned long i = 0; i < cases; i++) {
        begin_case(i);
        size_t n = HEADER + (chance(95) ? below(400) : below(6000));
        struct call c = clear_call(SIGN, n);
        fill(c.message.at + 4, n - 4);
        fill(c.key.at, 16);
        sign_and_verify(&c);
        c.key.at[below(16)] ^= (uint8_t)(1 << below(8));
        expect_answer(&c, 25, "another key");
    }
}

static uint32_t number_of_bit(size_t bit)
{
    if (bit < 8 * 4) return 12;
    return bit == 8 * FLAGS + 3 ? 24 : 25;
}

static void every_bit(struct call *c)
{
    for (size_t bit = 0; bit < 8 * c->message.len; bit++) {
        uint8_t mask = (uint8_t)(1 << bit % 8);
        begin_case(bit);
        c->message.at[bit / 8] ^= mask;
        expect_answer(c, number_of_bit(bit), "a changed bit");
        c->message.at[bit / 8] ^= mask;
    }
    expect_answer(c, 0, "the message as it was signed");
}

/* The message as it was signed, cut short or with zeros behind it. */
static void every_length(struct call *c)
{
    size_t n = c->message.len;
    memset(c->message.at + n, 0, HEADER);
    for (size_t other = 0; other <= n + HEADER; other++) {
        c->message.len = other;
        expect_answer(c, other < HEADER ? 11 : other == n ? 0 : 25, "another length");
    }
    c->message.len = n;
}

static void changes(void)
{
    for (size_t n = HEADER; n <= 150; n += n < 82 ? 1 : 17) {
        struct call c = clear_call(SIGN, n);
        fill(c.message.at + 4, n - 4);
        sign_and_verify(&c);
        every_bit(&c);
        every_length(&c);
    }
}

/* ---- numbers and their order */

static const uint32_t faults[] = {40, 3, 11, 12, 24, 25};

static void put_fault(struct call *c, uint32_t number)
{
    switch (number) {
    case 40: c->key.len = 17; break;
    case 3: c->message.len = LIMIT + 1; break;
    case 11: c->message.len = HEADER - 1; break;
    case 12: c->message.at[1] = 's'; break;
    case 24: c->message.at[FLAGS] &= (uint8_t)~8; break;
    case 25: c->message.at[HEADER - 1] ^= 1; break;
    }
}

/* The faults whose bits are in the set, the first last; 24 and 25 are none of a message to sign. */
static void one_set(enum function function, uint32_t set)
{
    struct call c = clear_call(SIGN, 200);
    uint32_t first = 0;
    begin_case(set);
    expect_answer(&c, 0, "signing");
    c.function = function;
    for (size_t i = COUNT(faults); i-- > 0;) {
        if ((set >> i & 1) == 0) continue;
        put_fault(&c, faults[i]);
        if (function == VERIFY || (faults[i] != 24 && faults[i] != 25)) first = faults[i];
    }
    expect_answer(&c, first, "a set of faults");
}

static void numbers(void)
{
    for (uint32_t set = 0; set < 1u << COUNT(faults); set++) {
        one_set(SIGN, set);
        one_set(VERIFY, set);
    }
    for (size_t n = 0; n <= 32; n++)
        for (enum function f = SIGN; f <= VERIFY; f++) {
            struct call c = clear_call(f, HEADER);
            c.key.len = n;
            expect_answer(&c, n != 16 ? 40 : f == SIGN ? 0 : 24, "a key's length");
        }
}

static void lengths(void)
{
    for (size_t n = 0; n <= 200; n++) {
        struct call c = clear_call(SIGN, n);
        begin_case(n);
        if (n < HEADER) expect_answer(&c, 11, "signing this length");
        else sign_and_verify(&c);
    }
    struct call c = clear_call(SIGN, LIMIT);
    sign_and_verify(&c);
    c.message.len = LIMIT + 1;
    expect_answer(&c, 3, "verifying 8,454,145 bytes");
    c.function = SIGN;
    expect_answer(&c, 3, "signing 8,454,145 bytes");
}

/* Lengths of 2^32 and a little: none is taken for the little. No page of the bytes behind the first is used. */
static void wide(void)
{
    const size_t four_gigabytes = (size_t)1 << 32;
    uint8_t *at = mmap(NULL, four_gigabytes + 4096, PROT_READ | PROT_WRITE, MAP_PRIVATE | MAP_ANONYMOUS | MAP_NORESERVE, -1, 0);
    expect(at != MAP_FAILED, "4 GiB of address space", 0);
    struct call c = clear_call(SIGN, HEADER);
    memcpy(at, c.message.at, HEADER);
    expect(smb3seal_sign(c.key.at, 16, at, four_gigabytes + HEADER) == 3, "signing over 4 GiB", 0);
    expect(smb3seal_verify(c.key.at, 16, at, four_gigabytes + HEADER) == 3, "verifying over 4 GiB", 0);
    expect(memcmp(at, c.message.at, HEADER) == 0, "nothing changed", 0);
    expect(smb3seal_sign(at, four_gigabytes + 16, c.message.at, HEADER) == 40, "a key over 4 GiB", 0);
    expect(smb3seal_verify(at, four_gigabytes + 16, c.message.at, HEADER) == 40, "a key over 4 GiB", 0);
    munmap(at, four_gigabytes + 4096);
}

/* ---- a compound: three messages, of which two have padding behind their data */

static void compound(void)
{
    static const size_t places[] = {0, 72, 72 + 80, 72 + 80 + 69};
    uint8_t whole[72 + 80 + 69], key[16] = {1};
    for (size_t i = 0; i < 3; i++) {
        size_t n = places[i + 1] - places[i];
        fill(whole + places[i], n);
        put_header(whole + places[i], i > 0 ? 4 : 0, i < 2 ? (uint32_t)n : 0, SESSION);
        expect(smb3seal_sign(key, 16, whole + places[i], n) == 0, "signing a message of a compound", i);
    }
    for (size_t i = 0; i < 3; i++) {
        size_t n = places[i + 1] - places[i];
        expect(smb3seal_verify(key, 16, whole + places[i], n) == 0, "verifying it with its padding", i);
        expect(smb3seal_verify(key, 16, whole + places[i], n - 1) == 25, "verifying it without the last byte of that", i);
    }
    expect(smb3seal_verify(key, 16, whole, sizeof whole) == 25, "a compound is not verified as one message", 0);
}

int main(int argc, char **argv)
{
    begin(argc, argv);
    for (size_t i = 0; i < COUNT(signatures); i++) published(&signatures[i]);
    numbers();
    lengths();
    wide();
    compound();
    changes();
    at_random(argc > 2 ? strtoul(argv[2], NULL, 0) : CASES);
    return finish();
}
