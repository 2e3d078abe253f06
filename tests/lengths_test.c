/*
 * Lengths: each from 0 to 200 by itself, of messages and of key material, both sides of every limit, lengths that only 64 bits can hold,
 * and the counter's end.
 */
#define _DEFAULT_SOURCE
#include <string.h>
#include <sys/mman.h>

#include "../include/smb3seal.h"
#include "check.h"
#include "messages.h"

enum { CIPHERS = 4 };

/* ---- one by one, with the key and the text at random */

static void seal_and_open(uint16_t dialect, uint16_t cipher, size_t n)
{
    static uint8_t inner[ROOM];
    uint32_t number = n <= TRANSFORM ? 2 : n < TRANSFORM + HEADER ? 11 : n > TRANSFORM + LIMIT ? 3 : 0;
    struct call c = plain_call(SEAL, cipher, n > TRANSFORM ? n - TRANSFORM : 0);
    set_dialect(&c, dialect);
    c.message.len = n;
    c.counter = number == 0 ? below(1000) : UINT64_MAX;
    fill(c.key.at, c.key.len);
    if (n > TRANSFORM + HEADER) fill(c.message.at + TRANSFORM + HEADER, n < 2000 ? n - TRANSFORM - HEADER : 2000);
    memcpy(inner, c.message.at + TRANSFORM, n > TRANSFORM ? n - TRANSFORM : 0);
    expect_answer(&c, number, "sealing this length");
    c.function = OPEN;
    if (number != 0) put_transform(&c, 9);
    if (number == 11) forge(&c);
    expect_answer(&c, number, "opening this length");
    if (number == 0) expect(memcmp(c.message.at + TRANSFORM, inner, n - TRANSFORM) == 0, "the inner message again", n);
}

static void one_by_one(void)
{
    for (size_t n = 0; n <= TRANSFORM + 200; n++) {
        begin_case(n);
        seal_and_open(0x0311, 1, n);
        seal_and_open(0x0311, 2, n);
        seal_and_open(0x0311, 3, n);
        seal_and_open(0x0311, 4, n);
        seal_and_open(0x0300, 2, n);
        seal_and_open(0x0302, 1, n);
        seal_and_open(0x0302, 4, n);
    }
}

static void limits(void)
{
    for (uint16_t cipher = 1; cipher <= CIPHERS; cipher++) {
        seal_and_open(0x0311, cipher, TRANSFORM + LIMIT);
        seal_and_open(0x0311, cipher, TRANSFORM + LIMIT + 1);
    }
    for (enum function f = FOLD; f <= FOLD_RESPONSE; f++) {
        struct call c = plain_call(f, 0, LIMIT + 1);
        put(c.message.at + 8, 0xC0000016, 4);
        c.message.len = LIMIT;
        expect_answer(&c, 0, "folding 8,454,144 bytes");
        c.message.len = LIMIT + 1;
        expect_answer(&c, 23, "folding 8,454,145 bytes");
    }
}

static void folds(void)
{
    for (size_t n = 0; n <= 300; n++) {
        struct call c = plain_call(FOLD, 0, n);
        begin_case(n);
        fill(c.message.at, n);
        c.message.len = n;
        expect_answer(&c, n < HEADER ? 23 : 0, "folding this length");
    }
}

/* ---- key material: all of it makes cipher keys of 32 bytes, and nothing behind its first 16 bytes makes any other key */

static void derive(uint16_t dialect, uint16_t cipher, size_t n)
{
    int wide = dialect == 0x0311 && (cipher == 3 || cipher == 4);
    uint8_t keys[96];
    struct call c = plain_call(DERIVE, cipher, HEADER);
    c.dialect = dialect;
    c.message.len = wide ? 96 : 64;
    c.key.len = n;
    fill(c.key.at, n);
    expect_answer(&c, n == 0 || (wide && n > MATERIAL_LIMIT) ? 19 : 0, "deriving from this length");
    if (n <= 16 || (wide && n > MATERIAL_LIMIT)) return;
    memcpy(keys, c.message.at, c.message.len);
    c.key.at[chance(50) ? n - 1 : 16 + below(n - 16)] ^= (uint8_t)(1 << below(8));
    expect_answer(&c, 0, "deriving from material that differs behind its 16 bytes");
    expect(memcmp(keys, c.message.at, 32) == 0, "the signing and application keys", n);
    for (size_t at = 32; at < c.message.len; at += wide ? 32 : 16)
        expect((memcmp(keys + at, c.message.at + at, 16) == 0) == !wide, "a cipher key", n);
}

static void materials(void)
{
    static const size_t around[] = {300, 1000, MATERIAL_LIMIT - 1, MATERIAL_LIMIT, MATERIAL_LIMIT + 1};
    for (size_t i = 0; i <= 200 + COUNT(around); i++) {
        size_t n = i <= 200 ? i : around[i - 201];
        begin_case(i);
        for (uint16_t cipher = 0; cipher <= CIPHERS + 1; cipher++) derive(0x0311, cipher, n);
        derive(0x0300, 3, n);
        derive(0x0302, 4, n);
    }
}

/* ---- lengths of 2^32 and a little: none is taken for the little. The bytes are there, but no page of them is used. */

static void wide(void)
{
    const size_t four_gigabytes = (size_t)1 << 32;
    int protection = PROT_READ | PROT_WRITE, flags = MAP_PRIVATE | MAP_ANONYMOUS | MAP_NORESERVE;
    uint8_t *at = mmap(NULL, four_gigabytes + 4096, protection, flags, -1, 0);
    uint8_t keys[96], same[64], chain[64] = {0};
    uint64_t counter = 0, headers = 7;
    uint32_t folded = 7;
    expect(at != MAP_FAILED, "4 GiB of address space", 0);
    struct call c = plain_call(SEAL, 2, HEADER);
    memcpy(at, c.message.at, c.message.len);
    size_t n = four_gigabytes + c.message.len, key = four_gigabytes + 16, sixty_four = four_gigabytes + 64;
    expect(smb3seal_seal(0, 0x0311, 1, 2, c.key.at, 16, SESSION, &counter, at, n, &headers) == 3, "sealing over 4 GiB", n);
    expect(smb3seal_open(0, 0x0311, 1, 2, c.key.at, 16, SESSION, at, n, &headers) == 3, "opening over 4 GiB", n);
    expect(memcmp(at, c.message.at, c.message.len) == 0 && counter == 0 && headers == 7, "nothing changed", n);
    expect(smb3seal_seal(0, 0x0311, 1, 2, at, key, SESSION, &counter, c.message.at, 116, &headers) == 40, "a key over 4 GiB", key);
    expect(smb3seal_open(0, 0x0311, 1, 2, at, key, SESSION, c.message.at, 116, &headers) == 40, "a key over 4 GiB", key);
    expect(smb3seal_fold(chain, 64, at, sixty_four) == 23, "folding over 4 GiB", sixty_four);
    expect(smb3seal_fold_response(chain, 64, at, sixty_four, &folded) == 23 && folded == 7, "folding over 4 GiB", sixty_four);
    expect(smb3seal_fold(at, sixty_four, c.message.at, 64) == 40, "a chain over 4 GiB", sixty_four);
    expect(smb3seal_derive(0x0311, 2, at, 16, at, sixty_four, keys, 64) == 40, "a chain over 4 GiB", sixty_four);
    expect(smb3seal_derive(0x0311, 2, c.key.at, 16, chain, 64, at, sixty_four) == 40, "a place over 4 GiB", sixty_four);
    expect(smb3seal_derive(0x0311, 4, at, four_gigabytes + 16, chain, 64, keys, 96) == 19, "material over 4 GiB", four_gigabytes);
    expect(smb3seal_derive(0x0311, 2, at, four_gigabytes, chain, 64, keys, 64) == 0, "material of 4 GiB", four_gigabytes);
    expect(smb3seal_derive(0x0311, 2, at, 16, chain, 64, same, 64) == 0 && memcmp(keys, same, 64) == 0, "its first 16 bytes", 16);
    munmap(at, four_gigabytes + 4096);
}

/* ---- the counter */

static void counter_end(void)
{
    for (uint16_t cipher = 1; cipher <= CIPHERS; cipher++) {
        struct call c = plain_call(SEAL, cipher, HEADER);
        c.counter = UINT64_MAX - 1;
        expect_answer(&c, 0, "counter 2^64 - 2 seals");
        expect(c.counter == UINT64_MAX, "and is then 2^64 - 1", c.counter);
        expect(memcmp(c.message.at + 20, "\xFE\xFF\xFF\xFF\xFF\xFF\xFF\xFF\0\0\0\0\0\0\0", 16) == 0, "the nonce", 0);
        put_header(c.message.at + TRANSFORM, 0, 0, SESSION);
        expect_answer(&c, 17, "counter 2^64 - 1 does not");
        c.counter = 1;
        expect_answer(&c, 0, "counter 1 seals");
        expect(memcmp(c.message.at + 20, "\1\0\0\0\0\0\0\0\0\0\0\0\0\0\0", 16) == 0, "the nonce", 1);
    }
}

int main(int argc, char **argv)
{
    begin(argc, argv);
    one_by_one();
    limits();
    folds();
    materials();
    wide();
    counter_end();
    return finish();
}
