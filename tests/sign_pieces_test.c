/*
 * Signing and verifying a message as it arrives, beside OpenSSL's CMAC of the joined bytes: every cut of 200 bytes into two and three
 * pieces; the published messages at random cuts; flag and signature cut at each place; every set of faults; the limit; refused pieces and
 * refused finishes; any bytes as a state; and lengths that only 64 bits can hold.
 *
 * Usage: sign_pieces_test [SEED [CASES]]
 */
#define _DEFAULT_SOURCE
#include <stdlib.h>
#include <string.h>
#include <sys/mman.h>

#include "../include/smb3seal.h"
#include "check.h"
#include "messages.h"
#include "openssl_aead.h"
#include "smb3_vectors.h"

enum { CASES = 20000, FLAGS = 16, SIGNATURE = 48, SIZE = 200 };

_Static_assert(sizeof(struct smb3seal_sign_state) == 136 && offsetof(struct smb3seal_sign_state, header) == 16 &&
                   offsetof(struct smb3seal_sign_state, chain) == 80 && offsetof(struct smb3seal_sign_state, buffer) == 96 &&
                   offsetof(struct smb3seal_sign_state, filled) == 112 && offsetof(struct smb3seal_sign_state, length) == 120 &&
                   offsetof(struct smb3seal_sign_state, begun) == 128,
               "struct smb3seal_sign_state");
_Static_assert(sizeof(struct smb3seal_sign_step) == 144 && offsetof(struct smb3seal_sign_step, number) == 136 &&
                   offsetof(struct smb3seal_sign_step, spare) == 140,
               "struct smb3seal_sign_step");

static const uint8_t key[16] = {7, 6, 5, 4, 3, 2, 1, 0, 15, 14, 13, 12, 11, 10, 9, 8};
static uint8_t message[LIMIT + 1];

/* ---- what the finish should say of the joined bytes */

static void signature_of(const uint8_t *with, const uint8_t *at, size_t n, uint8_t *code)
{
    static uint8_t copy[LIMIT + 1];
    memcpy(copy, at, n);
    copy[FLAGS] |= 8;
    memset(copy + SIGNATURE, 0, 16);
    openssl_cmac(with, copy, n, code);
}

static uint32_t number_to_sign(const uint8_t *at, size_t n)
{
    if (n < HEADER) return 11;
    return memcmp(at, "\xFESMB", 4) != 0 ? 12 : 0;
}

static uint32_t number_to_verify(const uint8_t *with, const uint8_t *at, size_t n)
{
    uint8_t code[16];
    uint32_t first = number_to_sign(at, n);
    if (first != 0) return first;
    if ((at[FLAGS] & 8) == 0) return 24;
    signature_of(with, at, n, code);
    return memcmp(at + SIGNATURE, code, 16) != 0 ? 25 : 0;
}

/* ---- the calls, each with what it must leave */

static int is_spent(const struct smb3seal_sign_state *s)
{
    static const struct smb3seal_sign_state zero;
    return memcmp(s, &zero, sizeof zero) == 0;
}

/* A state with no message takes no piece, and its finish is 11. */
static void need_spent(struct smb3seal_sign_state s)
{
    uint8_t place[16] = {0};
    expect(is_spent(&s), "a state of zero bytes", 0);
    expect(smb3seal_sign_piece(s, message, 10).number == 3 && smb3seal_sign_piece(s, message, 0).number == 3, "a piece of no message", 0);
    expect(smb3seal_verify_finish(s).number == 11 && smb3seal_sign_finish(s, place, 16).number == 11, "the finish of no message", 0);
}

static struct smb3seal_sign_state begun(const uint8_t *with)
{
    struct smb3seal_sign_step step = smb3seal_sign_begin(with, 16);
    expect(step.number == 0 && step.spare == 0, "a begin", 0);
    return step.state;
}

/* The piece is lent in a buffer of its own size, so that a step outside is seen. */
static struct smb3seal_sign_state with_piece(struct smb3seal_sign_state s, const uint8_t *at, size_t n)
{
    uint8_t *lent = malloc(n > 0 ? n : 1);
    if (lent == NULL) fail("memory", n);
    memcpy(lent, at, n);
    struct smb3seal_sign_step step = smb3seal_sign_piece(s, lent, n);
    expect(step.number == 0 && step.spare == 0 && memcmp(lent, at, n) == 0, "a piece", n);
    free(lent);
    return step.state;
}

static void need_signature(struct smb3seal_sign_state s, const uint8_t *with, const uint8_t *at, size_t n)
{
    uint8_t place[16], right[16];
    uint32_t number = number_to_sign(at, n);
    memset(place, 0x5A, 16);
    memset(right, 0x5A, 16);
    if (number == 0) signature_of(with, at, n, right);
    struct smb3seal_sign_step step = smb3seal_sign_finish(s, place, 16);
    expect(step.number == number, "the number of a signature", step.number);
    expect(memcmp(place, right, 16) == 0, "the signature", n);
    expect(is_spent(&step.state) && step.spare == 0, "what a signature leaves", n);
}

static void need_verdict(struct smb3seal_sign_state s, const uint8_t *with, const uint8_t *at, size_t n)
{
    struct smb3seal_sign_step step = smb3seal_verify_finish(s);
    expect(step.number == number_to_verify(with, at, n), "the number of a verification", step.number);
    expect(is_spent(&step.state) && step.spare == 0, "what a verification leaves", n);
}

/* ---- messages */

/* A signed message of n bytes. */
static void put_signed(uint8_t *at, size_t n)
{
    fill(at, n);
    memcpy(at, "\xFESMB", 4);
    at[FLAGS] |= 8;
    signature_of(key, at, n, at + SIGNATURE);
}

/* Both finishes of the message, cut at the two places. */
static void cut(const uint8_t *at, size_t n, size_t first, size_t second)
{
    struct smb3seal_sign_state s = with_piece(with_piece(with_piece(begun(key), at, first), at + first, second - first), at + second, n - second);
    need_signature(s, key, at, n);
    need_verdict(s, key, at, n);
}

static void every_cut(void)
{
    uint8_t at[SIZE];
    put_signed(at, SIZE);
    for (size_t i = 0; i <= SIZE; i++) {
        struct smb3seal_sign_state s = with_piece(with_piece(begun(key), at, i), at + i, SIZE - i);
        need_signature(s, key, at, SIZE);
        need_verdict(s, key, at, SIZE);
        for (size_t k = i; k <= SIZE; k++) cut(at, SIZE, i, k);
    }
}

/* Byte by byte, with empty pieces between; and what is signed at once. */
static void bytes(void)
{
    uint8_t at[SIZE], once[SIZE];
    put_signed(at, SIZE);
    memcpy(once, at, SIZE);
    expect(smb3seal_sign(key, 16, once, SIZE) == 0 && memcmp(once, at, SIZE) == 0, "the same message signed at once", 0);
    struct smb3seal_sign_state s = begun(key);
    for (size_t i = 0; i < SIZE; i++) {
        if (i < HEADER) need_verdict(s, key, at, i);
        s = with_piece(with_piece(s, at, 0), at + i, 1);
    }
    need_signature(s, key, at, SIZE);
    need_verdict(s, key, at, SIZE);
}

/* Each bit of the header and some behind it, with a cut before and behind its byte. */
static void every_bit(void)
{
    uint8_t at[SIZE];
    put_signed(at, SIZE);
    for (size_t bit = 0; bit < 8 * (HEADER + 8); bit++) {
        begin_case(bit);
        at[bit / 8] ^= (uint8_t)(1 << bit % 8);
        cut(at, SIZE, bit / 8, bit / 8 + 1);
        cut(at, SIZE, bit / 8, bit / 8);
        at[bit / 8] ^= (uint8_t)(1 << bit % 8);
    }
}

static void published(const struct signature *s)
{
    for (unsigned long i = 0; i < 50; i++) {
        begin_case(i);
        struct smb3seal_sign_state state = begun(s->key);
        uint8_t place[16];
        size_t done = 0;
        while (done < s->message.len) {
            size_t n = 1 + below(s->message.len - done);
            state = with_piece(state, s->message.at + done, n);
            done += n;
        }
        expect(smb3seal_verify_finish(state).number == 0, "verifying a published message in pieces", i);
        expect(smb3seal_sign_finish(state, place, 16).number == 0 && memcmp(place, s->message.at + SIGNATURE, 16) == 0,
               "signing a published message in pieces", i);
    }
}

/* ---- numbers */

static void lengths(void)
{
    uint8_t at[SIZE], place[40];
    put_signed(at, SIZE);
    for (size_t n = 0; n <= SIZE; n++) cut(at, n, n / 3, n / 2);
    for (size_t n = 0; n <= 33; n++) {
        struct smb3seal_sign_step step = smb3seal_sign_begin(at, n);
        expect(step.number == (n == 16 ? 0 : 40) && step.spare == 0, "a key's length", n);
        if (n != 16) need_spent(step.state);
        struct smb3seal_sign_state s = with_piece(begun(key), at, n % 2 ? SIZE : 10);
        memset(place, 0x5A, sizeof place);
        step = smb3seal_sign_finish(s, place, n);
        expect(step.number == (n != 16 ? 40 : n % 2 ? 0 : 11) && is_spent(&step.state), "the length of the place", n);
        for (size_t i = 0; i < sizeof place; i++) expect(place[i] == 0x5A, "the place after a refusal", i);
    }
}

/* Every set of the faults of a message to verify. */
static void faults(void)
{
    for (uint32_t set = 0; set < 16; set++) {
        uint8_t at[SIZE];
        begin_case(set);
        put_signed(at, SIZE);
        if (set & 1) at[SIGNATURE + 15] ^= 1;
        if (set & 2) at[FLAGS] &= (uint8_t)~8;
        if (set & 4) at[1] = 's';
        size_t n = set & 8 ? HEADER - 1 : SIZE;
        uint32_t first = set & 8 ? 11 : set & 4 ? 12 : set & 2 ? 24 : set & 1 ? 25 : 0;
        expect(number_to_verify(key, at, n) == first, "the order of the numbers", set);
        cut(at, n, 5, 50);
    }
}

/* A piece up to the limit and one byte over it; then one that fits. */
static void limit(void)
{
    put_signed(message, LIMIT);
    struct smb3seal_sign_state s = with_piece(begun(key), message, 100);
    struct smb3seal_sign_step step = smb3seal_sign_piece(s, message + 100, LIMIT + 1 - 100);
    expect(step.number == 3 && memcmp(&step.state, &s, sizeof s) == 0, "one byte over the limit", 0);
    s = with_piece(step.state, message + 100, LIMIT - 100);
    need_verdict(s, key, message, LIMIT);
    need_signature(s, key, message, LIMIT);
    step = smb3seal_sign_piece(s, message, 1);
    expect(step.number == 3 && memcmp(&step.state, &s, sizeof s) == 0, "one byte behind the limit", 0);
    need_verdict(with_piece(step.state, message, 0), key, message, LIMIT);
    expect(smb3seal_sign_piece(begun(key), message, LIMIT + 1).number == 3, "a first piece over the limit", 0);
    need_verdict(with_piece(begun(key), message, LIMIT), key, message, LIMIT);
}

/* Lengths of 2^32 and a little, and near 2^64 in a state: none is taken for the little. */
static void wide(void)
{
    const size_t four_gigabytes = (size_t)1 << 32;
    uint8_t *at = mmap(NULL, four_gigabytes + 4096, PROT_READ | PROT_WRITE, MAP_PRIVATE | MAP_ANONYMOUS | MAP_NORESERVE, -1, 0);
    expect(at != MAP_FAILED, "4 GiB of address space", 0);
    struct smb3seal_sign_state s = begun(key);
    struct smb3seal_sign_step step = smb3seal_sign_piece(s, at, four_gigabytes + 1);
    expect(step.number == 3 && memcmp(&step.state, &s, sizeof s) == 0, "a piece over 4 GiB", 0);
    expect(smb3seal_sign_begin(at, four_gigabytes + 16).number == 40, "a key over 4 GiB", 0);
    expect(smb3seal_sign_finish(s, at, four_gigabytes + 16).number == 40, "a place over 4 GiB", 0);
    s.length = UINT64_MAX;
    expect(smb3seal_sign_piece(s, at, 1).number == 3 && smb3seal_sign_piece(s, at, 0).number == 3, "a length of 2^64 - 1", 0);
    munmap(at, four_gigabytes + 4096);
}

/* ---- at random */

/* A message with pieces refused between those that are joined. */
static void random_message(void)
{
    size_t n = below(chance(90) ? 300 : 5000);
    put_signed(message, n < HEADER ? HEADER : n);
    if (chance(40) && n > 0) message[below(n)] ^= (uint8_t)(1 << below(8));
    struct smb3seal_sign_state s = begun(key);
    for (size_t done = 0; done < n;) {
        size_t more = below(n - done + 1);
        if (chance(5)) {
            struct smb3seal_sign_step step = smb3seal_sign_piece(s, message, LIMIT + 1 - done);
            expect(step.number == 3 && memcmp(&step.state, &s, sizeof s) == 0, "a piece that is refused", done);
        }
        s = with_piece(s, message + done, more);
        done += more;
    }
    need_verdict(s, key, message, n);
    need_signature(s, key, message, n);
}

/* Any bytes are a state: an answer comes, of which the state's own fields say as much as can be said. */
static void any_bytes(void)
{
    struct smb3seal_sign_state s;
    uint8_t place[16] = {0}, piece[100];
    fill((uint8_t *)&s, sizeof s);
    fill(piece, sizeof piece);
    if (chance(50)) memcpy(s.header, "\xFESMB", 4);
    if (chance(70)) s.length = below(chance(50) ? 80 : LIMIT + 2);
    if (chance(20)) s.begun = 0;
    uint64_t n = below(sizeof piece + 1);
    struct smb3seal_sign_step step = smb3seal_sign_piece(s, piece, n);
    int fits = s.begun != 0 && s.length <= LIMIT && n <= LIMIT - s.length;
    expect(step.number == (fits ? 0 : 3), "a piece after any bytes", s.length);
    if (!fits) expect(memcmp(&step.state, &s, sizeof s) == 0, "any bytes after a refused piece", s.length);
    uint32_t first = s.begun == 0 || s.length < HEADER ? 11 : memcmp(s.header, "\xFESMB", 4) != 0 ? 12 : 0;
    step = smb3seal_sign_finish(s, place, 16);
    expect(step.number == first && is_spent(&step.state), "signing after any bytes", step.number);
    step = smb3seal_verify_finish(s);
    if (first == 0 && (s.header[FLAGS] & 8) == 0) first = 24;
    expect(first != 0 ? step.number == first : step.number == 0 || step.number == 25, "verifying after any bytes", step.number);
}

int main(int argc, char **argv)
{
    begin(argc, argv);
    need_spent((struct smb3seal_sign_state){0});
    for (size_t i = 0; i < COUNT(signatures); i++) published(&signatures[i]);
    every_cut();
    bytes();
    every_bit();
    lengths();
    faults();
    limit();
    wide();
    unsigned long cases = argc > 2 ? strtoul(argv[2], NULL, 0) : CASES;
    for (unsigned long i = 0; i < cases; i++) {
        begin_case(i);
        random_message();
        any_bytes();
    }
    return finish();
}
