/*
 * Each number but 3 (lengths_test.c), and which comes first. Every set of faults is made at once and must get the number of the
 * first of them in the order of the rules. Then whole fields: every dialect, every cipher, every value of the transform
 * header's Flags; and roles.
 */
#include <string.h>

#include "check.h"
#include "messages.h"
#include "model.h"

enum { INNER = 200, CIPHERS = 4 };

/* ---- sealing and opening: faults in the order in which they are tested */

enum { AT_SEAL = 1, AT_OPEN = 2 };

static const struct { uint32_t number; int where; } faults[] = {
    {40, AT_SEAL | AT_OPEN}, {1, AT_SEAL | AT_OPEN},  {2, AT_SEAL | AT_OPEN},  {4, AT_OPEN},
    {5, AT_OPEN},            {29, AT_OPEN},           {6, AT_OPEN},            {9, AT_OPEN},            {10, AT_OPEN},
    {11, AT_SEAL | AT_OPEN}, {12, AT_SEAL | AT_OPEN}, {13, AT_SEAL | AT_OPEN}, {14, AT_SEAL | AT_OPEN},
    {15, AT_SEAL | AT_OPEN}, {16, AT_SEAL | AT_OPEN}, {17, AT_SEAL},
};

/* What is wrong inside the message, before it is sealed. */
static void put_inner_fault(struct call *c, uint32_t number)
{
    uint8_t *inner = c->message.at + TRANSFORM;
    switch (number) {
    case 10: put(c->message.at + 36, INNER - 1, 4); break;
    case 11:
        c->message.len = TRANSFORM + HEADER - 1;
        put(c->message.at + 36, HEADER - 1, 4);
        break;
    case 12: inner[3] = 'b'; break;
    case 13: inner[16] = 4; break;
    case 14: inner[47] = 1; break;
    case 15: inner[20] = 56; break;
    case 16: inner[20] |= 68; break;
    }
}

/* What is wrong with the call or the sealed message. */
static void put_outer_fault(struct call *c, uint32_t number)
{
    switch (number) {
    case 40: c->key.len = 15; break;
    case 1: c->encryption = 0; break;
    case 2: c->message.len = TRANSFORM; break;
    case 4: c->message.at[0] = 0xFE; break;
    case 5: c->message.at[43] = 1; break;
    case 29: c->message.at[35] = 1; break;
    case 6: c->message.at[51] ^= 0x80; break;
    case 9: c->message.at[4] ^= 1; break;
    case 17: c->counter = UINT64_MAX; break;
    }
}

/* The faults whose bits are in the set, all at once: the first of them is the answer. Inside the message the first is put last. */
static void one_set(enum function function, uint16_t cipher, const uint32_t *numbers, size_t count, uint32_t set)
{
    struct call c = plain_call(function, cipher, INNER);
    uint32_t first = 0;
    begin_case(set);
    put_transform(&c, set);
    for (size_t i = count; i-- > 0;) {
        if ((set >> i & 1) == 0) continue;
        put_inner_fault(&c, numbers[i]);
        first = numbers[i];
    }
    if (function == OPEN) forge(&c);
    for (size_t i = 0; i < count; i++)
        if (set >> i & 1) put_outer_fault(&c, numbers[i]);
    expect_answer(&c, first, "a set of faults");
}

static void every_set(enum function function, uint16_t cipher, int where)
{
    uint32_t numbers[COUNT(faults)];
    size_t count = 0;
    for (size_t i = 0; i < COUNT(faults); i++)
        if (faults[i].where & where && (faults[i].number != 29 || model_gcm(0x0311, cipher))) numbers[count++] = faults[i].number;
    for (uint32_t set = 0; set < (uint32_t)1 << count; set++) one_set(function, cipher, numbers, count, set);
}

/* P1 to P3 of the rules. */
static void sums(uint16_t cipher)
{
    struct call c = plain_call(OPEN, cipher, 0);
    expect_answer(&c, 2, "P1: 52 bytes");
    c = plain_call(OPEN, cipher, 1);
    c.message.at[0] = 0xFE;
    expect_answer(&c, 4, "P2: 53 bytes beginning FE");
    c = plain_call(OPEN, cipher, INNER);
    put_transform(&c, 1);
    put(c.message.at + 42, 0, 2);
    put(c.message.at + 44, SESSION + 1, 8);
    expect_answer(&c, 5, "P3: Flags 0 and an unknown id");
}

/* ---- deriving and folding */

static void derivation_faults(uint16_t cipher)
{
    static const uint16_t dialects[] = {0x0300, 0x0302, 0x0311, 0x0210};
    static const size_t materials[] = {0, 1, 15, 16, 17, 32, KEY_ROOM}, lengths[] = {0, 16, 63, 64, 65, 95, 96, 97, 128};
    for (size_t set = 0; set < COUNT(dialects) * COUNT(materials) * COUNT(lengths) * COUNT(lengths); set++) {
        size_t rest = set;
        struct call c = plain_call(DERIVE, cipher, INNER);
        begin_case(set);
        c.dialect = dialects[rest % COUNT(dialects)];
        c.key.len = materials[(rest /= COUNT(dialects)) % COUNT(materials)];
        c.chain.len = lengths[(rest /= COUNT(materials)) % COUNT(lengths)];
        c.message.len = lengths[rest / COUNT(lengths)];
        int wide = c.dialect == 0x0311 && (cipher == 3 || cipher == 4);
        int wrong_length = c.chain.len != 64 || c.message.len != (wide ? 96 : 64);
        int bad_material = c.key.len == 0 || (wide && c.key.len > MATERIAL_LIMIT);
        expect_answer(&c, wrong_length ? 40 : c.dialect == 0x0210 ? 18 : bad_material ? 19 : 0, "a derivation");
    }
}

static void folding_faults(enum function function)
{
    for (size_t chain = 0; chain <= 128; chain++)
        for (size_t n = 0; n <= 130; n += n < 60 ? 10 : 1) {
            struct call c = plain_call(function, 0, INNER);
            begin_case(1000 * chain + n);
            c.chain.len = chain;
            c.message.len = n;
            expect_answer(&c, chain != 64 ? 40 : n < HEADER ? 23 : 0, "a fold");
        }
}

/* Only 0xC0000016 is folded. */
static void statuses(void)
{
    for (int bit = -1; bit < 32; bit++) {
        struct call c = plain_call(FOLD_RESPONSE, 0, INNER);
        put(c.message.at + 8, 0xC0000016 ^ (bit < 0 ? 0 : (uint32_t)1 << bit), 4);
        expect_answer(&c, 0, "a response");
        expect(c.folded == (bit < 0), "folded", c.folded);
        expect((c.chain.at[0] == 0x33 && c.chain.at[63] == 0x33) == (bit >= 0), "the chain", c.folded);
    }
}

/* ---- whole fields */

static void every_dialect(uint16_t cipher)
{
    for (uint32_t dialect = 0; dialect <= 0xFFFF; dialect++) {
        int known = dialect == 0x0300 || dialect == 0x0302 || dialect == 0x0311;
        struct call c = plain_call(SEAL, cipher, HEADER);
        begin_case(dialect);
        set_dialect(&c, (uint16_t)dialect);
        expect_answer(&c, known ? 0 : 1, "a dialect, sealing");
        c = plain_call(OPEN, cipher, HEADER);
        set_dialect(&c, (uint16_t)dialect);
        expect_answer(&c, known ? 4 : 1, "a dialect, opening");
        c.function = DERIVE;
        c.message.len = 32 + 2 * key_bytes(c.dialect, cipher);
        expect_answer(&c, known ? 0 : 18, "a dialect, deriving");
    }
}

static void every_cipher(uint16_t dialect)
{
    for (uint32_t cipher = 0; cipher <= 0xFFFF; cipher++) {
        int encrypts = cipher != 0 && (cipher <= 4 || dialect != 0x0311);
        size_t n = dialect == 0x0311 && (cipher == 3 || cipher == 4) ? 32 : 16;
        struct call c = plain_call(SEAL, (uint16_t)cipher, HEADER);
        begin_case(cipher);
        c.dialect = dialect;
        c.key.len = 48 - n;
        expect_answer(&c, 40, "a cipher, sealing under a key of the other size");
        c.key.len = n;
        expect_answer(&c, encrypts ? 0 : 1, "a cipher, sealing");
        c.function = OPEN;
        expect_answer(&c, encrypts ? 0 : 1, "a cipher, opening");
        if (cipher >= 0x200 && dialect != 0x0311) continue;
        c.function = DERIVE;
        c.message.len = 160 - (32 + 2 * n);
        expect_answer(&c, 40, "a cipher, deriving keys of the other size");
        c.message.len = 32 + 2 * n;
        expect_answer(&c, 0, "a cipher, deriving");
    }
}

/* 0 and 1 are roles. Any other number gets 1, behind 40 and before 2, and picks no walk. */
static void every_role(enum function function, uint16_t cipher)
{
    for (unsigned bit = 0; bit <= 32 + 256; bit++) {
        uint32_t role = bit < 32 ? (uint32_t)1 << bit : bit < 32 + 256 ? bit - 32 : UINT32_MAX;
        struct call c = plain_call(function, cipher, HEADER);
        begin_case(role);
        c.role = role;
        put_transform(&c, bit);
        if (function == OPEN) forge(&c);
        expect_answer(&c, role <= 1 ? 0 : 1, "a role");
        c.message.len = TRANSFORM;
        expect_answer(&c, role <= 1 ? 2 : 1, "a role and 2");
        c.key.len = 15;
        expect_answer(&c, 40, "a role and 40");
    }
}

/* A break notice: from a server it is done, from a client 14, from no role 1. */
static void notice_of_every_role(enum function function, uint16_t cipher)
{
    for (uint32_t role = 0; role <= 0x101; role++) {
        int from_server = role == (function == SEAL ? 1 : 0);
        struct call c = plain_call(function, cipher, HEADER);
        begin_case(role);
        c.role = role;
        mark_as_notice(c.message.at + TRANSFORM);
        put_transform(&c, role);
        if (function == OPEN) forge(&c);
        expect_answer(&c, role > 1 ? 1 : from_server ? 0 : 14, "a break notice");
    }
}

/* Each value of each of the bytes 32..36, under a right tag: with GCM 29, also before 6; with CCM, which is used below 3.1.1 too, it opens. */
static void every_nonce_end(uint16_t dialect, uint16_t cipher)
{
    int gcm = dialect == 0x0311 && cipher % 2 == 0;
    for (uint32_t i = 0; i < 4 * 256; i++) {
        struct call c = plain_call(OPEN, cipher, HEADER);
        begin_case(i);
        set_dialect(&c, dialect);
        put_transform(&c, 1);
        c.message.at[32 + i / 256] = (uint8_t)i;
        forge(&c);
        c.id ^= 1;
        expect_answer(&c, gcm && i % 256 != 0 ? 29 : 6, "the end of a nonce, and 6");
        c.id ^= 1;
        expect_answer(&c, gcm && i % 256 != 0 ? 29 : 0, "the end of a nonce");
    }
}

static void every_flags(uint16_t cipher)
{
    for (uint32_t flags = 0; flags <= 0xFFFF; flags++) {
        struct call c = plain_call(OPEN, cipher, HEADER);
        begin_case(flags);
        put_transform(&c, 1);
        put(c.message.at + 42, flags, 2);
        if (flags < 0x100) forge(&c);
        expect_answer(&c, flags == 1 ? 0 : 5, "Flags of the transform header");
    }
}

static void every_key_length(enum function function, uint16_t dialect, uint16_t cipher)
{
    size_t right = dialect == 0x0311 && cipher > 2 ? 32 : 16;
    for (size_t n = 0; n <= 65; n++) {
        struct call c = plain_call(function, cipher, HEADER);
        c.dialect = dialect;
        c.key.len = n;
        c.encryption = 0;
        expect_answer(&c, n == right ? 1 : 40, "a key's length");
    }
}

int main(int argc, char **argv)
{
    begin(argc, argv);
    for (uint16_t cipher = 1; cipher <= CIPHERS; cipher++) {
        sums(cipher);
        every_set(SEAL, cipher, AT_SEAL);
        every_set(OPEN, cipher, AT_OPEN);
        every_dialect(cipher);
        every_flags(cipher);
        every_nonce_end(0x0300, cipher);
        every_nonce_end(0x0302, cipher);
        every_nonce_end(0x0311, cipher);
        for (enum function f = SEAL; f <= OPEN; f++) {
            every_role(f, cipher);
            notice_of_every_role(f, cipher);
            every_key_length(f, 0x0300, cipher);
            every_key_length(f, 0x0302, cipher);
            every_key_length(f, 0x0311, cipher);
        }
        derivation_faults(cipher);
    }
    every_cipher(0x0300);
    every_cipher(0x0302);
    every_cipher(0x0311);
    derivation_faults(0);
    folding_faults(FOLD);
    folding_faults(FOLD_RESPONSE);
    statuses();
    return finish();
}
