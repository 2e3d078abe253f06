#include "generate.h"

#include <string.h>

#include "check.h"
#include "messages.h"
#include "model.h"

/* ---- numbers and lengths: mostly right or near the right ones */

uint16_t any_dialect(void)
{
    static const uint16_t right[] = {0x0311, 0x0311, 0x0300, 0x0302}, near[] = {0, 0x0202, 0x0210, 0x0301, 0x0310, 0x0312, 0x1103};
    if (chance(93)) return right[below(COUNT(right))];
    return chance(70) ? near[below(COUNT(near))] : (uint16_t)number();
}

uint16_t any_cipher(void)
{
    static const uint16_t near[] = {0, 5, 6, 0x0100, 0x0103, 0x0204, 0xFFFF};
    if (chance(92)) return (uint16_t)(1 + below(4));
    return chance(70) ? near[below(COUNT(near))] : (uint16_t)number();
}

static uint32_t any_role(void)
{
    if (chance(96)) return (uint32_t)below(2);
    return chance(50) ? 2 : (uint32_t)number();
}

static uint32_t any_switch(void)
{
    if (chance(90)) return 1;
    return chance(50) ? 0 : (uint32_t)1 << below(32);
}

size_t any_length_like(size_t right)
{
    if (chance(96)) return right;
    return chance(50) ? right + below(3) - 1 : below(2 * right + 1);
}

uint64_t any_counter(void)
{
    if (chance(80)) return chance(50) ? below(100) : number();
    return UINT64_MAX - below(3);
}

/* Bytes beyond what a message needs: mostly few, now and then many. */
static size_t any_excess(void)
{
    unsigned kind = (unsigned)below(10000);
    if (kind < 9000) return below(80);
    if (kind < 9900) return below(1500);
    return kind < 9997 ? below(16000) : below(300000);
}

static void flip(uint8_t *at, size_t n)
{
    if (n > 0) at[below(n)] ^= (uint8_t)(1u << below(8));
}

/* ---- the inner message: a compound of some headers, each with its data and padding */

enum { MOST_HEADERS = 12 };

struct compound {
    uint8_t *inner;
    size_t n, count, places[MOST_HEADERS];
};

/* A break notice, now and then with a bit of a mark changed. */
static void generate_notice(uint8_t *header)
{
    static const struct { size_t at, n; } marks[] = {{12, 2}, {24, 8}, {40, 8}};
    size_t other = below(COUNT(marks));
    mark_as_notice(header);
    if (chance(30)) flip(header + marks[other].at, marks[other].n);
}

static struct compound any_compound(uint8_t *inner, uint64_t id)
{
    struct compound c = {inner, 0, 1, {0}};
    if (chance(50)) c.count += chance(80) ? below(3) : below(MOST_HEADERS);
    for (size_t i = 0; i < c.count; i++) {
        int last = i + 1 == c.count, related = i > 0 && chance(60);
        size_t length = last ? HEADER + any_excess() : HEADER + 8 * below(9);
        uint8_t *at = inner + c.n;
        fill(at, length < 600 ? length : 600);
        if (length > 600) memset(at + 600, (int)number(), length - 600);
        memcpy(at, "\xFESMB", 4);
        at[16] = (uint8_t)((at[16] & ~4) | (related ? 4 : 0));
        put(at + 20, last ? 0 : length, 4);
        if (!related || chance(30)) put(at + 40, id, 8);
        if (chance(12)) generate_notice(at);
        c.places[i] = c.n;
        c.n += length;
    }
    return c;
}

static uint32_t any_distance(const struct compound *c, size_t place)
{
    size_t rest = c->n > place ? c->n - place : 1;
    switch (below(8)) {
    case 0: return (uint32_t)(1 + below(HEADER + 8));
    case 1: return (uint32_t)(rest - HEADER + below(17) - 8);
    case 2: return (uint32_t)(rest + below(17) - 8);
    case 3: return UINT32_MAX - (uint32_t)below(80);
    case 4: return (uint32_t)(HEADER + below(rest));
    case 5: return (uint32_t)(HEADER + 8 * below(rest / 8 + 1));
    case 6: return (uint32_t)((0 - place) & UINT32_MAX);
    default: return (uint32_t)number();
    }
}

/* One thing in one header, or the length, becomes something else; by luck it may still be right. */
static void damage_compound(struct compound *c)
{
    size_t place = c->places[chance(40) ? 0 : below(c->count)];
    uint8_t *at = c->inner + place;
    switch (below(8)) {
    case 0: flip(at, 4); break;
    case 1: at[16] ^= 4; break;
    case 2: flip(at + 16, 4); break;
    case 3: flip(at + 40, 8); break;
    case 4:
    case 5: put(at + 20, any_distance(c, place), 4); break;
    case 6: c->n = c->n > HEADER && chance(70) ? c->n - below(HEADER) : 1 + below(HEADER); break;
    default: flip(c->inner, c->n); break;
    }
}

static struct compound any_inner(uint8_t *inner, uint64_t id)
{
    struct compound c = any_compound(inner, id);
    for (int left = 2; left > 0 && chance(40); left--) damage_compound(&c);
    return c;
}

/* ---- sealed messages: the header's fields before the tag is made, and anything after it */

static void damage_transform(const struct call *c)
{
    uint8_t *at = c->message.at;
    switch (below(8)) {
    case 0: flip(at, 4); break;
    case 1: fill(at + 20, 16); break;
    case 2: put(at + 36, c->message.len - TRANSFORM + below(5) - 2, 4); break;
    case 3: fill(at + 40, 2); break;
    case 4: flip(at + 42, 2); break;
    case 5: put(at + 42, number(), 2); break;
    case 6: at[32 + below(4)] = (uint8_t)number(); break; /* another sender's nonce, under a right tag */
    default: flip(at + 44, 8); break;
    }
}

static void damage_sealed(struct call *c)
{
    static const struct { size_t at, n; } fields[] = {{0, 4}, {4, 16}, {20, 16}, {36, 4}, {40, 2}, {42, 2}, {44, 8}};
    size_t field = below(COUNT(fields) + 5);
    if (field < COUNT(fields)) flip(c->message.at + fields[field].at, fields[field].n);
    else if (field == COUNT(fields)) flip(c->message.at + TRANSFORM, c->message.len - TRANSFORM);
    else if (field == COUNT(fields) + 1) c->message.len -= below(c->message.len + 1);
    else if (field == COUNT(fields) + 2) c->message.len += 1 + below(HEADER - 1);
    else if (field == COUNT(fields) + 3) flip(c->key.at, c->key.len);
    else c->cipher = any_cipher();
}

/* ---- calls */

static void make_opening(struct call *c)
{
    put_transform(c, any_counter());
    for (int left = 2; left > 0 && chance(30); left--) damage_transform(c);
    forge(c);
    if (chance(25)) damage_sealed(c);
    if (chance(3)) c->id ^= (uint64_t)1 << below(64);
}

static void make_folding(struct call *c)
{
    size_t excess = any_excess();
    c->message.len = chance(90) ? HEADER + excess : below(HEADER + 1);
    memset(c->message.at, (int)number(), c->message.len);
    fill(c->message.at, HEADER);
    if (chance(50)) put(c->message.at + 8, 0xC0000016, 4);
    if (chance(10)) flip(c->message.at + 8, 4);
}

size_t any_material_length(void)
{
    if (chance(60)) return chance(50) ? 16 : 32;
    if (chance(15)) return MATERIAL_LIMIT - 1 + below(3);
    return chance(95) ? 1 + below(200) : 0;
}

/* The place for the keys is now and then as long as one for ciphers of the other key size. */
static void make_derivation(struct call *c)
{
    size_t right = 32 + 2 * key_bytes(c->dialect, c->cipher);
    c->key.len = any_material_length();
    c->message.len = chance(96) ? any_length_like(right) : 160 - right;
    fill(c->key.at, c->key.len);
    fill(c->message.at, c->message.len);
}

/* The length of a cipher key or of a signing key, at times the other one. */
static size_t any_key_length(const struct call *c)
{
    int under_cipher = c->function == SEAL || c->function == OPEN;
    if (under_cipher && chance(2)) return chance(50) ? 16 : 32;
    return any_length_like(under_cipher ? key_bytes(c->dialect, c->cipher) : 16);
}

void generate_message(struct call *c)
{
    fill(c->message.at, TRANSFORM);
    c->message.len = TRANSFORM + any_inner(c->message.at + TRANSFORM, c->id).n;
    if (c->function == SEAL && chance(2)) c->message.len = below(TRANSFORM + HEADER);
    if (c->function == OPEN) make_opening(c);
}

/* A message in clear, as it is or signed and then changed here and there. */
static void make_signing(struct call *c)
{
    c->message.len = any_inner(c->message.at, c->id).n;
    if (chance(10)) c->message.len = below(HEADER + 2);
    if (c->function == SIGN || chance(10)) return;
    model_sign(c->key.at, 16, c->message.at, c->message.len);
    for (int left = 2; left > 0 && chance(40); left--) {
        if (chance(30)) c->message.at[16] ^= 8;
        else flip(chance(50) ? c->message.at : c->message.at + 48, chance(50) ? 16 : 4);
    }
    if (chance(10)) c->message.len += below(3);
}

struct call generate(void)
{
    static const enum function functions[] = {DERIVE, FOLD, FOLD_RESPONSE, SEAL, SEAL, SEAL,   OPEN,   OPEN,
                                              OPEN,   OPEN, OPEN,          OPEN, SIGN, VERIFY, VERIFY, VERIFY};
    struct call c = plain_call(functions[below(COUNT(functions))], any_cipher(), HEADER);
    set_dialect(&c, any_dialect());
    c.role = any_role();
    c.encryption = any_switch();
    c.id = chance(80) ? number() : below(3);
    c.counter = any_counter();
    c.headers = number();
    c.folded = (uint32_t)number();
    fill(c.key.at, 64);
    fill(c.chain.at, 128);
    if (c.function == SEAL || c.function == OPEN) generate_message(&c);
    if (c.function == FOLD || c.function == FOLD_RESPONSE) make_folding(&c);
    if (c.function == SIGN || c.function == VERIFY) make_signing(&c);
    if (c.function == DERIVE) make_derivation(&c);
    else c.key.len = any_key_length(&c);
    c.chain.len = any_length_like(64);
    return c;
}
