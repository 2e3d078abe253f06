#include "call.h"

#include <stdio.h>
#include <stdlib.h>
#include <string.h>

#include "../include/smb3seal.h"
#include "check.h"
#include "model.h"

static void *heap_lend(enum place place, const void *from, size_t n, int writable)
{
    (void)place;
    (void)writable;
    void *at = malloc(n > 0 ? n : 1);
    if (at == NULL) abort();
    if (n > 0) memcpy(at, from, n);
    return at;
}

static void heap_take_back(enum place place, void *at)
{
    (void)place;
    free(at);
}

const struct lender heap = {heap_lend, heap_take_back};

/* What a call left. */
struct outcome {
    uint32_t answer;
    uint8_t *key, *chain, *message;
    uint64_t *counter, *headers;
    uint32_t *folded;
};

static struct outcome lend(const struct call *c, const struct lender *lender)
{
    struct outcome o;
    int folds = c->function == FOLD || c->function == FOLD_RESPONSE, writes = !folds && c->function != VERIFY;
    o.answer = UINT32_MAX;
    o.key = lender->lend(KEY, c->key.at, c->key.len, 0);
    o.chain = lender->lend(CHAIN, c->chain.at, c->chain.len, folds);
    o.message = lender->lend(MESSAGE, c->message.at, c->message.len, writes);
    o.counter = lender->lend(COUNTER, &c->counter, sizeof c->counter, 1);
    o.headers = lender->lend(HEADERS, &c->headers, sizeof c->headers, 1);
    o.folded = lender->lend(FOLDED, &c->folded, sizeof c->folded, 1);
    return o;
}

static void take_back(struct outcome *o, const struct lender *lender)
{
    lender->take_back(KEY, o->key);
    lender->take_back(CHAIN, o->chain);
    lender->take_back(MESSAGE, o->message);
    lender->take_back(COUNTER, o->counter);
    lender->take_back(HEADERS, o->headers);
    lender->take_back(FOLDED, o->folded);
}

/* The functions, as the library and as the model have them. */
struct functions {
    uint32_t (*derive)(uint16_t, uint16_t, const uint8_t *, size_t, const uint8_t *, size_t, uint8_t *, size_t);
    uint32_t (*fold)(uint8_t *, size_t, const uint8_t *, size_t);
    uint32_t (*fold_response)(uint8_t *, size_t, const uint8_t *, size_t, uint32_t *);
    uint32_t (*seal)(uint32_t, uint16_t, uint32_t, uint16_t, const uint8_t *, size_t, uint64_t, uint64_t *, uint8_t *, size_t,
                     uint64_t *);
    uint32_t (*open)(uint32_t, uint16_t, uint32_t, uint16_t, const uint8_t *, size_t, uint64_t, uint8_t *, size_t, uint64_t *);
    uint32_t (*sign)(const uint8_t *, size_t, uint8_t *, size_t);
    uint32_t (*verify)(const uint8_t *, size_t, const uint8_t *, size_t);
};

static const struct functions library = {smb3seal_derive, smb3seal_fold, smb3seal_fold_response, smb3seal_seal,
                                         smb3seal_open,   smb3seal_sign, smb3seal_verify};
static const struct functions model = {model_derive, model_fold, model_fold_response, model_seal, model_open, model_sign, model_verify};

static uint32_t perform(const struct functions *by, const struct call *c, struct outcome *o)
{
    size_t key = c->key.len, chain = c->chain.len, n = c->message.len;
    switch (c->function) {
    case DERIVE: return by->derive(c->dialect, c->cipher, o->key, key, o->chain, chain, o->message, n);
    case FOLD: return by->fold(o->chain, chain, o->message, n);
    case FOLD_RESPONSE: return by->fold_response(o->chain, chain, o->message, n, o->folded);
    case SEAL: return by->seal(c->role, c->dialect, c->encryption, c->cipher, o->key, key, c->id, o->counter, o->message, n, o->headers);
    case SIGN: return by->sign(o->key, key, o->message, n);
    case VERIFY: return by->verify(o->key, key, o->message, n);
    default: return by->open(c->role, c->dialect, c->encryption, c->cipher, o->key, key, c->id, o->message, n, o->headers);
    }
}

static _Noreturn void wrong(const struct call *c, uint32_t answer, const char *what, unsigned long long detail)
{
    static const char *const names[] = {"derive", "fold", "fold_response", "seal", "open", "sign", "verify"};
    fprintf(stderr, "smb3seal_%s, role %u, lent %zu bytes, answers %u\n", names[c->function], c->role, c->message.len, answer);
    fail(what, detail);
}

/* The first byte that differs, or n. */
static size_t difference(const uint8_t *a, const uint8_t *b, size_t n)
{
    size_t i = 0;
    if (n == 0 || memcmp(a, b, n) == 0) return n;
    while (a[i] == b[i]) i++;
    return i;
}

static void need_same(const struct call *c, const struct outcome *a, const struct outcome *b)
{
    size_t key = difference(a->key, b->key, c->key.len), chain = difference(a->chain, b->chain, c->chain.len);
    size_t message = difference(a->message, b->message, c->message.len);
    if (key != c->key.len) wrong(c, a->answer, "the key or key material differs at byte", key);
    if (chain != c->chain.len) wrong(c, a->answer, "the chain differs at byte", chain);
    if (message != c->message.len) wrong(c, a->answer, "the message or the four keys differ at byte", message);
    if (*a->counter != *b->counter) wrong(c, a->answer, "the counter differs", *a->counter);
    if (*a->headers != *b->headers) wrong(c, a->answer, "the number of headers differs", *a->headers);
    if (*a->folded != *b->folded) wrong(c, a->answer, "the folded mark differs", *a->folded);
}

uint32_t compare(struct call *c, const struct lender *lender)
{
    struct outcome ours = lend(c, lender), theirs = lend(c, &heap);
    ours.answer = perform(&library, c, &ours);
    theirs.answer = perform(&model, c, &theirs);
    if (ours.answer != theirs.answer) wrong(c, ours.answer, "the model answers", theirs.answer);
    need_same(c, &ours, &theirs);
    if (ours.answer != 0) {
        struct outcome before = {0, c->key.at, c->chain.at, c->message.at, &c->counter, &c->headers, &c->folded};
        need_same(c, &ours, &before);
    }
    count_check();
    if (c->chain.len > 0) memcpy(c->chain.at, ours.chain, c->chain.len);
    if (c->message.len > 0) memcpy(c->message.at, ours.message, c->message.len);
    c->counter = *ours.counter;
    c->headers = *ours.headers;
    c->folded = *ours.folded;
    take_back(&ours, lender);
    take_back(&theirs, &heap);
    return ours.answer;
}

void expect_answer(struct call *call, uint32_t number, const char *what)
{
    uint32_t r = compare(call, &heap);
    if (r != number) wrong(call, r, what, number);
    count_check();
}
