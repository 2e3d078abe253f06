/*
 * The published vectors of SMB 3 (vectors/smb3.json): chain values, keys, messages opened, and messages sealed where the sender's
 * nonce follows our rule.
 */
#include <string.h>

#include "check.h"
#include "messages.h"
#include "smb3_vectors.h"

static void fold(const struct fold *f)
{
    struct call c = plain_call(f->response ? FOLD_RESPONSE : FOLD, 0, HEADER);
    memcpy(c.chain.at, f->before, 64);
    memcpy(c.message.at, f->message.at, f->message.len);
    c.message.len = f->message.len;
    expect_answer(&c, 0, "folding a published message");
    expect(memcmp(c.chain.at, f->after, 64) == 0, "a published chain value", 0);
    if (f->response) expect(c.folded == (memcmp(f->before, f->after, 64) != 0), "whether it was folded", c.folded);
}

static void derive(const struct derivation *d)
{
    struct call c = plain_call(DERIVE, 0, 64 - TRANSFORM);
    c.dialect = d->dialect;
    c.key = (struct lent){(uint8_t *)d->material.at, d->material.len};
    memcpy(c.chain.at, d->chain, 64);
    expect_answer(&c, 0, "deriving published keys");
    expect(memcmp(c.message.at, d->keys, d->known) == 0, "published keys", d->known);
}

static void transform(const struct transform *t)
{
    struct call c = plain_call(OPEN, t->cipher, t->message.len - TRANSFORM);
    c.id = t->id;
    c.counter = t->counter;
    memcpy(c.key.at, t->key, 16);
    memcpy(c.message.at, t->message.at, t->message.len);
    expect_answer(&c, 0, "opening a published message");
    expect(c.headers == 1, "headers opened", c.headers);
    expect(memcmp(c.message.at, t->message.at, TRANSFORM) == 0, "the header is as received", 0);
    expect(memcmp(c.message.at + TRANSFORM, t->plaintext.at, t->plaintext.len) == 0, "a published plaintext", 0);
    if (!t->sealed_by_counter) return;
    c.function = SEAL;
    memset(c.message.at, 0x55, TRANSFORM);
    expect_answer(&c, 0, "sealing a published message");
    expect(c.headers == 1 && c.counter == t->counter + 1, "headers sealed, and the counter", c.headers);
    expect(memcmp(c.message.at, t->message.at, t->message.len) == 0, "published sealed bytes", 0);
}

int main(int argc, char **argv)
{
    begin(argc, argv);
    for (size_t i = 0; i < COUNT(folds); begin_case(++i)) fold(&folds[i]);
    for (size_t i = 0; i < COUNT(derivations); begin_case(++i)) derive(&derivations[i]);
    for (size_t i = 0; i < COUNT(transforms); begin_case(++i)) transform(&transforms[i]);
    return finish();
}
