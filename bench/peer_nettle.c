/* nettle. It chooses by the processor as it is loaded, or as NETTLE_FAT_OVERRIDE says ("none": no extension). */
#include <nettle/ccm.h>
#include <nettle/cmac.h>
#include <nettle/ctr.h>
#include <nettle/gcm.h>
#include <nettle/hmac.h>
#include <nettle/memops.h>
#include <nettle/sha2.h>
#include <nettle/version.h>
#include <stdio.h>
#include <stdlib.h>
#include <string.h>

#include "peer.h"

static int prepare(char *description, size_t room)
{
    const char *override = getenv("NETTLE_FAT_OVERRIDE");
    snprintf(description, room, "nettle %d.%d, %s%s", nettle_version_major(), nettle_version_minor(),
             override != NULL ? "NETTLE_FAT_OVERRIDE=" : "all that the processor has", override != NULL ? override : "");
    return 1;
}

/* CCM and GCM with keys of this many bits, which nettle has by functions of their own. */
#define CIPHERS_OF(bits) \
    static void ccm_begin_##bits(struct ccm_aes##bits##_ctx *c, const uint8_t *key, const uint8_t *m, size_t n) \
    { \
        ccm_aes##bits##_set_key(c, key); \
        ccm_aes##bits##_set_nonce(c, CCM_NONCE_BYTES, m + NONCE_AT, AAD_BYTES, n, TAG_BYTES); \
        ccm_aes##bits##_update(c, AAD_BYTES, m + AAD_AT); \
    } \
    static void ccm_seal_##bits(const uint8_t *key, uint8_t *m, size_t n) \
    { \
        struct ccm_aes##bits##_ctx c; \
        ccm_begin_##bits(&c, key, m, n); \
        ccm_aes##bits##_encrypt(&c, n, m + TEXT_AT, m + TEXT_AT); \
        ccm_aes##bits##_digest(&c, TAG_BYTES, m + TAG_AT); \
    } \
    static void ccm_open_##bits(const uint8_t *key, uint8_t *m, size_t n, uint8_t *tag) \
    { \
        struct ccm_aes##bits##_ctx c; \
        ccm_begin_##bits(&c, key, m, n); \
        ccm_aes##bits##_decrypt(&c, n, m + TEXT_AT, m + TEXT_AT); \
        ccm_aes##bits##_digest(&c, TAG_BYTES, tag); \
    } \
    static void gcm_begin_##bits(struct gcm_aes##bits##_ctx *c, const uint8_t *key, const uint8_t *m) \
    { \
        gcm_aes##bits##_set_key(c, key); \
        gcm_aes##bits##_set_iv(c, GCM_NONCE_BYTES, m + NONCE_AT); \
        gcm_aes##bits##_update(c, AAD_BYTES, m + AAD_AT); \
    } \
    static void gcm_seal_##bits(const uint8_t *key, uint8_t *m, size_t n) \
    { \
        struct gcm_aes##bits##_ctx c; \
        gcm_begin_##bits(&c, key, m); \
        gcm_aes##bits##_encrypt(&c, n, m + TEXT_AT, m + TEXT_AT); \
        gcm_aes##bits##_digest(&c, TAG_BYTES, m + TAG_AT); \
    } \
    static void gcm_open_##bits(const uint8_t *key, uint8_t *m, size_t n, uint8_t *tag) \
    { \
        struct gcm_aes##bits##_ctx c; \
        gcm_begin_##bits(&c, key, m); \
        gcm_aes##bits##_decrypt(&c, n, m + TEXT_AT, m + TEXT_AT); \
        gcm_aes##bits##_digest(&c, TAG_BYTES, tag); \
    }

CIPHERS_OF(128)
CIPHERS_OF(256)

static int ccm_seal(const uint8_t *key, size_t key_len, uint8_t *m, size_t n)
{
    (key_len == KEY_256_BYTES ? ccm_seal_256 : ccm_seal_128)(key, m, n);
    return 1;
}

static int ccm_open(const uint8_t *key, size_t key_len, uint8_t *m, size_t n)
{
    uint8_t tag[TAG_BYTES];
    (key_len == KEY_256_BYTES ? ccm_open_256 : ccm_open_128)(key, m, n, tag);
    return memeql_sec(tag, m + TAG_AT, TAG_BYTES);
}

static int gcm_seal(const uint8_t *key, size_t key_len, uint8_t *m, size_t n)
{
    (key_len == KEY_256_BYTES ? gcm_seal_256 : gcm_seal_128)(key, m, n);
    return 1;
}

static int gcm_open(const uint8_t *key, size_t key_len, uint8_t *m, size_t n)
{
    uint8_t tag[TAG_BYTES];
    (key_len == KEY_256_BYTES ? gcm_open_256 : gcm_open_128)(key, m, n, tag);
    return memeql_sec(tag, m + TAG_AT, TAG_BYTES);
}

static int sign(const uint8_t *key, uint8_t *m, size_t n)
{
    struct cmac_aes128_ctx c;
    mark_signed(m);
    cmac_aes128_set_key(&c, key);
    cmac_aes128_update(&c, n, m);
    cmac_aes128_digest(&c, TAG_BYTES, m + SIGNATURE_AT);
    return 1;
}

static int derive(const struct derivation *d, uint8_t *keys)
{
    for (int i = 0; i < 4; i++) {
        struct hmac_sha256_ctx c;
        hmac_sha256_set_key(&c, KEY_BYTES, d->material);
        hmac_sha256_update(&c, d->lengths[i], d->strings[i]);
        hmac_sha256_digest(&c, KEY_BYTES, keys + KEY_BYTES * i);
    }
    return 1;
}

static int fold(uint8_t *chain, const uint8_t *message, size_t n)
{
    struct sha512_ctx c;
    sha512_init(&c);
    sha512_update(&c, 64, chain);
    sha512_update(&c, n, message);
    sha512_digest(&c, 64, chain);
    return 1;
}

static int sha256(uint8_t *digest, const uint8_t *message, size_t n)
{
    struct sha256_ctx c;
    sha256_init(&c);
    sha256_update(&c, n, message);
    sha256_digest(&c, 32, digest);
    return 1;
}

static int ctr(const uint8_t *key, const uint8_t *counter_block, uint8_t *text, size_t n)
{
    struct CTR_CTX(struct aes128_ctx, AES_BLOCK_SIZE) c;
    aes128_set_encrypt_key(&c.ctx, key);
    CTR_SET_COUNTER(&c, counter_block);
    CTR_CRYPT(&c, aes128_encrypt, n, text, text);
    return 1;
}

const struct peer peer_nettle = {
    .name = "nettle",
    .prepare = prepare,
    .ccm_seal = ccm_seal,
    .ccm_open = ccm_open,
    .gcm_seal = gcm_seal,
    .gcm_open = gcm_open,
    .sign = sign,
    .derive = derive,
    .fold = fold,
    .sha256 = sha256,
    .ctr = ctr,
};
