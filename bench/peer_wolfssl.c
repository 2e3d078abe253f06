/* wolfSSL, as Debian builds it: in C, with tables, and without its assembly (WOLFSSL_AESNI and USE_INTEL_SPEEDUP are not set). */
#include <wolfssl/options.h>
#include <wolfssl/version.h>
#include <wolfssl/wolfcrypt/aes.h>
#include <wolfssl/wolfcrypt/cmac.h>
#include <wolfssl/wolfcrypt/hmac.h>
#include <wolfssl/wolfcrypt/sha256.h>
#include <wolfssl/wolfcrypt/sha512.h>
#include <stdio.h>
#include <string.h>

#include "peer.h"

#if defined(WOLFSSL_AESNI) || defined(USE_INTEL_SPEEDUP)
#define PATH "built with assembly: all that the processor has"
#else
#define PATH "built in C only"
#endif

static Aes aes;

static int prepare(char *description, size_t room)
{
    snprintf(description, room, "wolfSSL %s, %s", LIBWOLFSSL_VERSION_STRING, PATH);
    return wc_AesInit(&aes, NULL, INVALID_DEVID) == 0;
}

static int ccm_seal(const uint8_t *key, size_t key_len, uint8_t *m, size_t n)
{
    return wc_AesCcmSetKey(&aes, key, (word32)key_len) == 0 &&
           wc_AesCcmEncrypt(&aes, m + TEXT_AT, m + TEXT_AT, (word32)n, m + NONCE_AT, CCM_NONCE_BYTES, m + TAG_AT, TAG_BYTES,
                            m + AAD_AT, AAD_BYTES) == 0;
}

static int ccm_open(const uint8_t *key, size_t key_len, uint8_t *m, size_t n)
{
    return wc_AesCcmSetKey(&aes, key, (word32)key_len) == 0 &&
           wc_AesCcmDecrypt(&aes, m + TEXT_AT, m + TEXT_AT, (word32)n, m + NONCE_AT, CCM_NONCE_BYTES, m + TAG_AT, TAG_BYTES,
                            m + AAD_AT, AAD_BYTES) == 0;
}

static int gcm_seal(const uint8_t *key, size_t key_len, uint8_t *m, size_t n)
{
    return wc_AesGcmSetKey(&aes, key, (word32)key_len) == 0 &&
           wc_AesGcmEncrypt(&aes, m + TEXT_AT, m + TEXT_AT, (word32)n, m + NONCE_AT, GCM_NONCE_BYTES, m + TAG_AT, TAG_BYTES,
                            m + AAD_AT, AAD_BYTES) == 0;
}

static int gcm_open(const uint8_t *key, size_t key_len, uint8_t *m, size_t n)
{
    return wc_AesGcmSetKey(&aes, key, (word32)key_len) == 0 &&
           wc_AesGcmDecrypt(&aes, m + TEXT_AT, m + TEXT_AT, (word32)n, m + NONCE_AT, GCM_NONCE_BYTES, m + TAG_AT, TAG_BYTES,
                            m + AAD_AT, AAD_BYTES) == 0;
}

static int sign(const uint8_t *key, uint8_t *m, size_t n)
{
    word32 bytes = TAG_BYTES;
    mark_signed(m);
    return wc_AesCmacGenerate(m + SIGNATURE_AT, &bytes, m, (word32)n, key, KEY_BYTES) == 0;
}

static int derive(const struct derivation *d, uint8_t *keys)
{
    int r = 0;
    for (int i = 0; i < 4; i++) {
        Hmac c;
        uint8_t code[32];
        r |= wc_HmacInit(&c, NULL, INVALID_DEVID);
        r |= wc_HmacSetKey(&c, WC_SHA256, d->material, KEY_BYTES);
        r |= wc_HmacUpdate(&c, d->strings[i], (word32)d->lengths[i]);
        r |= wc_HmacFinal(&c, code);
        wc_HmacFree(&c);
        memcpy(keys + KEY_BYTES * i, code, KEY_BYTES);
    }
    return r == 0;
}

static int fold(uint8_t *chain, const uint8_t *message, size_t n)
{
    wc_Sha512 c;
    int r = wc_InitSha512(&c);
    r |= wc_Sha512Update(&c, chain, 64);
    r |= wc_Sha512Update(&c, message, (word32)n);
    r |= wc_Sha512Final(&c, chain);
    wc_Sha512Free(&c);
    return r == 0;
}

static int sha256(uint8_t *digest, const uint8_t *message, size_t n)
{
    wc_Sha256 c;
    int r = wc_InitSha256(&c);
    r |= wc_Sha256Update(&c, message, (word32)n);
    r |= wc_Sha256Final(&c, digest);
    wc_Sha256Free(&c);
    return r == 0;
}

static int ctr(const uint8_t *key, const uint8_t *counter_block, uint8_t *text, size_t n)
{
    return wc_AesSetKeyDirect(&aes, key, KEY_BYTES, counter_block, AES_ENCRYPTION) == 0 &&
           wc_AesCtrEncrypt(&aes, text, text, (word32)n) == 0;
}

const struct peer peer_wolfssl = {
    .name = "wolfSSL",
    .prepare = prepare,
    .ccm_seal = ccm_seal,
    .ccm_open = ccm_open,
    .gcm_seal = gcm_seal,
    .gcm_open = gcm_open,
    .sign = sign,
    .derive = derive,
    .fold = fold,
    .sha256 = sha256,
    .ctr = ctr,
};
