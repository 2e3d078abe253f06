/*
 * mbedTLS. For each key it asks mbedtls_aesni_has_support whether there are AES-NI and PCLMULQDQ. This program answers in the
 * library's place: with no where MBEDTLS_SOFTWARE is set, else by what the processor has. It has no code for SHA extensions.
 */
#include <cpuid.h>
#include <mbedtls/aes.h>
#include <mbedtls/aesni.h>
#include <mbedtls/ccm.h>
#include <mbedtls/cmac.h>
#include <mbedtls/gcm.h>
#include <mbedtls/md.h>
#include <mbedtls/sha256.h>
#include <mbedtls/sha512.h>
#include <mbedtls/version.h>
#include <stdio.h>
#include <stdlib.h>
#include <string.h>

#include "peer.h"

static unsigned int extensions, questions;
static mbedtls_aes_context aes;
static mbedtls_ccm_context ccm;
static mbedtls_gcm_context gcm;
static mbedtls_md_context_t hmac;
static mbedtls_cipher_context_t cmac;

int mbedtls_aesni_has_support(unsigned int what)
{
    questions++;
    return (extensions & what) != 0;
}

static unsigned int extensions_of_processor(void)
{
    unsigned int a, b, c = 0, d;
    __get_cpuid(1, &a, &b, &c, &d);
    return c & (MBEDTLS_AESNI_AES | MBEDTLS_AESNI_CLMUL);
}

static int prepare(char *description, size_t room)
{
    const uint8_t key[KEY_BYTES] = {0};
    char version[9];
    extensions = getenv("MBEDTLS_SOFTWARE") != NULL ? 0 : extensions_of_processor();
    mbedtls_aes_init(&aes);
    mbedtls_ccm_init(&ccm);
    mbedtls_gcm_init(&gcm);
    mbedtls_md_init(&hmac);
    mbedtls_cipher_init(&cmac);
    mbedtls_version_get_string(version);
    snprintf(description, room, "mbedTLS %s, AES-NI %s, PCLMULQDQ %s", version, extensions & MBEDTLS_AESNI_AES ? "yes" : "no",
             extensions & MBEDTLS_AESNI_CLMUL ? "yes" : "no");
    /* The library must have asked: otherwise the answer above means nothing. */
    return mbedtls_md_setup(&hmac, mbedtls_md_info_from_type(MBEDTLS_MD_SHA256), 1) == 0 &&
           mbedtls_cipher_setup(&cmac, mbedtls_cipher_info_from_type(MBEDTLS_CIPHER_AES_128_ECB)) == 0 &&
           mbedtls_cipher_cmac_starts(&cmac, key, 128) == 0 &&
           mbedtls_aes_setkey_enc(&aes, key, 128) == 0 && questions > 0;
}

static int ccm_seal(const uint8_t *key, size_t key_len, uint8_t *m, size_t n)
{
    return mbedtls_ccm_setkey(&ccm, MBEDTLS_CIPHER_ID_AES, key, (unsigned int)(8 * key_len)) == 0 &&
           mbedtls_ccm_encrypt_and_tag(&ccm, n, m + NONCE_AT, CCM_NONCE_BYTES, m + AAD_AT, AAD_BYTES, m + TEXT_AT, m + TEXT_AT,
                                       m + TAG_AT, TAG_BYTES) == 0;
}

static int ccm_open(const uint8_t *key, size_t key_len, uint8_t *m, size_t n)
{
    return mbedtls_ccm_setkey(&ccm, MBEDTLS_CIPHER_ID_AES, key, (unsigned int)(8 * key_len)) == 0 &&
           mbedtls_ccm_auth_decrypt(&ccm, n, m + NONCE_AT, CCM_NONCE_BYTES, m + AAD_AT, AAD_BYTES, m + TEXT_AT, m + TEXT_AT,
                                    m + TAG_AT, TAG_BYTES) == 0;
}

static int gcm_seal(const uint8_t *key, size_t key_len, uint8_t *m, size_t n)
{
    return mbedtls_gcm_setkey(&gcm, MBEDTLS_CIPHER_ID_AES, key, (unsigned int)(8 * key_len)) == 0 &&
           mbedtls_gcm_crypt_and_tag(&gcm, MBEDTLS_GCM_ENCRYPT, n, m + NONCE_AT, GCM_NONCE_BYTES, m + AAD_AT, AAD_BYTES,
                                     m + TEXT_AT, m + TEXT_AT, TAG_BYTES, m + TAG_AT) == 0;
}

static int gcm_open(const uint8_t *key, size_t key_len, uint8_t *m, size_t n)
{
    return mbedtls_gcm_setkey(&gcm, MBEDTLS_CIPHER_ID_AES, key, (unsigned int)(8 * key_len)) == 0 &&
           mbedtls_gcm_auth_decrypt(&gcm, n, m + NONCE_AT, GCM_NONCE_BYTES, m + AAD_AT, AAD_BYTES, m + TAG_AT, TAG_BYTES,
                                    m + TEXT_AT, m + TEXT_AT) == 0;
}

/* As mbedtls_cipher_cmac does it, with the context that it would make and free in each call kept. */
static int sign(const uint8_t *key, uint8_t *m, size_t n)
{
    mark_signed(m);
    return mbedtls_cipher_setkey(&cmac, key, 128, MBEDTLS_ENCRYPT) == 0 && mbedtls_cipher_cmac_reset(&cmac) == 0 &&
           mbedtls_cipher_cmac_update(&cmac, m, n) == 0 && mbedtls_cipher_cmac_finish(&cmac, m + SIGNATURE_AT) == 0;
}

static int derive(const struct derivation *d, uint8_t *keys)
{
    for (int i = 0; i < 4; i++) {
        uint8_t code[32];
        if (mbedtls_md_hmac_starts(&hmac, d->material, KEY_BYTES) != 0 ||
            mbedtls_md_hmac_update(&hmac, d->strings[i], d->lengths[i]) != 0 || mbedtls_md_hmac_finish(&hmac, code) != 0)
            return 0;
        memcpy(keys + KEY_BYTES * i, code, KEY_BYTES);
    }
    return 1;
}

static int fold(uint8_t *chain, const uint8_t *message, size_t n)
{
    mbedtls_sha512_context c;
    mbedtls_sha512_init(&c);
    int r = mbedtls_sha512_starts_ret(&c, 0);
    r |= mbedtls_sha512_update_ret(&c, chain, 64);
    r |= mbedtls_sha512_update_ret(&c, message, n);
    r |= mbedtls_sha512_finish_ret(&c, chain);
    mbedtls_sha512_free(&c);
    return r == 0;
}

static int sha256(uint8_t *digest, const uint8_t *message, size_t n)
{
    return mbedtls_sha256_ret(message, n, digest, 0) == 0;
}

static int ctr(const uint8_t *key, const uint8_t *counter_block, uint8_t *text, size_t n)
{
    uint8_t counter[16], stream[16];
    size_t offset = 0;
    memcpy(counter, counter_block, 16);
    return mbedtls_aes_setkey_enc(&aes, key, 128) == 0 &&
           mbedtls_aes_crypt_ctr(&aes, n, &offset, counter, stream, text, text) == 0;
}

const struct peer peer_mbedtls = {
    .name = "mbedTLS",
    .prepare = prepare,
    .ccm_seal = ccm_seal,
    .ccm_open = ccm_open,
    .gcm_seal = gcm_seal,
    .gcm_open = gcm_open,
    .sign = sign,
    .derive = derive,
    .fold = fold,
    .sha256 = sha256,
    .ctr = ctr,
};
