/* libtomcrypt 1.18 has no code for AES-NI, carry-less multiplication or SHA extensions. */
#include <tomcrypt.h>
#include <stdio.h>

#include "peer.h"

static int aes = -1, sha256_index = -1;

static int prepare(char *description, size_t room)
{
    aes = register_cipher(&aes_desc);
    sha256_index = register_hash(&sha256_desc);
    snprintf(description, room, "libtomcrypt %s, built in C only", SCRYPT);
    return aes >= 0 && sha256_index >= 0;
}

static int ccm_seal(const uint8_t *key, size_t key_len, uint8_t *m, size_t n)
{
    unsigned long tag_bytes = TAG_BYTES;
    return ccm_memory(aes, key, key_len, NULL, m + NONCE_AT, CCM_NONCE_BYTES, m + AAD_AT, AAD_BYTES, m + TEXT_AT, n, m + TEXT_AT,
                      m + TAG_AT, &tag_bytes, CCM_ENCRYPT) == CRYPT_OK;
}

static int ccm_open(const uint8_t *key, size_t key_len, uint8_t *m, size_t n)
{
    unsigned long tag_bytes = TAG_BYTES;
    return ccm_memory(aes, key, key_len, NULL, m + NONCE_AT, CCM_NONCE_BYTES, m + AAD_AT, AAD_BYTES, m + TEXT_AT, n, m + TEXT_AT,
                      m + TAG_AT, &tag_bytes, CCM_DECRYPT) == CRYPT_OK;
}

static int gcm_seal(const uint8_t *key, size_t key_len, uint8_t *m, size_t n)
{
    unsigned long tag_bytes = TAG_BYTES;
    return gcm_memory(aes, key, key_len, m + NONCE_AT, GCM_NONCE_BYTES, m + AAD_AT, AAD_BYTES, m + TEXT_AT, n, m + TEXT_AT,
                      m + TAG_AT, &tag_bytes, GCM_ENCRYPT) == CRYPT_OK;
}

static int gcm_open(const uint8_t *key, size_t key_len, uint8_t *m, size_t n)
{
    unsigned long tag_bytes = TAG_BYTES;
    return gcm_memory(aes, key, key_len, m + NONCE_AT, GCM_NONCE_BYTES, m + AAD_AT, AAD_BYTES, m + TEXT_AT, n, m + TEXT_AT,
                      m + TAG_AT, &tag_bytes, GCM_DECRYPT) == CRYPT_OK;
}

/* OMAC1, which is CMAC. */
static int sign(const uint8_t *key, uint8_t *m, size_t n)
{
    unsigned long bytes = TAG_BYTES;
    mark_signed(m);
    return omac_memory(aes, key, KEY_BYTES, m, n, m + SIGNATURE_AT, &bytes) == CRYPT_OK;
}

static int derive(const struct derivation *d, uint8_t *keys)
{
    for (int i = 0; i < 4; i++) {
        unsigned long length = KEY_BYTES;
        if (hmac_memory(sha256_index, d->material, KEY_BYTES, d->strings[i], d->lengths[i], keys + KEY_BYTES * i, &length) !=
            CRYPT_OK)
            return 0;
    }
    return 1;
}

static int fold(uint8_t *chain, const uint8_t *message, size_t n)
{
    hash_state c;
    return sha512_init(&c) == CRYPT_OK && sha512_process(&c, chain, 64) == CRYPT_OK && sha512_process(&c, message, n) == CRYPT_OK &&
           sha512_done(&c, chain) == CRYPT_OK;
}

static int sha256(uint8_t *digest, const uint8_t *message, size_t n)
{
    hash_state c;
    return sha256_init(&c) == CRYPT_OK && sha256_process(&c, message, n) == CRYPT_OK && sha256_done(&c, digest) == CRYPT_OK;
}

static int ctr(const uint8_t *key, const uint8_t *counter_block, uint8_t *text, size_t n)
{
    symmetric_CTR c;
    return ctr_start(aes, counter_block, key, KEY_BYTES, 0, CTR_COUNTER_BIG_ENDIAN, &c) == CRYPT_OK &&
           ctr_encrypt(text, text, n, &c) == CRYPT_OK && ctr_done(&c) == CRYPT_OK;
}

const struct peer peer_libtomcrypt = {
    .name = "libtomcrypt",
    .prepare = prepare,
    .ccm_seal = ccm_seal,
    .ccm_open = ccm_open,
    .gcm_seal = gcm_seal,
    .gcm_open = gcm_open,
    .sign = sign,
    .derive = derive,
    .fold = fold,
    .sha256 = sha256,
    .ctr = ctr,
};
