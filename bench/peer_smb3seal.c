/* Ours: the functions of smb3seal.h; SHA-256 and counter mode from the exports for tests. */
#include <stdio.h>
#include <string.h>

#include "../include/smb3seal.h"
#include "../tests/primitives.h"
#include "peer.h"

enum { SESSION_AT = 44 };

static int prepare(char *description, size_t room)
{
    snprintf(description, room, "portable code, no extension");
    return 1;
}

/* A number of the header: all messages of the benchmark carry the ones to seal with. */
static uint64_t number_at(const uint8_t *p)
{
    uint64_t x;
    memcpy(&x, p, 8);
    return x;
}

/* The cipher of this mode with keys of this size. */
static uint16_t sized(uint16_t cipher, size_t key_len)
{
    return key_len == KEY_256_BYTES ? (uint16_t)(cipher + SMB3SEAL_CIPHER_AES_256_CCM - SMB3SEAL_CIPHER_AES_128_CCM) : cipher;
}

static int seal(uint16_t cipher, const uint8_t *key, size_t key_len, uint8_t *m, size_t n)
{
    uint64_t counter = number_at(m + NONCE_AT), headers;
    return smb3seal_seal(SMB3SEAL_CLIENT, SMB3SEAL_DIALECT_311, 1, sized(cipher, key_len), key, key_len, number_at(m + SESSION_AT),
                         &counter, m, TEXT_AT + n, &headers) == SMB3SEAL_DONE;
}

static int open(uint16_t cipher, const uint8_t *key, size_t key_len, uint8_t *m, size_t n)
{
    uint64_t headers;
    return smb3seal_open(SMB3SEAL_SERVER, SMB3SEAL_DIALECT_311, 1, sized(cipher, key_len), key, key_len, number_at(m + SESSION_AT), m,
                         TEXT_AT + n, &headers) == SMB3SEAL_DONE;
}

static int ccm_seal(const uint8_t *key, size_t key_len, uint8_t *m, size_t n)
{
    return seal(SMB3SEAL_CIPHER_AES_128_CCM, key, key_len, m, n);
}

static int ccm_open(const uint8_t *key, size_t key_len, uint8_t *m, size_t n)
{
    return open(SMB3SEAL_CIPHER_AES_128_CCM, key, key_len, m, n);
}

static int gcm_seal(const uint8_t *key, size_t key_len, uint8_t *m, size_t n)
{
    return seal(SMB3SEAL_CIPHER_AES_128_GCM, key, key_len, m, n);
}

static int gcm_open(const uint8_t *key, size_t key_len, uint8_t *m, size_t n)
{
    return open(SMB3SEAL_CIPHER_AES_128_GCM, key, key_len, m, n);
}

static int sign(const uint8_t *key, uint8_t *m, size_t n)
{
    return smb3seal_sign(key, KEY_BYTES, m, n) == SMB3SEAL_DONE;
}

static int derive(const struct derivation *d, uint8_t *keys)
{
    return smb3seal_derive(SMB3SEAL_DIALECT_311, SMB3SEAL_CIPHER_AES_128_GCM, d->material, 16, d->chain, SMB3SEAL_CHAIN_BYTES, keys,
                           SMB3SEAL_KEYS_BYTES) == SMB3SEAL_DONE;
}

static int fold(uint8_t *chain, const uint8_t *message, size_t n)
{
    return smb3seal_fold(chain, SMB3SEAL_CHAIN_BYTES, message, n) == SMB3SEAL_DONE;
}

static int sha256(uint8_t *digest, const uint8_t *message, size_t n)
{
    return primitives_sha256(message, n, digest, 32) == 0;
}

static int ctr(const uint8_t *key, const uint8_t *counter_block, uint8_t *text, size_t n)
{
    uint16_t first = (uint16_t)(counter_block[14] << 8 | counter_block[15]);
    return primitives_ctr(key, KEY_BYTES, counter_block, 12, first, text, n) == 0;
}

const struct peer peer_smb3seal = {
    .name = "smb3seal",
    .prepare = prepare,
    .ccm_seal = ccm_seal,
    .ccm_open = ccm_open,
    .gcm_seal = gcm_seal,
    .gcm_open = gcm_open,
    .sign = sign,
    .derive = derive,
    .fold = fold,
    .sha256 = sha256,
    .ctr = ctr,
};
