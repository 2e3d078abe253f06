/* OpenSSL 3. It reads which instructions it may use from OPENSSL_ia32cap as it is loaded. */
#include <openssl/core_names.h>
#include <openssl/crypto.h>
#include <openssl/evp.h>
#include <openssl/params.h>
#include <stdio.h>
#include <string.h>

#include "peer.h"

/* By key size: of 16 bytes, of 32. */
enum { SIZES_OF_KEYS = 2 };
static EVP_CIPHER_CTX *ccm_sealing[SIZES_OF_KEYS], *ccm_opening[SIZES_OF_KEYS], *gcms[SIZES_OF_KEYS], *counter;
static EVP_MAC_CTX *hmac, *cmac;
static EVP_MD_CTX *hash;
static EVP_MD *sha256_md, *sha512_md;

/* A context for a cipher, with all but the key and the nonce. */
static EVP_CIPHER_CTX *cipher_context(const char *name, int encrypt, size_t nonce_bytes)
{
    EVP_CIPHER *cipher = EVP_CIPHER_fetch(NULL, name, NULL);
    EVP_CIPHER_CTX *c = EVP_CIPHER_CTX_new();
    if (cipher == NULL || c == NULL || EVP_CipherInit_ex2(c, cipher, NULL, NULL, encrypt, NULL) != 1) return NULL;
    if (nonce_bytes != 0 && EVP_CIPHER_CTX_ctrl(c, EVP_CTRL_AEAD_SET_IVLEN, (int)nonce_bytes, NULL) != 1) return NULL;
    return c;
}

/* A context for a code, with the digest or cipher that it is made with. */
static EVP_MAC_CTX *mac_context(const char *name, const char *parameter, char *value)
{
    OSSL_PARAM params[] = {OSSL_PARAM_construct_utf8_string(parameter, value, 0), OSSL_PARAM_construct_end()};
    EVP_MAC *mac = EVP_MAC_fetch(NULL, name, NULL);
    EVP_MAC_CTX *c = mac == NULL ? NULL : EVP_MAC_CTX_new(mac);
    return c != NULL && EVP_MAC_CTX_set_params(c, params) == 1 ? c : NULL;
}

static int prepare_ciphers(int size, const char *ccm, const char *gcm)
{
    ccm_sealing[size] = cipher_context(ccm, 1, CCM_NONCE_BYTES);
    ccm_opening[size] = cipher_context(ccm, 0, CCM_NONCE_BYTES);
    gcms[size] = cipher_context(gcm, 1, GCM_NONCE_BYTES);
    return ccm_sealing[size] != NULL && ccm_opening[size] != NULL && gcms[size] != NULL &&
           EVP_CIPHER_CTX_ctrl(ccm_sealing[size], EVP_CTRL_AEAD_SET_TAG, TAG_BYTES, NULL) == 1;
}

static int prepare(char *description, size_t room)
{
    static char digest[] = "SHA2-256", cipher[] = "AES-128-CBC";
    snprintf(description, room, "OpenSSL %s, %s", OpenSSL_version(OPENSSL_VERSION_STRING), OPENSSL_info(OPENSSL_INFO_CPU_SETTINGS));
    counter = cipher_context("AES-128-CTR", 1, 0);
    hmac = mac_context("HMAC", OSSL_MAC_PARAM_DIGEST, digest);
    cmac = mac_context("CMAC", OSSL_MAC_PARAM_CIPHER, cipher);
    hash = EVP_MD_CTX_new();
    sha256_md = EVP_MD_fetch(NULL, "SHA2-256", NULL);
    sha512_md = EVP_MD_fetch(NULL, "SHA2-512", NULL);
    return prepare_ciphers(0, "AES-128-CCM", "AES-128-GCM") && prepare_ciphers(1, "AES-256-CCM", "AES-256-GCM") && counter != NULL &&
           hmac != NULL && cmac != NULL && hash != NULL && sha256_md != NULL && sha512_md != NULL;
}

static int ccm_seal(const uint8_t *key, size_t key_len, uint8_t *m, size_t n)
{
    EVP_CIPHER_CTX *c = ccm_sealing[key_len == KEY_256_BYTES];
    int out;
    return EVP_EncryptInit_ex2(c, NULL, key, m + NONCE_AT, NULL) == 1 && EVP_EncryptUpdate(c, NULL, &out, NULL, (int)n) == 1 &&
           EVP_EncryptUpdate(c, NULL, &out, m + AAD_AT, AAD_BYTES) == 1 &&
           EVP_EncryptUpdate(c, m + TEXT_AT, &out, m + TEXT_AT, (int)n) == 1 &&
           EVP_CIPHER_CTX_ctrl(c, EVP_CTRL_AEAD_GET_TAG, TAG_BYTES, m + TAG_AT) == 1;
}

static int ccm_open(const uint8_t *key, size_t key_len, uint8_t *m, size_t n)
{
    EVP_CIPHER_CTX *c = ccm_opening[key_len == KEY_256_BYTES];
    int out;
    return EVP_CIPHER_CTX_ctrl(c, EVP_CTRL_AEAD_SET_TAG, TAG_BYTES, m + TAG_AT) == 1 &&
           EVP_DecryptInit_ex2(c, NULL, key, m + NONCE_AT, NULL) == 1 && EVP_DecryptUpdate(c, NULL, &out, NULL, (int)n) == 1 &&
           EVP_DecryptUpdate(c, NULL, &out, m + AAD_AT, AAD_BYTES) == 1 &&
           EVP_DecryptUpdate(c, m + TEXT_AT, &out, m + TEXT_AT, (int)n) == 1;
}

static int gcm_seal(const uint8_t *key, size_t key_len, uint8_t *m, size_t n)
{
    EVP_CIPHER_CTX *c = gcms[key_len == KEY_256_BYTES];
    int out;
    return EVP_EncryptInit_ex2(c, NULL, key, m + NONCE_AT, NULL) == 1 &&
           EVP_EncryptUpdate(c, NULL, &out, m + AAD_AT, AAD_BYTES) == 1 &&
           EVP_EncryptUpdate(c, m + TEXT_AT, &out, m + TEXT_AT, (int)n) == 1 && EVP_EncryptFinal_ex(c, NULL, &out) == 1 &&
           EVP_CIPHER_CTX_ctrl(c, EVP_CTRL_AEAD_GET_TAG, TAG_BYTES, m + TAG_AT) == 1;
}

static int gcm_open(const uint8_t *key, size_t key_len, uint8_t *m, size_t n)
{
    EVP_CIPHER_CTX *c = gcms[key_len == KEY_256_BYTES];
    int out;
    return EVP_DecryptInit_ex2(c, NULL, key, m + NONCE_AT, NULL) == 1 &&
           EVP_CIPHER_CTX_ctrl(c, EVP_CTRL_AEAD_SET_TAG, TAG_BYTES, m + TAG_AT) == 1 &&
           EVP_DecryptUpdate(c, NULL, &out, m + AAD_AT, AAD_BYTES) == 1 &&
           EVP_DecryptUpdate(c, m + TEXT_AT, &out, m + TEXT_AT, (int)n) == 1 && EVP_DecryptFinal_ex(c, NULL, &out) == 1;
}

static int sign(const uint8_t *key, uint8_t *m, size_t n)
{
    size_t out;
    mark_signed(m);
    return EVP_MAC_init(cmac, key, KEY_BYTES, NULL) == 1 && EVP_MAC_update(cmac, m, n) == 1 &&
           EVP_MAC_final(cmac, m + SIGNATURE_AT, &out, TAG_BYTES) == 1;
}

static int derive(const struct derivation *d, uint8_t *keys)
{
    for (int i = 0; i < 4; i++) {
        uint8_t code[32];
        size_t out;
        if (EVP_MAC_init(hmac, d->material, KEY_BYTES, NULL) != 1 || EVP_MAC_update(hmac, d->strings[i], d->lengths[i]) != 1 ||
            EVP_MAC_final(hmac, code, &out, sizeof code) != 1)
            return 0;
        memcpy(keys + KEY_BYTES * i, code, KEY_BYTES);
    }
    return 1;
}

static int fold(uint8_t *chain, const uint8_t *message, size_t n)
{
    return EVP_DigestInit_ex2(hash, sha512_md, NULL) == 1 && EVP_DigestUpdate(hash, chain, 64) == 1 &&
           EVP_DigestUpdate(hash, message, n) == 1 && EVP_DigestFinal_ex(hash, chain, NULL) == 1;
}

static int sha256(uint8_t *digest, const uint8_t *message, size_t n)
{
    return EVP_DigestInit_ex2(hash, sha256_md, NULL) == 1 && EVP_DigestUpdate(hash, message, n) == 1 &&
           EVP_DigestFinal_ex(hash, digest, NULL) == 1;
}

static int ctr(const uint8_t *key, const uint8_t *counter_block, uint8_t *text, size_t n)
{
    int out;
    return EVP_EncryptInit_ex2(counter, NULL, key, counter_block, NULL) == 1 &&
           EVP_EncryptUpdate(counter, text, &out, text, (int)n) == 1;
}

const struct peer peer_openssl = {
    .name = "OpenSSL",
    .prepare = prepare,
    .ccm_seal = ccm_seal,
    .ccm_open = ccm_open,
    .gcm_seal = gcm_seal,
    .gcm_open = gcm_open,
    .sign = sign,
    .derive = derive,
    .fold = fold,
    .sha256 = sha256,
    .ctr = ctr,
};
