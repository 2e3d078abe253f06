#include "openssl_aead.h"

#include <openssl/core_names.h>
#include <openssl/evp.h>
#include <openssl/params.h>
#include <stdio.h>
#include <stdlib.h>

static const uint8_t nothing[1];

static void need(int ok, const char *what)
{
    if (ok) return;
    fprintf(stderr, "OpenSSL cannot %s\n", what);
    abort();
}

static const EVP_CIPHER *cipher_of(const struct aead *how)
{
    int ccm = how->nonce_len == 11;
    if (how->key_len == 32) return ccm ? EVP_aes_256_ccm() : EVP_aes_256_gcm();
    need(how->key_len == 16, "take a key of another length");
    return ccm ? EVP_aes_128_ccm() : EVP_aes_128_gcm();
}

/* The context up to the text: cipher, lengths of nonce and tag, key, nonce, length of the text (CCM alone), associated data. */
static EVP_CIPHER_CTX *start(const struct aead *how, int sealing, size_t n, const uint8_t *tag)
{
    int ccm = how->nonce_len == 11, out = 0, ok = 1;
    EVP_CIPHER_CTX *c = EVP_CIPHER_CTX_new();
    need(c != NULL, "make a context");
    ok &= EVP_CipherInit_ex(c, cipher_of(how), NULL, NULL, NULL, sealing);
    ok &= EVP_CIPHER_CTX_ctrl(c, EVP_CTRL_AEAD_SET_IVLEN, how->nonce_len, NULL);
    if (ccm || !sealing) ok &= EVP_CIPHER_CTX_ctrl(c, EVP_CTRL_AEAD_SET_TAG, 16, (void *)tag);
    ok &= EVP_CipherInit_ex(c, NULL, NULL, how->key, how->nonce, sealing);
    if (ccm) ok &= EVP_CipherUpdate(c, NULL, &out, NULL, (int)n);
    if (how->aad_len > 0) ok &= EVP_CipherUpdate(c, NULL, &out, how->aad, (int)how->aad_len);
    need(ok == 1, "start");
    return c;
}

void openssl_seal(const struct aead *how, uint8_t *text, size_t n, uint8_t *tag)
{
    EVP_CIPHER_CTX *c = start(how, 1, n, NULL);
    int out = 0, ok = EVP_CipherUpdate(c, text, &out, n > 0 ? text : nothing, (int)n);
    ok &= EVP_CipherFinal_ex(c, text + out, &out);
    ok &= EVP_CIPHER_CTX_ctrl(c, EVP_CTRL_AEAD_GET_TAG, 16, tag);
    need(ok == 1, "seal");
    EVP_CIPHER_CTX_free(c);
}

/* CCM compares the tag in the update, GCM at the end. */
int openssl_open(const struct aead *how, uint8_t *text, size_t n, const uint8_t *tag)
{
    EVP_CIPHER_CTX *c = start(how, 0, n, tag);
    int out = 0, right = EVP_CipherUpdate(c, text, &out, n > 0 ? text : nothing, (int)n) == 1;
    if (how->nonce_len == 12) right = right && EVP_CipherFinal_ex(c, text + out, &out) == 1;
    EVP_CIPHER_CTX_free(c);
    return right;
}

/* One context serves all calls: to fetch the algorithm each time would take longer than the code. */
void openssl_cmac(const uint8_t key[16], const uint8_t *message, size_t n, uint8_t code[16])
{
    static EVP_MAC_CTX *c;
    char cipher[] = "AES-128-CBC";
    const OSSL_PARAM params[] = {OSSL_PARAM_construct_utf8_string(OSSL_MAC_PARAM_CIPHER, cipher, 0), OSSL_PARAM_construct_end()};
    size_t len = 0;
    if (c == NULL) {
        EVP_MAC *mac = EVP_MAC_fetch(NULL, "CMAC", NULL);
        c = EVP_MAC_CTX_new(mac);
        EVP_MAC_free(mac);
        need(c != NULL, "make a context");
    }
    int ok = EVP_MAC_init(c, key, 16, params);
    ok &= EVP_MAC_update(c, n > 0 ? message : nothing, n);
    ok &= EVP_MAC_final(c, code, &len, 16);
    need(ok == 1 && len == 16, "make a code");
}
