/*
 * The primitives against OpenSSL, with keys of both sizes: every length up to 300 one by one, then random ones. Damaged tags, texts and
 * associated data are refused and change nothing; buffers of a wrong length get 40 and change nothing.
 *
 * Usage: primitives_test [SEED]
 */
#include <openssl/core_names.h>
#include <openssl/evp.h>
#include <openssl/hmac.h>
#include <openssl/kdf.h>
#include <openssl/params.h>
#include <string.h>

#include "check.h"
#include "openssl_aead.h"
#include "primitives.h"

enum { LONGEST = 20000, ROUNDS = 400 };

/* ---- hashes, codes, derivation */

static void hashes(size_t n)
{
    static uint8_t message[LONGEST];
    uint8_t ours[64], theirs[64], before[65], place[65];
    fill(message, n);
    expect(primitives_sha256(message, n, ours, 32) == 0 && EVP_Digest(message, n, theirs, NULL, EVP_sha256(), NULL) == 1 &&
               memcmp(ours, theirs, 32) == 0, "SHA-256", n);
    expect(primitives_sha512(message, n, ours, 64) == 0 && EVP_Digest(message, n, theirs, NULL, EVP_sha512(), NULL) == 1 &&
               memcmp(ours, theirs, 64) == 0, "SHA-512", n);
    fill(before, 65);
    memcpy(place, before, 65);
    expect(primitives_sha256(message, n, place, 31) == 40 && primitives_sha512(message, n, place, 65) == 40 &&
               memcmp(place, before, 65) == 0, "a digest of the wrong length", n);
}

static void codes(size_t key_len, size_t n)
{
    static uint8_t key[LONGEST], message[LONGEST];
    uint8_t ours[32], theirs[32];
    unsigned int len = 32;
    fill(key, key_len);
    fill(message, n);
    expect(primitives_hmac(key, key_len, message, n, ours, 32) == 0 &&
               HMAC(EVP_sha256(), key, (int)key_len, message, n, theirs, &len) != NULL && memcmp(ours, theirs, 32) == 0,
           "HMAC-SHA-256", n);
}

/* CMAC of a message in two pieces: the cut at a place of its own, and where it may matter. */
static void cmac_codes(size_t n)
{
    static uint8_t message[LONGEST];
    uint8_t key[16], ours[17], theirs[16], before[17];
    size_t cuts[] = {0, n, n / 2, below(n + 1), n < 16 ? n : 16, n < 17 ? n : n - 17};
    fill(key, 16);
    fill(message, n);
    openssl_cmac(key, message, n, theirs);
    for (size_t i = 0; i < COUNT(cuts); i++)
        expect(primitives_cmac(key, 16, message, cuts[i], message + cuts[i], n - cuts[i], ours, 16) == 0 &&
                   memcmp(ours, theirs, 16) == 0, "CMAC", n);
    fill(before, 17);
    memcpy(ours, before, 17);
    expect(primitives_cmac(key, 15, message, n, message, 0, ours, 16) == 40 &&
               primitives_cmac(key, 16, message, n, message, 0, ours, 17) == 40 && memcmp(ours, before, 17) == 0,
           "CMAC with a wrong length", n);
}

static int openssl_kdf(const uint8_t *key, size_t key_len, uint8_t *label, size_t label_len, uint8_t *context,
                       size_t context_len, uint8_t *out, size_t out_len)
{
    EVP_KDF *kdf = EVP_KDF_fetch(NULL, "KBKDF", NULL);
    EVP_KDF_CTX *c = EVP_KDF_CTX_new(kdf);
    OSSL_PARAM params[] = {
        OSSL_PARAM_construct_utf8_string(OSSL_KDF_PARAM_MODE, "counter", 0),
        OSSL_PARAM_construct_utf8_string(OSSL_KDF_PARAM_MAC, "HMAC", 0),
        OSSL_PARAM_construct_utf8_string(OSSL_KDF_PARAM_DIGEST, "SHA256", 0),
        OSSL_PARAM_construct_octet_string(OSSL_KDF_PARAM_KEY, (void *)key, key_len),
        OSSL_PARAM_construct_octet_string(OSSL_KDF_PARAM_SALT, label, label_len),
        OSSL_PARAM_construct_octet_string(OSSL_KDF_PARAM_INFO, context, context_len),
        OSSL_PARAM_construct_end(),
    };
    int ok = c != NULL && EVP_KDF_derive(c, out, out_len, params) == 1;
    EVP_KDF_CTX_free(c);
    EVP_KDF_free(kdf);
    return ok;
}

/* A derived key of 16 bytes, and one of 32: the closing length differs, so one is not the beginning of the other. */
static void derivations(size_t key_len, size_t label_len, size_t context_len)
{
    uint8_t key[200], label[200], context[200], ours[16], theirs[32], wide[33], before[33];
    fill(key, key_len);
    fill(label, label_len);
    fill(context, context_len);
    expect(primitives_kdf(key, key_len, label, label_len, context, context_len, ours, 16) == 0 &&
               openssl_kdf(key, key_len, label, label_len, context, context_len, theirs, 16) && memcmp(ours, theirs, 16) == 0,
           "SP 800-108", context_len);
    expect(primitives_kdf_32(key, key_len, label, label_len, context, context_len, wide, 32) == 0 &&
               openssl_kdf(key, key_len, label, label_len, context, context_len, theirs, 32) && memcmp(wide, theirs, 32) == 0 &&
               memcmp(wide, ours, 16) != 0, "SP 800-108, 32 bytes", context_len);
    fill(before, 33);
    memcpy(wide, before, 33);
    expect(primitives_kdf(key, key_len, label, label_len, context, context_len, wide, 32) == 40 &&
               primitives_kdf_32(key, key_len, label, label_len, context, context_len, wide, 33) == 40 &&
               primitives_kdf_32(key, key_len, label, label_len, context, context_len, wide, 16) == 40 &&
               memcmp(wide, before, 33) == 0, "a derived key of the wrong length", context_len);
}

/* ---- counter mode */

static void counter_mode(size_t key_len, size_t n)
{
    static uint8_t ours[LONGEST], theirs[LONGEST];
    uint8_t key[32], counter[16];
    uint16_t first = (uint16_t)number();
    fill(key, 32);
    fill(counter, 12);
    counter[12] = counter[13] = 0;
    counter[14] = (uint8_t)(first >> 8);
    counter[15] = (uint8_t)first;
    fill(ours, n);
    memcpy(theirs, ours, n);
    EVP_CIPHER_CTX *c = EVP_CIPHER_CTX_new();
    int out = 0, ok = EVP_EncryptInit_ex(c, key_len == 32 ? EVP_aes_256_ctr() : EVP_aes_128_ctr(), NULL, key, counter);
    if (n > 0) ok &= EVP_EncryptUpdate(c, theirs, &out, theirs, (int)n);
    EVP_CIPHER_CTX_free(c);
    expect(ok == 1 && primitives_ctr(key, key_len, counter, 12, first, ours, n) == 0 && memcmp(ours, theirs, n) == 0, "counter mode", n);
}

/* ---- authenticated encryption: CCM where the nonce has 11 bytes, GCM where it has 12 */

static uint32_t seal(const struct aead *how, uint8_t *text, size_t n, uint8_t *tag, size_t tag_len)
{
    return (how->nonce_len == 11 ? primitives_ccm_seal : primitives_gcm_seal)(how->key, how->key_len, how->nonce,
                                                                             (size_t)how->nonce_len,
                                                                             how->aad, how->aad_len, text, n, tag, tag_len);
}

static uint32_t unseal(const struct aead *how, const uint8_t *tag, size_t tag_len, uint8_t *text, size_t n, uint32_t *right)
{
    return (how->nonce_len == 11 ? primitives_ccm_open : primitives_gcm_open)(how->key, how->key_len, how->nonce,
                                                                             (size_t)how->nonce_len,
                                                                             how->aad, how->aad_len, tag, tag_len, text, n, right);
}

/* The text is sealed; with this tag and this data it is not opened, and stays as it is. */
static void refused(const struct aead *how, const uint8_t *tag, const uint8_t *sealed, size_t n, const char *what)
{
    static uint8_t text[LONGEST];
    uint32_t right = 7;
    memcpy(text, sealed, n);
    expect(unseal(how, tag, 16, text, n, &right) == 0 && right == 0 && memcmp(text, sealed, n) == 0, what, n);
}

/* A bit of the tag, of the text or of the associated data is changed. */
static void damaged(const struct aead *how, const uint8_t *tag, uint8_t *sealed, size_t n)
{
    uint8_t wrong[16], aad[100];
    struct aead other = *how;
    memcpy(wrong, tag, 16);
    wrong[below(16)] ^= (uint8_t)(1 << below(8));
    refused(how, wrong, sealed, n, "a wrong tag");
    if (n > 0) {
        size_t at = below(n);
        sealed[at] ^= 8;
        refused(how, tag, sealed, n, "a changed text");
        sealed[at] ^= 8;
    }
    if (how->aad_len == 0) return;
    memcpy(aad, how->aad, how->aad_len);
    aad[below(how->aad_len)] ^= 1;
    other.aad = aad;
    refused(&other, tag, sealed, n, "changed associated data");
}

static void wrong_lengths(const struct aead *how, const uint8_t *tag, uint8_t *text, size_t n)
{
    static uint8_t sealed[LONGEST];
    uint8_t place[16];
    uint32_t right = 7;
    struct aead other = *how, keys = *how;
    const size_t sizes[] = {0, 15, 17, 24, 31};
    other.nonce_len = how->nonce_len == 11 ? 10 : 13;
    memcpy(sealed, text, n);
    memcpy(place, tag, 16);
    expect(seal(how, text, n, place, 15) == 40 && seal(&other, text, n, place, 16) == 40, "sealing with a wrong length", n);
    expect(unseal(how, tag, 15, text, n, &right) == 40 && unseal(&other, tag, 16, text, n, &right) == 40,
           "opening with a wrong length", n);
    for (size_t i = 0; i < COUNT(sizes); i++) {
        keys.key_len = sizes[i];
        expect(seal(&keys, text, n, place, 16) == 40 && unseal(&keys, tag, 16, text, n, &right) == 40, "a key of no size", sizes[i]);
    }
    expect(right == 7 && memcmp(text, sealed, n) == 0 && memcmp(place, tag, 16) == 0, "nothing changed", n);
}

static void sealing(size_t key_len, int nonce_len, size_t aad_len, size_t n)
{
    static uint8_t plain[LONGEST], ours[LONGEST], theirs[LONGEST];
    uint8_t key[32], nonce[13], aad[100], tag[16], their_tag[16];
    struct aead how = {key, key_len, nonce, nonce_len, aad, aad_len};
    const char *name = nonce_len == 11 ? "CCM" : "GCM";
    uint32_t right = 7;
    fill(key, 32);
    fill(nonce, 13);
    fill(aad, aad_len);
    fill(plain, n);
    memcpy(ours, plain, n);
    memcpy(theirs, plain, n);
    expect(seal(&how, ours, n, tag, 16) == 0, name, n);
    openssl_seal(&how, theirs, n, their_tag);
    expect(memcmp(ours, theirs, n) == 0 && memcmp(tag, their_tag, 16) == 0, name, n);
    damaged(&how, tag, ours, n);
    wrong_lengths(&how, tag, ours, n);
    expect(unseal(&how, tag, 16, ours, n, &right) == 0 && right == 1 && memcmp(ours, plain, n) == 0, "opening", n);
}

static void one_length(size_t n)
{
    hashes(n);
    codes(n % 200, n);
    cmac_codes(n);
    derivations(1 + n % 150, 1 + n % 17, 1 + n % 65);
    for (size_t key_len = 16; key_len <= 32; key_len += 16) {
        counter_mode(key_len, n);
        sealing(key_len, 11, 32, n);
        sealing(key_len, 12, n % 64, n);
    }
}

int main(int argc, char **argv)
{
    begin(argc, argv);
    for (size_t n = 0; n <= 300; n++) one_length(n);
    for (unsigned long round = 1; round <= ROUNDS; round++) {
        begin_case(round);
        one_length(below(LONGEST));
    }
    return finish();
}
