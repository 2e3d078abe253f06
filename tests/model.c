#include "model.h"

#include <openssl/evp.h>
#include <openssl/hmac.h>
#include <stdlib.h>
#include <string.h>

#include "openssl_aead.h"

enum { TRANSFORM = 52, HEADER = 64, LIMIT = 8454144, MATERIAL_LIMIT = 65536, RELATED = 4, SIGNED = 8, CLIENT = 0, SERVER = 1 };

static uint64_t little_endian(const uint8_t *at, size_t n)
{
    uint64_t value = 0;
    while (n-- > 0) value = value << 8 | at[n];
    return value;
}

static void put_little_endian(uint8_t *at, uint64_t value, size_t n)
{
    for (size_t i = 0; i < n; i++, value >>= 8) at[i] = (uint8_t)value;
}

/* ---- keys */

/* A label or a context; the final zero byte of the C string is part of it. */
struct text {
    const char *at;
    size_t len;
};
#define TEXT(s) {s, sizeof s}

static const struct text labels_311[] = {TEXT("SMBSigningKey"), TEXT("SMBAppKey"), TEXT("SMBC2SCipherKey"), TEXT("SMBS2CCipherKey")};
static const struct text labels_30[] = {TEXT("SMB2AESCMAC"), TEXT("SMB2APP"), TEXT("SMB2AESCCM"), TEXT("SMB2AESCCM")};
static const struct text contexts_30[] = {TEXT("SmbSign"), TEXT("SmbRpc"), TEXT("ServerIn "), TEXT("ServerOut")};

static size_t append(uint8_t *to, size_t at, const void *from, size_t n)
{
    memcpy(to + at, from, n);
    return at + n;
}

/* SP 800-108 in counter mode, of which one round is enough. The length in bits, 128 or 256, stands at the end, high byte first. */
static void derive_key(struct text key, struct text label, struct text context, uint8_t *derived, size_t derived_len)
{
    uint8_t input[128], code[32];
    unsigned int code_len = sizeof code;
    size_t n = append(input, 0, "\0\0\0\1", 4);
    n = append(input, n, label.at, label.len);
    n = append(input, n, "\0", 1);
    n = append(input, n, context.at, context.len);
    n = append(input, n, derived_len == 32 ? "\0\0\1\0" : "\0\0\0\x80", 4);
    if (HMAC(EVP_sha256(), key.at, (int)key.len, input, n, code, &code_len) == NULL) abort();
    memcpy(derived, code, derived_len);
}

static int known(uint16_t dialect)
{
    return dialect == 0x0300 || dialect == 0x0302 || dialect == 0x0311;
}

int model_wide(uint16_t dialect, uint16_t cipher)
{
    return dialect == 0x0311 && (cipher == 3 || cipher == 4);
}

/* Where 32 bytes long, the two cipher keys come from the whole material, and not from the session key. */
uint32_t model_derive(uint16_t dialect, uint16_t cipher, const uint8_t *material, size_t material_len, const uint8_t *chain,
                      size_t chain_len, uint8_t *keys, size_t keys_len)
{
    int wide = model_wide(dialect, cipher);
    char session_key[16] = {0};
    const struct text from_16 = {session_key, 16}, from_all = {(const char *)material, material_len};
    struct text chain_text = {(const char *)chain, chain_len};
    if (chain_len != 64 || keys_len != (wide ? 96 : 64)) return 40;
    if (!known(dialect)) return 18;
    if (material_len == 0 || (wide && material_len > MATERIAL_LIMIT)) return 19;
    memcpy(session_key, material, material_len < 16 ? material_len : 16);
    for (size_t i = 0, n; i < 4; i++, keys += n) {
        int long_key = wide && i >= 2;
        n = long_key ? 32 : 16;
        if (dialect == 0x0311) derive_key(long_key ? from_all : from_16, labels_311[i], chain_text, keys, n);
        else derive_key(from_16, labels_30[i], contexts_30[i], keys, n);
    }
    return 0;
}

/* ---- chain */

uint32_t model_fold(uint8_t *chain, size_t chain_len, const uint8_t *message, size_t message_len)
{
    if (chain_len != 64) return 40;
    if (message_len < 64 || message_len > LIMIT) return 23;
    EVP_MD_CTX *c = EVP_MD_CTX_new();
    int ok = EVP_DigestInit_ex(c, EVP_sha512(), NULL);
    ok &= EVP_DigestUpdate(c, chain, 64);
    ok &= EVP_DigestUpdate(c, message, message_len);
    ok &= EVP_DigestFinal_ex(c, chain, NULL);
    EVP_MD_CTX_free(c);
    if (ok != 1) abort();
    return 0;
}

uint32_t model_fold_response(uint8_t *chain, size_t chain_len, const uint8_t *message, size_t message_len, uint32_t *folded)
{
    if (chain_len == 64 && message_len >= 64 && message_len <= LIMIT && little_endian(message + 8, 4) != 0xC0000016) {
        *folded = 0;
        return 0;
    }
    uint32_t r = model_fold(chain, chain_len, message, message_len);
    if (r == 0) *folded = 1;
    return r;
}

/* ---- the walk: 11 to 16 */

static int begins_header(const uint8_t *at)
{
    return at[0] == 0xFE && at[1] == 'S' && at[2] == 'M' && at[3] == 'B';
}

/* Command, MessageId and SessionId. */
static int is_break_notice(const uint8_t *header)
{
    return little_endian(header + 12, 2) == 0x12 && little_endian(header + 24, 8) == UINT64_MAX && little_endian(header + 40, 8) == 0;
}

static uint32_t walk(const uint8_t *inner, size_t n, uint64_t id, int from_server, uint64_t *visited)
{
    if (n < HEADER) return 11;
    for (uint64_t place = 0, count = 1;; count++) {
        const uint8_t *header = inner + place;
        int related = (little_endian(header + 16, 4) & RELATED) != 0;
        uint64_t distance = little_endian(header + 20, 4);
        if (!begins_header(header)) return 12;
        if (place == 0 && related) return 13;
        int excused = related || (from_server && is_break_notice(header));
        if (!excused && little_endian(header + 40, 8) != id) return 14;
        if (distance == 0) {
            *visited = count;
            return 0;
        }
        if (distance < HEADER || place + distance + HEADER > n) return 15;
        if (distance % 8 != 0) return 16;
        place += distance;
    }
}

/* ---- sealing and opening */

uint32_t model_first_tests(uint32_t role, uint16_t dialect, uint32_t encryption, uint16_t cipher, size_t key_len, size_t message_len)
{
    if (key_len != (model_wide(dialect, cipher) ? 32 : 16)) return 40;
    if (role > SERVER || !known(dialect) || encryption == 0 || cipher == 0) return 1;
    if (dialect == 0x0311 && cipher > 4) return 1;
    if (message_len <= TRANSFORM) return 2;
    if (message_len - TRANSFORM > LIMIT) return 3;
    return 0;
}

int model_gcm(uint16_t dialect, uint16_t cipher)
{
    return dialect == 0x0311 && (cipher == 2 || cipher == 4);
}

/* The nonce and the 32 bytes of authenticated data begin at byte 20. */
static struct aead protection(uint16_t dialect, uint16_t cipher, const uint8_t *key, const uint8_t *message)
{
    size_t key_len = model_wide(dialect, cipher) ? 32 : 16;
    return (struct aead){key, key_len, message + 20, model_gcm(dialect, cipher) ? 12 : 11, message + 20, 32};
}

uint32_t model_seal(uint32_t role, uint16_t dialect, uint32_t encryption, uint16_t cipher, const uint8_t *key, size_t key_len,
                    uint64_t session_id, uint64_t *counter, uint8_t *message, size_t message_len, uint64_t *headers)
{
    uint64_t visited = 0;
    uint32_t r = model_first_tests(role, dialect, encryption, cipher, key_len, message_len);
    if (r == 0) r = walk(message + TRANSFORM, message_len - TRANSFORM, session_id, role == SERVER, &visited);
    if (r == 0 && *counter == UINT64_MAX) r = 17;
    if (r != 0) return r;
    memset(message, 0, TRANSFORM);
    memcpy(message, "\xFDSMB", 4);
    put_little_endian(message + 20, *counter, 8);
    put_little_endian(message + 36, message_len - TRANSFORM, 4);
    put_little_endian(message + 42, 1, 2);
    put_little_endian(message + 44, session_id, 8);
    struct aead how = protection(dialect, cipher, key, message);
    openssl_seal(&how, message + TRANSFORM, message_len - TRANSFORM, message + 4);
    *counter += 1;
    *headers = visited;
    return 0;
}

uint32_t model_transform_tests(uint16_t dialect, uint16_t cipher, const uint8_t *message)
{
    static const uint8_t clean[4];
    if (memcmp(message, "\xFDSMB", 4) != 0) return 4;
    if (little_endian(message + 42, 2) != 1) return 5;
    return model_gcm(dialect, cipher) && memcmp(message + 32, clean, 4) != 0 ? 29 : 0;
}

uint64_t model_session_id(const uint8_t *message)
{
    return little_endian(message + 44, 8);
}

uint32_t model_open(uint32_t role, uint16_t dialect, uint32_t encryption, uint16_t cipher, const uint8_t *key, size_t key_len,
                    uint64_t session_id, uint8_t *message, size_t message_len, uint64_t *headers)
{
    uint64_t visited = 0;
    uint32_t r = model_first_tests(role, dialect, encryption, cipher, key_len, message_len);
    if (r == 0) r = model_transform_tests(dialect, cipher, message);
    if (r == 0 && model_session_id(message) != session_id) r = 6;
    if (r != 0) return r;
    size_t n = message_len - TRANSFORM;
    uint8_t *plaintext = malloc(n);
    if (plaintext == NULL) abort();
    memcpy(plaintext, message + TRANSFORM, n);
    struct aead how = protection(dialect, cipher, key, message);
    if (!openssl_open(&how, plaintext, n, message + 4)) r = 9;
    else if (little_endian(message + 36, 4) != n) r = 10;
    else r = walk(plaintext, n, session_id, role == CLIENT, &visited);
    if (r == 0) {
        memcpy(message + TRANSFORM, plaintext, n);
        *headers = visited;
    }
    free(plaintext);
    return r;
}

/* ---- signing and verifying */

/* 3, 11 and 12, and 40 before them. */
static uint32_t clear_tests(size_t key_len, const uint8_t *message, size_t message_len)
{
    if (key_len != 16) return 40;
    if (message_len > LIMIT) return 3;
    if (message_len < HEADER) return 11;
    return begins_header(message) ? 0 : 12;
}

uint32_t model_sign(const uint8_t *key, size_t key_len, uint8_t *message, size_t message_len)
{
    uint8_t code[16];
    uint32_t r = clear_tests(key_len, message, message_len);
    if (r != 0) return r;
    put_little_endian(message + 16, little_endian(message + 16, 4) | SIGNED, 4);
    memset(message + 48, 0, 16);
    openssl_cmac(key, message, message_len, code);
    memcpy(message + 48, code, 16);
    return 0;
}

/* What is signed again is the same message, if it was signed. */
uint32_t model_verify(const uint8_t *key, size_t key_len, const uint8_t *message, size_t message_len)
{
    uint32_t r = clear_tests(key_len, message, message_len);
    if (r != 0) return r;
    if ((little_endian(message + 16, 4) & SIGNED) == 0) return 24;
    uint8_t *again = malloc(message_len);
    if (again == NULL) abort();
    memcpy(again, message, message_len);
    if (model_sign(key, key_len, again, message_len) != 0 || memcmp(again, message, message_len) != 0) r = 25;
    free(again);
    return r;
}
