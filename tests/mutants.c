#include "mutants.h"

#include <openssl/evp.h>
#include <openssl/hmac.h>
#include <stdlib.h>
#include <string.h>

#include "../include/smb3seal.h"
#include "messages.h"
#include "model.h"
#include "openssl_aead.h"

int fault(const char *name)
{
    static const char *chosen;
    if (chosen == NULL) chosen = getenv("MUTANT");
    if (chosen == NULL) chosen = "";
    return strcmp(chosen, name) == 0;
}

void touch(const void *at)
{
    volatile uint8_t *byte = (volatile uint8_t *)at;
    *byte = *byte;
}

void look(const void *at)
{
    (void)*(const volatile uint8_t *)at;
}

int marks_of(const uint8_t *header)
{
    static const uint8_t ones[8] = {255, 255, 255, 255, 255, 255, 255, 255}, zeros[8];
    int command = header[12] == 0x12 && header[13] == 0, message_id = memcmp(header + 24, ones, 8) == 0;
    return (command ? COMMAND : 0) | (message_id ? MESSAGE_ID : 0) | (memcmp(header + 40, zeros, 8) == 0 ? SESSION_ID : 0);
}

void leave_plaintext(uint16_t dialect, uint16_t cipher, const uint8_t *key, uint8_t *message, size_t message_len)
{
    int nonce_len = model_gcm(dialect, cipher) ? 12 : 11;
    struct aead how = {key, key_bytes(dialect, cipher), message + 20, nonce_len, message + 20, 32};
    openssl_open(&how, message + 52, message_len - 52, message + 4);
}

int sealed_marks(uint16_t dialect, uint16_t cipher, const uint8_t *key, const uint8_t *message, size_t message_len)
{
    uint8_t copy[4096];
    if (message_len > sizeof copy) return 0;
    memcpy(copy, message, message_len);
    leave_plaintext(dialect, cipher, key, copy, message_len);
    return marks_of(copy + 52);
}

/* A key of 3.1.1, with the length in bits that stands at the end of what is hashed. */
static void derive_key(const uint8_t *material, size_t material_len, const char *label, const uint8_t *chain, uint8_t length,
                       uint8_t *key, size_t n)
{
    uint8_t input[128] = {0, 0, 0, 1}, code[32];
    size_t at = 4 + strlen(label) + 1;
    memcpy(input + 4, label, strlen(label));
    memcpy(input + at + 1, chain, 64);
    input[at + 65 + 2] = length == 0;
    input[at + 65 + 3] = length;
    HMAC(EVP_sha256(), material, (int)material_len, input, at + 65 + 4, code, NULL);
    memcpy(key, code, n);
}

/* Cipher keys of 32 bytes as a wrong library derives them: `session_key` is the first 16 bytes of the material, padded. */
static void mistake_wide_keys(const uint8_t *material, size_t n, const uint8_t *chain, uint8_t *keys)
{
    uint8_t session_key[16] = {0};
    memcpy(session_key, material, n < 16 ? n : 16);
    if (fault("derive: wide keys come from the session key")) {
        derive_key(session_key, 16, "SMBC2SCipherKey", chain, 0, keys + 32, 32);
        derive_key(session_key, 16, "SMBS2CCipherKey", chain, 0, keys + 64, 32);
    }
    if (fault("derive: wide keys close with 128 bits")) derive_key(material, n, "SMBC2SCipherKey", chain, 0x80, keys + 32, 32);
    if (fault("derive: one wide key comes from the session key")) derive_key(session_key, 16, "SMBS2CCipherKey", chain, 0, keys + 64, 32);
    if (fault("derive: the signing key comes from all the material")) derive_key(material, n, "SMBSigningKey", chain, 0x80, keys, 16);
    if (fault("derive: an application key closes with 256 bits")) derive_key(session_key, 16, "SMBAppKey", chain, 0, keys + 16, 16);
    if (fault("derive: a wide key ends in zeros")) memset(keys + 48, 0, 16);
    if (fault("derive: 64 bytes of material count") && n > 64) derive_key(material, 64, "SMBC2SCipherKey", chain, 0, keys + 32, 32);
}

/* The cipher as a wrong library reads it. */
static uint16_t mistake_cipher(uint16_t dialect, uint16_t cipher, size_t keys_len)
{
    if (fault("derive: the cipher is ignored")) return 0;
    if (fault("derive: cipher 3 is narrow") && cipher == 3) return 1;
    if (fault("derive: cipher 5 is wide") && cipher == 5) return 4;
    if (fault("derive: the cipher's low byte")) return cipher & 0xFF;
    if (fault("derive: the place says which keys")) return keys_len == 96 && dialect == 0x0311 ? 4 : 0;
    return cipher;
}

uint32_t __real_smb3seal_derive(uint16_t, uint16_t, const uint8_t *, size_t, const uint8_t *, size_t, uint8_t *, size_t);
uint32_t __wrap_smb3seal_derive(uint16_t dialect, uint16_t cipher, const uint8_t *material, size_t material_len, const uint8_t *chain,
                                size_t chain_len, uint8_t *keys, size_t keys_len)
{
    uint8_t swap[16];
    int wide = model_wide(dialect, cipher), old = dialect == 0x0300 || dialect == 0x0302;
    if (fault("derive: wide below 3.1.1") && old && (cipher == 3 || cipher == 4) && keys_len != 96) return 40;
    if (fault("derive: material over 65,536 bytes is taken") && wide && material_len > 65536) material_len = 65536;
    if (fault("derive: 65,536 bytes of material are refused") && wide && material_len == 65536 && keys_len == 96) return 19;
    if (fault("derive: long material is refused for any cipher") && material_len > 65536 && keys_len == 64) return 19;
    cipher = mistake_cipher(dialect, cipher, keys_len);
    if (fault("derive: the place's length is not tested") && keys_len > 64) keys_len = 64;
    if (fault("derive: 19 before 18") && chain_len == 64 && keys_len == 64 && material_len == 0) return 19;
    if (fault("derive: material is taken as 32 bits long")) material_len = (uint32_t)material_len;
    if (fault("derive: a byte before the chain is read")) look(chain - 1);
    if (fault("derive: the chain is written")) touch(chain);
    uint32_t r = __real_smb3seal_derive(dialect, cipher, material, material_len, chain, chain_len, keys, keys_len);
    if (r != 0) return r;
    if (wide) mistake_wide_keys(material, material_len, chain, keys);
    if (fault("derive: a wrong bit")) keys[63] ^= 1;
    if (fault("derive: a wrong bit of a wide key") && wide) keys[95] ^= 1;
    if (fault("derive: 17 bytes of material count") && material_len > 16) keys[0] ^= material[16];
    if (fault("derive: the cipher keys in the other order")) {
        memcpy(swap, keys + 32, 16);
        memcpy(keys + 32, keys + 48, 16);
        memcpy(keys + 48, swap, 16);
    }
    return r;
}

uint32_t __real_smb3seal_fold(uint8_t *, size_t, const uint8_t *, size_t);
uint32_t __wrap_smb3seal_fold(uint8_t *chain, size_t chain_len, const uint8_t *message, size_t message_len)
{
    if (fault("fold: the last byte is left out") && message_len > 64) message_len--;
    if (fault("fold: 8,454,144 bytes are refused") && message_len == 8454144) return 23;
    if (fault("fold: a byte behind the message is read")) look(message + message_len);
    return __real_smb3seal_fold(chain, chain_len, message, message_len);
}

uint32_t __real_smb3seal_fold_response(uint8_t *, size_t, const uint8_t *, size_t, uint32_t *);
uint32_t __wrap_smb3seal_fold_response(uint8_t *chain, size_t chain_len, const uint8_t *message, size_t message_len, uint32_t *folded)
{
    uint32_t before = *folded, r = __real_smb3seal_fold_response(chain, chain_len, message, message_len, folded);
    if (fault("fold_response: every status is folded") && r == 0 && *folded == 0) {
        *folded = 1;
        return __real_smb3seal_fold(chain, chain_len, message, message_len);
    }
    if (fault("fold_response: the mark is left as it was")) *folded = before;
    if (fault("fold_response: a refusal clears the mark") && r != 0) *folded = 0;
    return r;
}

/* The role as a wrong library reads it, sealing. What is not tested for 14 depends on nothing else. */
static uint32_t mistake_sealing_role(uint32_t role)
{
    if (fault("seal: a client's notices pass too") && role == SMB3SEAL_CLIENT) return SMB3SEAL_SERVER;
    if (fault("seal: a server's notices get 14 too") && role == SMB3SEAL_SERVER) return SMB3SEAL_CLIENT;
    if (fault("seal: a client's notices pass, a server's do not") && role < 2) return role ^ 1;
    if (fault("seal: role 2 is a server") && role == 2) return SMB3SEAL_SERVER;
    if (fault("seal: any other role is a client") && role > 1) return SMB3SEAL_CLIENT;
    if (fault("seal: the role's low byte")) return role & 0xFF;
    return role;
}

/* Cipher and key as a wrong library reads them, sealing and opening. */
static void mistake_key(uint16_t dialect, uint16_t *cipher, size_t *key_len)
{
    int wide = model_wide(dialect, *cipher);
    if (fault("key: the first half of a wide key") && wide && *key_len == 32) {
        *cipher -= 2;
        *key_len = 16;
    }
    if (fault("key: 32 bytes for any cipher") && !wide && *key_len == 32) *key_len = 16;
    if (fault("key: 16 bytes for any cipher") && wide && *key_len == 16) *cipher -= 2;
    if (fault("key: 24 bytes for a wide key") && wide && *key_len == 24) *key_len = 32;
    if (fault("key: cipher 5 on 3.1.1") && dialect == 0x0311 && *cipher == 5) *cipher = 1;
    if (fault("key: cipher 3 is a GCM one") && wide && *cipher == 3) *cipher = 4;
    if (fault("key: no cipher of 256 bits") && wide) {
        *cipher = 5;
        if (*key_len == 32) *key_len = 16;
    }
}

/* The first two headers of an inner message, or NULL; a wrong library takes other marks for a notice, or tests less at one. */
static uint32_t mistake_walk(uint32_t r, uint32_t role, const uint8_t *first, const uint8_t *second)
{
    int marks = marks_of(first), later = second == NULL ? 0 : marks_of(second), related = second != NULL && (second[16] & 4) != 0;
    if (role == SMB3SEAL_SERVER && r == 14) {
        if (fault("seal: a notice by Command and MessageId") && marks == (COMMAND | MESSAGE_ID)) return 0;
        if (fault("seal: a notice by Command and SessionId") && marks == (COMMAND | SESSION_ID)) return 0;
        if (fault("seal: a notice by MessageId and SessionId") && marks == (MESSAGE_ID | SESSION_ID)) return 0;
    }
    if (role == SMB3SEAL_SERVER && marks == NOTICE) {
        if (fault("seal: a first header gets 14 as a notice") && r == 0) return 14;
        if (fault("seal: a notice need not begin") && r == 12) return 0;
        if (fault("seal: a notice may be related") && r == 13) return 0;
        if (fault("seal: a notice ends the walk") && (r == 15 || r == 16)) return 0;
    }
    if (fault("seal: a later header gets 14 as a notice") && r == 0 && role == SMB3SEAL_SERVER && later == NOTICE && !related) return 14;
    if (fault("seal: a related notice gets 14") && r == 0 && later == NOTICE && related) return 14;
    return r;
}

uint32_t __real_smb3seal_seal(uint32_t, uint16_t, uint32_t, uint16_t, const uint8_t *, size_t, uint64_t, uint64_t *, uint8_t *, size_t,
                              uint64_t *);
uint32_t __wrap_smb3seal_seal(uint32_t role, uint16_t dialect, uint32_t encryption, uint16_t cipher, const uint8_t *key, size_t key_len,
                              uint64_t id, uint64_t *counter, uint8_t *message, size_t message_len, uint64_t *headers)
{
    uint8_t first[64], second[64];
    int one = message_len >= 116 && message_len < 1 << 20, two = message_len >= 180 && message_len < 1 << 20 && message[72] == 64;
    if (one) memcpy(first, message + 52, 64);
    if (two) memcpy(second, message + 116, 64);
    if (fault("seal: the role is tested before 40") && role > 1) return 1;
    role = mistake_sealing_role(role);
    if (fault("seal: GCM below 3.1.1") && dialect < 0x0311 && cipher == 2) dialect = 0x0311;
    if (fault("seal: wide below 3.1.1") && dialect >= 0x0300 && cipher > 2 && cipher < 5) dialect = 0x0311;
    mistake_key(dialect, &cipher, &key_len);
    if (fault("seal: 17 is answered one seal too early") && *counter == UINT64_MAX - 1 && key_len == 16) return 17;
    if (fault("seal: the message is taken as 32 bits long")) message_len = (uint32_t)message_len;
    if (fault("seal: a byte before the message is read")) look(message - 1);
    uint32_t r = __real_smb3seal_seal(role, dialect, encryption, cipher, key, key_len, id, counter, message, message_len, headers);
    if (one) r = mistake_walk(r, role, first, two ? second : NULL);
    if (fault("seal: a refusal clears the room") && r != 0 && message_len >= 52) memset(message, 0, 52);
    if (r != 0) return r;
    if (fault("seal: the counter stays")) *counter -= 1;
    if (fault("seal: the count is always 1")) *headers = 1;
    if (fault("seal: Reserved is not zero")) message[40] = 1;
    if (fault("seal: a wrong bit of the tag")) message[19] ^= 0x80;
    return r;
}

/* The role as a wrong library reads it, opening. */
static uint32_t mistake_opening_role(uint32_t role)
{
    if (fault("open: notices from a client pass too") && role == SMB3SEAL_SERVER) return SMB3SEAL_CLIENT;
    if (fault("open: notices from a server get 14 too") && role == SMB3SEAL_CLIENT) return SMB3SEAL_SERVER;
    if (fault("open: the role of the own direction") && role < 2) return role ^ 1;
    if (fault("open: role 2 is a server") && role == 2) return SMB3SEAL_SERVER;
    if (fault("open: any other role is a client") && role > 1) return SMB3SEAL_CLIENT;
    if (fault("open: the role's low byte")) return role & 0xFF;
    return role;
}

/* A whole GCM message whose nonce does not end in zeros. */
static int dirty(uint16_t cipher, const uint8_t *message, size_t message_len)
{
    static const uint8_t clean[4];
    return (cipher == 2 || cipher == 4) && message_len > 52 && memcmp(message + 32, clean, 4) != 0;
}

/* 29 as a wrong library answers it. */
static uint32_t mistake_dirty(uint32_t r, uint64_t id, const uint8_t *message)
{
    uint8_t own[8];
    for (int i = 0; i < 8; i++) own[i] = (uint8_t)(id >> 8 * i);
    if (fault("open: 9 for 29")) return 9;
    if (fault("open: 6 before 29") && memcmp(message + 44, own, 8) != 0) return 6;
    if (fault("open: byte 32 is not looked at") && message[33] == 0 && message[34] == 0 && message[35] == 0) return 9;
    if (fault("open: byte 35 is not looked at") && message[32] == 0 && message[33] == 0 && message[34] == 0) return 9;
    return r;
}

uint32_t __real_smb3seal_open(uint32_t, uint16_t, uint32_t, uint16_t, const uint8_t *, size_t, uint64_t, uint8_t *, size_t, uint64_t *);
uint32_t __wrap_smb3seal_open(uint32_t role, uint16_t dialect, uint32_t encryption, uint16_t cipher, const uint8_t *key, size_t key_len,
                              uint64_t id, uint8_t *message, size_t message_len, uint64_t *headers)
{
    if (fault("open: the role is tested before 40") && role > 1) return 1;
    role = mistake_opening_role(role);
    mistake_key(dialect, &cipher, &key_len);
    if (fault("open: does nothing")) return 0;
    if (fault("open: refuses everything")) return 9;
    if (fault("open: Reserved is not in the tag") && message_len > 52) message[40] = message[41] = 0;
    if (fault("open: the key is written")) touch(key);
    if (fault("open: a byte behind the key is read")) look(key + key_len);
    if (fault("open: 29 before 5") && dialect == 0x0311 && dirty(cipher, message, message_len) && message[42] != 1) return 29;
    if (fault("open: 29 under CCM too") && key_len == 16 && encryption != 0 && cipher == 1 && dirty(2, message, message_len)) return 29;
    uint32_t r = __real_smb3seal_open(role, dialect, encryption, cipher, key, key_len, id, message, message_len, headers);
    if (fault("open: a byte behind the message is written")) touch(message + message_len);
    int bad_tag = r == 9 && fault("open: plaintext is left after a bad tag");
    int behind_tag = r > 10 && r < 17 && fault("open: plaintext is left after the walk");
    if (bad_tag || behind_tag) leave_plaintext(dialect, cipher, key, message, message_len);
    if (fault("open: 10 before 9") && r == 9 && message[36] != (uint8_t)(message_len - 52)) return 10;
    if (fault("open: 16 for 15") && r == 15) return 16;
    if (r == 29) r = mistake_dirty(r, id, message);
    if (fault("open: 9 for 29 with cipher 4") && r == 29 && cipher == 4) return 9;
    int marks = r == 14 && role == SMB3SEAL_CLIENT ? sealed_marks(dialect, cipher, key, message, message_len) : 0;
    if (fault("open: a notice by Command and MessageId") && marks == (COMMAND | MESSAGE_ID)) return 0;
    if (fault("open: a notice by Command and SessionId") && marks == (COMMAND | SESSION_ID)) return 0;
    if (fault("open: a notice by MessageId and SessionId") && marks == (MESSAGE_ID | SESSION_ID)) return 0;
    if (fault("open: a refusal clears the count") && r != 0) *headers = 0;
    if (fault("open: the header is cleared") && r == 0) memset(message, 0, 52);
    return r;
}
