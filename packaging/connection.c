/*
 * The functions of smb3seal.h that take a connection, compiled as C and as C++: each does what the call under one key does with the
 * connection's numbers, and a stray byte in role or spare gets 1 there as it does with a session table.
 */
#include <smb3seal.h>
#include <stdio.h>
#include <string.h>

enum { SEALED_BYTES = SMB3SEAL_HEADER_BYTES + 68, SESSION = 7 };

static unsigned failures, sealed;
static uint8_t keys[SMB3SEAL_KEYS_256_BYTES];
static struct smb3seal_session table[1];

static void expect(int holds, const char *what, struct smb3seal_connection c)
{
    if (holds) return;
    failures++;
    printf("connection: %s: dialect %x, cipher %u, role %u, encryption %u, spare %u\n", what, (unsigned)c.dialect, (unsigned)c.cipher,
           (unsigned)c.role, (unsigned)c.encryption, (unsigned)c.spare);
}

/* A plain message of the session, or a break notice: 14 to a client that seals it and to a server that opens it. */
static void make(uint8_t *message, int notice)
{
    memset(message, 0, SEALED_BYTES);
    memcpy(message + 52, "\xFESMB", 4);
    message[92] = notice ? 0 : SESSION;
    message[64] = notice ? 0x12 : 13;
    memset(message + 76, notice ? 0xFF : 1, 8);
}

/* Opened by the connection and by its numbers, at either end: twice the same. A server does not open a break notice. */
static void compare_opened(struct smb3seal_connection c, uint32_t on, const uint8_t *key, const uint8_t *message, int notice)
{
    size_t n = smb3seal_cipher_key_bytes(c.dialect, c.cipher);
    for (c.role = SMB3SEAL_CLIENT; c.role <= SMB3SEAL_SERVER; c.role++) {
        uint8_t one[SEALED_BYTES], two[SEALED_BYTES];
        uint64_t headers_one = 9, headers_two = 9;
        memcpy(one, message, sizeof one), memcpy(two, message, sizeof two);
        uint32_t answer = smb3seal_connection_open(c, key, n, SESSION, one, sizeof one, &headers_one);
        uint32_t plain = smb3seal_open(c.role, c.dialect, on, c.cipher, key, n, SESSION, two, sizeof two, &headers_two);
        uint32_t right = notice && c.role == SMB3SEAL_SERVER ? SMB3SEAL_INNER_SESSION : SMB3SEAL_DONE;
        expect(answer == right && plain == right && memcmp(one, two, sizeof one) == 0, "opening", c);
        expect(headers_one == headers_two, "the headers opened", c);
    }
}

/* Sealed by the connection, by its numbers and by the table: three times the same. */
static void compare_one(struct smb3seal_connection c, uint32_t on, int notice)
{
    size_t n = smb3seal_cipher_key_bytes(c.dialect, c.cipher);
    const uint8_t *key = keys + SMB3SEAL_CLIENT_TO_SERVER_KEY + (c.role == SMB3SEAL_SERVER ? n : 0);
    uint8_t one[SEALED_BYTES], two[SEALED_BYTES], three[SEALED_BYTES];
    uint64_t counter_one = 5, counter_two = 5, headers_one = 9, headers_two = 9, headers_three = 9;
    make(one, notice), make(two, notice), make(three, notice);
    table[0].counter = 5;
    uint32_t answer = smb3seal_connection_seal(c, key, n, SESSION, &counter_one, one, sizeof one, &headers_one);
    uint32_t plain = smb3seal_seal(c.role, c.dialect, on, c.cipher, key, n, SESSION, &counter_two, two, sizeof two, &headers_two);
    uint32_t by_table = smb3seal_table_seal(table, 1, c, SESSION, three, sizeof three, &headers_three);
    expect(answer == plain && answer == by_table, "sealing answers", c);
    expect(memcmp(one, two, sizeof one) == 0 && memcmp(one, three, sizeof one) == 0, "sealing writes", c);
    expect(counter_one == counter_two && counter_one == table[0].counter, "the counter", c);
    expect(headers_one == headers_two && headers_one == headers_three, "the headers", c);
    if (answer != SMB3SEAL_DONE) return;
    sealed++;
    compare_opened(c, on, key, one, notice);
}

static void compare(struct smb3seal_connection c, uint32_t on)
{
    compare_one(c, on, 0);
    compare_one(c, on, 1);
}

static void derive(struct smb3seal_connection c)
{
    const uint8_t material[32] = {1, 2, 3}, chain[SMB3SEAL_CHAIN_BYTES] = {4, 5};
    uint8_t others[SMB3SEAL_KEYS_256_BYTES];
    size_t n = smb3seal_keys_bytes(c.dialect, c.cipher);
    int wide = c.dialect == SMB3SEAL_DIALECT_311 && c.cipher > SMB3SEAL_CIPHER_AES_128_GCM && c.cipher <= SMB3SEAL_CIPHER_AES_256_GCM;
    expect(n == (wide ? SMB3SEAL_KEYS_256_BYTES : SMB3SEAL_KEYS_BYTES), "the place for the keys", c);
    uint32_t answer = smb3seal_connection_derive(c, material, sizeof material, chain, sizeof chain, keys, n);
    uint32_t plain = smb3seal_derive(c.dialect, c.cipher, material, sizeof material, chain, sizeof chain, others, n);
    memset(table, 0, sizeof table);
    uint32_t added = smb3seal_table_add(table, 1, c, SESSION, 0, 0, material, sizeof material, chain, sizeof chain);
    expect(answer == SMB3SEAL_DONE && plain == answer && added == answer && memcmp(keys, others, n) == 0, "deriving", c);
}

int main(void)
{
    const uint16_t dialects[] = {SMB3SEAL_DIALECT_300, SMB3SEAL_DIALECT_302, SMB3SEAL_DIALECT_311};
    for (unsigned i = 0; i < 3 * 6; i++) {
        struct smb3seal_connection c = {dialects[i / 6], (uint16_t)(i % 6), SMB3SEAL_CLIENT, 1, 0, 0};
        derive(c);
        for (unsigned byte = 0; byte < 256; byte++) {
            c.role = (uint8_t)byte, compare(c, 1), c.role = SMB3SEAL_CLIENT;
            c.encryption = (uint8_t)byte, compare(c, byte), c.encryption = 1;
            c.spare = (uint8_t)byte, compare(c, byte == 0), c.spare = 0;
        }
        struct smb3seal_connection off = {c.dialect, c.cipher, SMB3SEAL_CLIENT, 0, 0, 0}, unlike = {0x0210, c.cipher, SMB3SEAL_CLIENT, 1, 0, 0};
        compare(off, 0);
        compare(unlike, 1);
    }
    printf("calls with a connection do as those with numbers: %u sealed, %u differ\n", sealed, failures);
    return failures == 0 && sealed > 1000 ? 0 : 1;
}
