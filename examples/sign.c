/*
 * A session that signs and does not seal: a client signs a compound of two requests, each message by itself with its padding, and the
 * server verifies them, as they were sent and with a bit changed on the way.
 */
#include <smb3seal.h>
#include <smb3seal_text.h>
#include <stdio.h>
#include <string.h>

enum { ECHO = 13, ECHO_BYTES = 68, PADDED = 72, COMPOUND = PADDED + ECHO_BYTES, RELATED = 4 };

/* Where the message at this place ends: its NextCommand says so, or it is the last. */
static size_t message_end(const uint8_t *compound, size_t len, size_t at)
{
    size_t next = (size_t)compound[at + 20] | (size_t)compound[at + 21] << 8;
    return next == 0 ? len : at + next;
}

/* An ECHO request of session 7, with `next` bytes to the next header, or 0. */
static void put_echo(uint8_t *at, uint8_t flags, uint8_t next)
{
    memcpy(at, "\xFESMB", 4);
    at[4] = 64;
    at[12] = ECHO;
    at[16] = flags;
    at[20] = next;
    at[40] = 7;
    at[64] = 4;
}

static void verify(const uint8_t *key, const uint8_t *compound, size_t len)
{
    for (size_t at = 0; at < len; at = message_end(compound, len, at)) {
        size_t n = message_end(compound, len, at) - at;
        uint32_t answer = smb3seal_verify(key, SMB3SEAL_KEY_BYTES, compound + at, n);
        printf("  %3zu bytes from %2zu: %u, %s\n", n, at, (unsigned)answer, smb3seal_text(answer));
    }
}

int main(void)
{
    const uint8_t session_key[16] = {1, 2, 3};       /* from the authentication */
    const uint8_t chain[SMB3SEAL_CHAIN_BYTES] = {0}; /* of no effect below 3.1.1 */
    uint8_t keys[SMB3SEAL_KEYS_BYTES], *key = keys + SMB3SEAL_SIGNING_KEY, compound[COMPOUND] = {0};
    uint32_t answer = smb3seal_derive(SMB3SEAL_DIALECT_302, SMB3SEAL_CIPHER_AES_128_CCM, session_key, sizeof session_key, chain, sizeof chain,
                                      keys, sizeof keys);
    if (answer != SMB3SEAL_DONE) return 1;

    put_echo(compound, 0, PADDED); /* with four bytes of padding, so that the next header is on an 8-byte boundary */
    put_echo(compound + PADDED, RELATED, 0);
    printf("not signed:\n");
    verify(key, compound, COMPOUND);

    for (size_t at = 0; at < COMPOUND; at = message_end(compound, COMPOUND, at)) {
        answer = smb3seal_sign(key, SMB3SEAL_KEY_BYTES, compound + at, message_end(compound, COMPOUND, at) - at);
        printf("signed: %s, Flags %02X, Signature", smb3seal_text(answer), compound[at + 16]);
        for (int i = 48; i < 64; i++) printf(" %02X", compound[at + (size_t)i]);
        printf("\n");
    }
    verify(key, compound, COMPOUND);

    printf("a bit of the padding changed:\n");
    compound[PADDED - 1] ^= 1;
    verify(key, compound, COMPOUND);
    return 0;
}
