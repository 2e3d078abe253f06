/*
 * One connection's keys and chain, kept by the library, for scripts/samba-check, which stands between a client and a server. A line of
 * standard input is a command, and gets a line in answer. Bytes are in hexadecimal.
 *
 *     fold MESSAGE              answers "0", or another number
 *     response MESSAGE          the same, for a session setup response
 *     derive DIALECT CIPHER ID KEY    dialect, cipher and id as hexadecimal numbers; answers the four keys
 *     reseal DIRECTION MESSAGE  0 for a request, 1 for a response: opens the sealed message, seals it again under a counter of our
 *                               own, and answers the number of inner headers and the new message; or "refused" and the number
 */
#include <stdio.h>
#include <stdlib.h>
#include <string.h>

#include "../include/smb3seal.h"

enum { ROOM = SMB3SEAL_HEADER_BYTES + SMB3SEAL_LONGEST_MESSAGE };

static uint16_t dialect, cipher;
static uint64_t id, counters[2];
static uint8_t chain[64], keys[96], bytes[ROOM];
static char line[2 * ROOM + 100];

/* The value of a lower-case digit, or 16. */
static unsigned digit(char c)
{
    if (c >= '0' && c <= '9') return (unsigned)(c - '0');
    return c >= 'a' && c <= 'f' ? (unsigned)(c - 'a' + 10) : 16;
}

static size_t read_bytes(const char *text, uint8_t *at, size_t room)
{
    size_t n = 0;
    for (; n < room && digit(text[2 * n]) < 16 && digit(text[2 * n + 1]) < 16; n++)
        at[n] = (uint8_t)(digit(text[2 * n]) << 4 | digit(text[2 * n + 1]));
    return n;
}

static void print_bytes(const uint8_t *at, size_t n)
{
    for (size_t i = 0; i < n; i++) {
        putchar("0123456789abcdef"[at[i] >> 4]);
        putchar("0123456789abcdef"[at[i] & 15]);
    }
    putchar('\n');
}

static void derive(const char *text)
{
    unsigned d, c;
    unsigned long long session;
    int at = 0;
    uint8_t material[64];
    if (sscanf(text, "%x %x %llx %n", &d, &c, &session, &at) != 3) exit(2);
    dialect = (uint16_t)d;
    cipher = (uint16_t)c;
    id = session;
    size_t n = read_bytes(text + at, material, sizeof material), keys_len = smb3seal_keys_bytes(dialect, cipher);
    if (smb3seal_derive(dialect, cipher, material, n, chain, 64, keys, keys_len) != 0) exit(2);
    print_bytes(keys, keys_len);
}

static void reseal(int direction, const char *text)
{
    size_t key_len = smb3seal_cipher_key_bytes(dialect, cipher);
    const uint8_t *key = keys + SMB3SEAL_CLIENT_TO_SERVER_KEY + (direction == 0 ? 0 : key_len);
    uint32_t sender = direction == 0 ? SMB3SEAL_CLIENT : SMB3SEAL_SERVER, receiver = direction == 0 ? SMB3SEAL_SERVER : SMB3SEAL_CLIENT;
    size_t n = read_bytes(text, bytes, ROOM);
    uint64_t opened = 0, sealed = 0;
    uint32_t r = smb3seal_open(receiver, dialect, 1, cipher, key, key_len, id, bytes, n, &opened);
    memset(bytes, 0, r == 0 ? SMB3SEAL_HEADER_BYTES : 0);
    if (r == 0) r = smb3seal_seal(sender, dialect, 1, cipher, key, key_len, id, &counters[direction], bytes, n, &sealed);
    if (r != 0 || opened != sealed) {
        printf("refused %u\n", r);
        return;
    }
    printf("%llu ", (unsigned long long)sealed);
    print_bytes(bytes, n);
}

int main(void)
{
    while (fgets(line, sizeof line, stdin) != NULL) {
        uint32_t folded;
        if (strncmp(line, "fold ", 5) == 0) printf("%u\n", smb3seal_fold(chain, 64, bytes, read_bytes(line + 5, bytes, ROOM)));
        else if (strncmp(line, "response ", 9) == 0)
            printf("%u\n", smb3seal_fold_response(chain, 64, bytes, read_bytes(line + 9, bytes, ROOM), &folded));
        else if (strncmp(line, "derive ", 7) == 0) derive(line + 7);
        else if (strncmp(line, "reseal ", 7) == 0) reseal(line[7] == '1', line + 9);
        else return 2;
        fflush(stdout);
    }
    return 0;
}
