/*
 * How much stack each function of smb3seal.h needs, on the longest inputs. Each call runs on a stack of its own, painted
 * beforehand, and the deepest byte that is not as painted counts. It is done with two paints, so that a byte which happens to be
 * written as one of them is seen with the other. The figure has the frame of a caller in it, some 100 bytes.
 *
 * Link with -z now: a symbol that is looked up at its first call would be looked up on the painted stack.
 *
 * Usage: stack FILE.csv
 */
#define _XOPEN_SOURCE 700
#include <stdint.h>
#include <stdio.h>
#include <stdlib.h>
#include <string.h>
#include <ucontext.h>

#include "../include/smb3seal.h"
#include "../tests/primitives.h"

enum { STACK = 1048576, HEADER = SMB3SEAL_HEADER_BYTES, LONGEST = SMB3SEAL_LONGEST_MESSAGE, SESSION = 0x3039, RECORDS = 16 };
enum { CCM = SMB3SEAL_CIPHER_AES_128_CCM, GCM = SMB3SEAL_CIPHER_AES_128_GCM };
enum { CCM_256 = SMB3SEAL_CIPHER_AES_256_CCM, GCM_256 = SMB3SEAL_CIPHER_AES_256_GCM };

/* A call: what is lent to it, and the answer that it has to give. */
struct call {
    const char *name;
    void (*prepare)(void);
    uint32_t (*run)(void);
    uint16_t cipher;
    uint32_t answer;
};

static _Alignas(64) uint8_t painted[STACK];
static uint8_t message[HEADER + LONGEST], keys[SMB3SEAL_KEYS_256_BYTES], chain[64];
static const uint8_t key[32] = {1, 2, 3};
static struct smb3seal_session table[RECORDS];
static const struct call *current;
static const uint8_t *caller;
static uint32_t answer;

static size_t key_bytes(void)
{
    return smb3seal_cipher_key_bytes(SMB3SEAL_DIALECT_311, current->cipher);
}

/* The longest key material that counts as a whole, or one that is longer. */
static size_t material_bytes(void)
{
    return key_bytes() == SMB3SEAL_KEY_256_BYTES ? SMB3SEAL_LONGEST_MATERIAL : LONGEST;
}

static uint32_t derive_300(void)
{
    return smb3seal_derive(SMB3SEAL_DIALECT_300, current->cipher, message, LONGEST, chain, 64, keys, 64);
}

static uint32_t derive_311(void)
{
    size_t n = smb3seal_keys_bytes(SMB3SEAL_DIALECT_311, current->cipher);
    return smb3seal_derive(SMB3SEAL_DIALECT_311, current->cipher, message, material_bytes(), chain, 64, keys, n);
}

static uint32_t fold(void)
{
    return smb3seal_fold(chain, 64, message, LONGEST);
}

/* The deepest of the three calls counts; each is handed a state by value, which is on the caller's stack too. */
static uint32_t fold_pieces(void)
{
    struct smb3seal_fold_step step = smb3seal_fold_begin(chain, 64);
    step = smb3seal_fold_piece(step.state, message, LONGEST);
    return smb3seal_fold_finish(step.state, chain, 64).number;
}

static uint32_t fold_response(void)
{
    uint32_t folded;
    return smb3seal_fold_response(chain, 64, message, LONGEST, &folded);
}

static uint32_t seal(void)
{
    uint64_t counter = 0, headers;
    return smb3seal_seal(SMB3SEAL_CLIENT, SMB3SEAL_DIALECT_311, 1, current->cipher, key, key_bytes(), SESSION, &counter, message,
                         sizeof message, &headers);
}

static uint32_t open(void)
{
    uint64_t headers;
    return smb3seal_open(SMB3SEAL_SERVER, SMB3SEAL_DIALECT_311, 1, current->cipher, key, key_bytes(), SESSION, message, sizeof message,
                         &headers);
}

/* The end that seals is a client, and the one that opens a server: both with the key of one direction. */
static struct smb3seal_connection connection(uint8_t role)
{
    return (struct smb3seal_connection){.dialect = SMB3SEAL_DIALECT_311, .cipher = current->cipher, .role = role, .encryption = 1};
}

static uint32_t table_find(void)
{
    return smb3seal_table_find(table, RECORDS, SESSION) == RECORDS - 1 ? SMB3SEAL_DONE : SMB3SEAL_OTHER_SESSION;
}

static uint32_t table_add(void)
{
    return smb3seal_table_add(table, RECORDS, connection(SMB3SEAL_CLIENT), SESSION + 1, 0, 0, message, material_bytes(), chain, 64);
}

static uint32_t table_remove(void)
{
    return smb3seal_table_remove(table, RECORDS, SESSION);
}

static uint32_t table_seal(void)
{
    uint64_t headers;
    return smb3seal_table_seal(table, RECORDS, connection(SMB3SEAL_CLIENT), SESSION, message, sizeof message, &headers);
}

static uint32_t table_open(void)
{
    uint64_t headers;
    return smb3seal_table_open(table, RECORDS, connection(SMB3SEAL_SERVER), message, sizeof message, &headers);
}

/* The session is the last record, and all others but the first are other sessions'. */
static void fill_table(void)
{
    memset(table, 0, sizeof table);
    for (size_t i = 1; i < RECORDS; i++) table[i] = (struct smb3seal_session){.id = i, .used = 1};
    table[RECORDS - 1].id = SESSION;
    memcpy(table[RECORDS - 1].client_to_server, key, sizeof key);
    table[RECORDS - 1].wide = key_bytes() == SMB3SEAL_KEY_256_BYTES;
}

/* In clear: the message behind the room for a transform header. */
static uint32_t sign(void)
{
    return smb3seal_sign(key, 16, message + HEADER, LONGEST);
}

static uint32_t verify(void)
{
    return smb3seal_verify(key, 16, message + HEADER, LONGEST);
}

static uint32_t verify_pieces(void)
{
    struct smb3seal_sign_step step = smb3seal_sign_begin(key, 16);
    step = smb3seal_sign_piece(step.state, message + HEADER, LONGEST);
    return smb3seal_verify_finish(step.state).number;
}

/* The longest message, a chain of headers of 64 bytes each; and the table. */
static void plain(void)
{
    fill_table();
    memset(message, 0, sizeof message);
    for (size_t at = HEADER; at < sizeof message; at += 64) {
        memcpy(message + at, "\xFESMB", 4);
        message[at + 20] = at + 64 < sizeof message ? 64 : 0;
        memcpy(message + at + 40, "\x39\x30", 2);
    }
}

/* A session setup response that has to be folded: its Status says that more processing is required. */
static void response(void)
{
    plain();
    memcpy(message + 8, "\x16\0\0\xC0", 4);
}

static void sealed(void)
{
    plain();
    if (seal() != SMB3SEAL_DONE) exit(1);
}

static void sealed_with_bad_tag(void)
{
    sealed();
    message[4] ^= 1;
}

/* Sealed by a peer that did not look at its last header. */
static void sealed_with_bad_header(void)
{
    static const uint8_t nonce[12];
    plain();
    memcpy(message, "\xFDSMB", 4);
    message[38] = LONGEST >> 16;
    message[42] = 1;
    memcpy(message + 44, "\x39\x30", 2);
    message[sizeof message - 64] = 0;
    uint32_t r = current->cipher == CCM || current->cipher == CCM_256
                     ? primitives_ccm_seal(key, key_bytes(), nonce, 11, message + 20, 32, message + HEADER, LONGEST, message + 4, 16)
                     : primitives_gcm_seal(key, key_bytes(), nonce, 12, message + 20, 32, message + HEADER, LONGEST, message + 4, 16);
    if (r != 0) exit(1);
}

static void signed_in_clear(void)
{
    plain();
    if (sign() != SMB3SEAL_DONE) exit(1);
}

static const struct call calls[] = {
    {"derive, 3.0", plain, derive_300, 0, SMB3SEAL_DONE},
    {"derive, 3.1.1", plain, derive_311, 0, SMB3SEAL_DONE},
    {"derive, 3.1.1, 256", plain, derive_311, GCM_256, SMB3SEAL_DONE},
    {"fold", plain, fold, 0, SMB3SEAL_DONE},
    {"fold_response", response, fold_response, 0, SMB3SEAL_DONE},
    {"fold, in pieces", plain, fold_pieces, 0, SMB3SEAL_DONE},
    {"seal, CCM", plain, seal, CCM, SMB3SEAL_DONE},
    {"seal, GCM", plain, seal, GCM, SMB3SEAL_DONE},
    {"open, CCM", sealed, open, CCM, SMB3SEAL_DONE},
    {"open, GCM", sealed, open, GCM, SMB3SEAL_DONE},
    {"open, CCM, bad tag", sealed_with_bad_tag, open, CCM, SMB3SEAL_BAD_TAG},
    {"open, GCM, bad tag", sealed_with_bad_tag, open, GCM, SMB3SEAL_BAD_TAG},
    {"open, CCM, bad inner header", sealed_with_bad_header, open, CCM, SMB3SEAL_NOT_HEADER},
    {"open, GCM, bad inner header", sealed_with_bad_header, open, GCM, SMB3SEAL_NOT_HEADER},
    {"seal, CCM-256", plain, seal, CCM_256, SMB3SEAL_DONE},
    {"seal, GCM-256", plain, seal, GCM_256, SMB3SEAL_DONE},
    {"open, CCM-256", sealed, open, CCM_256, SMB3SEAL_DONE},
    {"open, GCM-256", sealed, open, GCM_256, SMB3SEAL_DONE},
    {"open, CCM-256, bad tag", sealed_with_bad_tag, open, CCM_256, SMB3SEAL_BAD_TAG},
    {"open, GCM-256, bad tag", sealed_with_bad_tag, open, GCM_256, SMB3SEAL_BAD_TAG},
    {"open, CCM-256, bad inner header", sealed_with_bad_header, open, CCM_256, SMB3SEAL_NOT_HEADER},
    {"open, GCM-256, bad inner header", sealed_with_bad_header, open, GCM_256, SMB3SEAL_NOT_HEADER},
    {"table_find", plain, table_find, 0, SMB3SEAL_DONE},
    {"table_add", plain, table_add, 0, SMB3SEAL_DONE},
    {"table_add, 256", plain, table_add, GCM_256, SMB3SEAL_DONE},
    {"table_remove", plain, table_remove, 0, SMB3SEAL_DONE},
    {"table_seal, CCM", plain, table_seal, CCM, SMB3SEAL_DONE},
    {"table_seal, GCM", plain, table_seal, GCM, SMB3SEAL_DONE},
    {"table_open, CCM", sealed, table_open, CCM, SMB3SEAL_DONE},
    {"table_open, GCM", sealed, table_open, GCM, SMB3SEAL_DONE},
    {"table_open, CCM, bad tag", sealed_with_bad_tag, table_open, CCM, SMB3SEAL_BAD_TAG},
    {"table_open, GCM, bad tag", sealed_with_bad_tag, table_open, GCM, SMB3SEAL_BAD_TAG},
    {"table_seal, CCM-256", plain, table_seal, CCM_256, SMB3SEAL_DONE},
    {"table_seal, GCM-256", plain, table_seal, GCM_256, SMB3SEAL_DONE},
    {"table_open, CCM-256", sealed, table_open, CCM_256, SMB3SEAL_DONE},
    {"table_open, GCM-256", sealed, table_open, GCM_256, SMB3SEAL_DONE},
    {"table_open, CCM-256, bad tag", sealed_with_bad_tag, table_open, CCM_256, SMB3SEAL_BAD_TAG},
    {"table_open, GCM-256, bad tag", sealed_with_bad_tag, table_open, GCM_256, SMB3SEAL_BAD_TAG},
    {"sign", plain, sign, 0, SMB3SEAL_DONE},
    {"verify", signed_in_clear, verify, 0, SMB3SEAL_DONE},
    {"verify, in pieces", signed_in_clear, verify_pieces, 0, SMB3SEAL_DONE},
};

static void run_current(void)
{
    caller = __builtin_frame_address(0);
    answer = current->run();
}

/* The bytes from the caller's frame down to the deepest that lost its paint. */
static size_t need(const struct call *c, int paint)
{
    ucontext_t here, there;
    size_t deepest = 0;
    current = c;
    c->prepare();
    memset(painted, paint, STACK);
    if (getcontext(&there) != 0) exit(1);
    there.uc_stack.ss_sp = painted;
    there.uc_stack.ss_size = STACK;
    there.uc_link = &here;
    makecontext(&there, run_current, 0);
    if (swapcontext(&here, &there) != 0) exit(1);
    if (answer != c->answer) {
        fprintf(stderr, "stack: %s answered %u\n", c->name, answer);
        exit(1);
    }
    while (painted[deepest] == paint) deepest++;
    return (size_t)(caller - (painted + deepest));
}

int main(int argc, char **argv)
{
    FILE *csv = argc == 2 ? fopen(argv[1], "w") : NULL;
    if (csv == NULL) {
        fprintf(stderr, "usage: stack FILE.csv\n");
        return 2;
    }
    fprintf(csv, "call,bytes_of_stack\n");
    printf("\n%-32s %s\n", "", "bytes of stack");
    for (size_t i = 0; i < sizeof calls / sizeof calls[0]; i++) {
        size_t a = need(&calls[i], 0xA5), b = need(&calls[i], 0x5A);
        size_t bytes = a > b ? a : b;
        printf("%-32s %8zu\n", calls[i].name, bytes);
        fprintf(csv, "\"%s\",%zu\n", calls[i].name, bytes);
    }
    return fclose(csv) == 0 ? 0 : 1;
}
