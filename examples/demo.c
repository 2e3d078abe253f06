/*
 * demo [ccm [TRACE]]: the session that Microsoft published in "SMB 3.1.1 Encryption in Windows 10", from negotiate to an opened READ
 * response: appendix A.1 (AES-128-GCM), or with `ccm` appendix A.2 (AES-128-CCM; any other word is A.1). What the library computes is
 * compared with what is published, and the exit status is 1 if anything differs. The session is recorded as a lab trace, and written to
 * the new file TRACE for smb3seal-replay. It holds the session's key: it is made for its owner alone.
 */
#define _POSIX_C_SOURCE 200809L
#include <fcntl.h>
#include <smb3seal.h>
#include <smb3seal_text.h>
#include <stdio.h>
#include <string.h>
#include <unistd.h>

#include "smb3_vectors.h"

static unsigned compared, different;

/* Counts a comparison, and says how it went. */
static const char *verdict(int equal)
{
    compared++;
    if (!equal) different++;
    return equal ? "  = published" : "  DIFFERS FROM THE PUBLISHED VALUE";
}

static void hex(const uint8_t *bytes, size_t n)
{
    for (size_t i = 0; i < n; i++) printf("%s%02X", i > 0 && i % 32 == 0 ? "\n     " : "", bytes[i]);
}

static void chapter(const char *title)
{
    printf("\n%s\n\n", title);
}

/* ---- negotiate and session setup */

static void fold_all(const struct session *s, uint8_t chain[SMB3SEAL_CHAIN_BYTES])
{
    chapter("1. The preauthentication hash value: SHA-512 of the old value followed by each message");
    printf("   fresh\n     ");
    hex(chain, SMB3SEAL_CHAIN_BYTES);
    printf("\n");
    for (const struct fold *f = folds + s->fold; f < folds + s->fold + s->folds; f++) {
        uint32_t folded = 1, number;
        if (f->response)
            number = smb3seal_fold_response(chain, SMB3SEAL_CHAIN_BYTES, f->message.at, f->message.len, &folded);
        else
            number = smb3seal_fold(chain, SMB3SEAL_CHAIN_BYTES, f->message.at, f->message.len);
        printf("   %s, %zu bytes: %s%s\n     ", f->what, f->message.len, smb3seal_text(number),
               folded ? "" : ", not folded: its Status asks for no more");
        hex(chain, SMB3SEAL_CHAIN_BYTES);
        printf("%s\n", verdict(number == SMB3SEAL_DONE && memcmp(chain, f->after, SMB3SEAL_CHAIN_BYTES) == 0));
    }
}

static void derive(const struct session *s, const uint8_t chain[SMB3SEAL_CHAIN_BYTES], uint8_t keys[SMB3SEAL_KEYS_BYTES])
{
    static const char *const names[] = {"signing", "application", "client to server", "server to client"};
    const struct derivation *d = &derivations[s->derivation];
    chapter("2. The keys: from the session key and that value");
    printf("   session key         ");
    hex(d->material.at, d->material.len);
    uint32_t number =
        smb3seal_derive(s->dialect, s->cipher, d->material.at, d->material.len, chain, SMB3SEAL_CHAIN_BYTES, keys, SMB3SEAL_KEYS_BYTES);
    printf("\n   smb3seal_derive: %s\n", smb3seal_text(number));
    for (size_t i = 0; i < 4; i++) {
        size_t at = SMB3SEAL_KEY_BYTES * i;
        printf("     %-18s", names[i]);
        hex(keys + at, SMB3SEAL_KEY_BYTES);
        printf("%s\n", verdict(number == SMB3SEAL_DONE && memcmp(keys + at, d->keys + at, SMB3SEAL_KEY_BYTES) == 0));
    }
}

/* ---- the one message in clear that is signed: the server's last word in the session setup */

static void show_signature(const char *what, uint32_t number, const uint8_t *message, int equal)
{
    printf("   %s: %s, Flags %02X%02X%02X%02X, Signature ", what, smb3seal_text(number), message[16], message[17], message[18], message[19]);
    hex(message + 48, 16);
    printf("%s\n", verdict(number == SMB3SEAL_DONE && equal));
}

static void signature(const struct session *s, const uint8_t *keys)
{
    const struct signature *g = &signatures[s->signature];
    const uint8_t *key = keys + SMB3SEAL_SIGNING_KEY;
    uint8_t message[256];
    chapter("3. The session setup response that ends the setup, signed under the new key");
    memcpy(message, g->message.at, g->message.len);
    uint32_t number = smb3seal_verify(key, SMB3SEAL_KEY_BYTES, message, g->message.len);
    show_signature("client verifies", number, message, memcmp(message, g->message.at, g->message.len) == 0);
    message[16] &= (uint8_t)~8;
    memset(message + 48, 0, 16);
    number = smb3seal_sign(key, SMB3SEAL_KEY_BYTES, message, g->message.len);
    show_signature("server signs   ", number, message, memcmp(message, g->message.at, g->message.len) == 0);
    message[g->message.len - 1] ^= 1;
    printf("   its last bit changed: %s\n", smb3seal_text(smb3seal_verify(key, SMB3SEAL_KEY_BYTES, message, g->message.len)));
}

/* ---- sealed messages */

static uint32_t open_it(const struct session *s, uint32_t role, const uint8_t *key, uint8_t *message, size_t n, uint64_t *headers)
{
    return smb3seal_open(role, s->dialect, 1, s->cipher, key, SMB3SEAL_KEY_BYTES, s->id, message, n, headers);
}

/* The published message made again from its plaintext. */
static void seal_again(const struct session *s, const uint8_t *key, uint64_t *counter, const struct transform *t)
{
    uint8_t message[256] = {0};
    uint64_t headers = 0, before = *counter;
    size_t n = t->message.len;
    memcpy(message + SMB3SEAL_HEADER_BYTES, t->plaintext.at, t->plaintext.len);
    uint32_t number =
        smb3seal_seal(SMB3SEAL_SERVER, s->dialect, 1, s->cipher, key, SMB3SEAL_KEY_BYTES, s->id, counter, message, n, &headers);
    printf("   server seals from counter %016llX: %s, %zu bytes\n     ", (unsigned long long)before, smb3seal_text(number), n);
    hex(message, n);
    printf("%s\n", verdict(number == SMB3SEAL_DONE && memcmp(message, t->message.at, n) == 0));
}

/* Each message through both ends; `message` is left with the last one, opened. */
static void exchange(const struct session *s, const uint8_t *keys, uint8_t *message)
{
    uint64_t counter = 0;
    chapter("4. Sealed messages");
    for (const struct transform *t = transforms + s->transform; t < transforms + s->transform + s->transforms; t++) {
        int from_server = strstr(t->what, "response") != NULL;
        const uint8_t *key = keys + (from_server ? SMB3SEAL_SERVER_TO_CLIENT_KEY : SMB3SEAL_CLIENT_TO_SERVER_KEY);
        uint64_t headers = 0;
        const char *how = t->sealed_by_counter ? "from a counter" : "under a random nonce";
        printf("%s   %s, %zu bytes, sealed %s\n", t == transforms + s->transform ? "" : "\n", t->what, t->message.len, how);
        /* the server began where it liked; the second response has the counter that sealing the first one handed back */
        if (t->sealed_by_counter && counter == 0) counter = t->counter;
        if (t->sealed_by_counter) seal_again(s, key, &counter, t);
        memcpy(message, t->message.at, t->message.len);
        uint32_t number = open_it(s, from_server ? SMB3SEAL_CLIENT : SMB3SEAL_SERVER, key, message, t->message.len, &headers);
        int equal = headers == 1 && memcmp(message + SMB3SEAL_HEADER_BYTES, t->plaintext.at, t->plaintext.len) == 0;
        printf("   %s opens: %s, headers: %llu, plaintext: %zu bytes%s\n", from_server ? "client" : "server", smb3seal_text(number),
               (unsigned long long)headers, t->plaintext.len, verdict(number == SMB3SEAL_DONE && equal));
    }
}

/* ---- the last message, field by field */

static const struct field {
    size_t at, length;
    const char *name;
} fields[] = {
    {0, 4, "ProtocolId"},   {4, 16, "Signature"},  {20, 16, "Nonce"},      {36, 4, "OriginalMessageSize"},
    {40, 2, "Reserved"},    {42, 2, "Flags"},      {44, 8, "SessionId"},   {52, 4, "  ProtocolId"},
    {56, 2, "  StructureSize"}, {58, 2, "  CreditCharge"}, {60, 4, "  Status"},  {64, 2, "  Command"},
    {66, 2, "  CreditResponse"}, {68, 4, "  Flags"}, {72, 4, "  NextCommand"}, {76, 8, "  MessageId"},
    {84, 4, "  Reserved"},  {88, 4, "  TreeId"},   {92, 8, "  SessionId"}, {100, 16, "  Signature"},
    {116, 2, "    StructureSize"}, {118, 1, "    DataOffset"}, {119, 1, "    Reserved"}, {120, 4, "    DataLength"},
    {124, 4, "    DataRemaining"}, {128, 4, "    Flags"}, {132, 23, "    Buffer"},
};

static void show_fields(const uint8_t *message)
{
    chapter("5. The READ response, as opened: transform header, SMB 2 header, READ response");
    for (size_t i = 0; i < sizeof fields / sizeof fields[0]; i++) {
        const struct field *f = &fields[i];
        printf("   %3zu  %-22s", f->at, f->name);
        hex(message + f->at, f->length);
        uint64_t value = 0;
        for (size_t k = f->length; k > 0 && f->length <= 8; k--) value = value << 8 | message[f->at + k - 1];
        if (f->length <= 8) printf("%*s0x%llX", (int)(20 - 2 * f->length), "", (unsigned long long)value);
        printf("\n");
    }
    printf("   the file's content: \"%.23s\"%s\n", (const char *)message + 132,
           verdict(memcmp(message + 132, "Smb3 encryption testing", 23) == 0));
}

static void damage(const struct session *s, const uint8_t *keys)
{
    const struct transform *t = &transforms[s->transform + s->transforms - 1];
    uint8_t message[256], lent[256];
    uint64_t headers = 77;
    memcpy(message, t->message.at, t->message.len);
    message[140] ^= 0x01;
    memcpy(lent, message, t->message.len);
    chapter("6. The same response with one bit of byte 140 changed on the way");
    uint32_t number = open_it(s, SMB3SEAL_CLIENT, keys + SMB3SEAL_SERVER_TO_CLIENT_KEY, message, t->message.len, &headers);
    int unchanged = memcmp(message, lent, t->message.len) == 0 && headers == 77;
    printf("   client opens: %u, %s\n", (unsigned)number, smb3seal_text(number));
    printf("   the message is %s\n", unchanged ? "as it arrived, byte for byte: no plaintext is left behind" : "CHANGED");
    if (number != SMB3SEAL_BAD_TAG || !unchanged) different++;
    compared++;
}

/* ---- the session as a lab trace */

enum { TRACE_ROOM = 4096 };

static uint32_t record(uint32_t kind, const char *what, struct bytes payload, uint8_t *trace, size_t *at)
{
    return smb3seal_trace_record(kind, strstr(what, "response") != NULL, payload.at, payload.len, trace, TRACE_ROOM, at);
}

/* What passed, in its order: setup, then the lab session, then the sealed messages. The session's record holds its key. */
static uint32_t record_session(const struct session *s, uint8_t *trace, size_t *at)
{
    uint8_t lab[SMB3SEAL_TRACE_SESSION_BYTES];
    for (int i = 0; i < 8; i++) lab[i] = (uint8_t)(s->id >> (56 - 8 * i));
    memcpy(lab + 8, derivations[s->derivation].material.at, SMB3SEAL_KEY_BYTES);
    uint32_t number = smb3seal_trace_head(SMB3SEAL_TRACE_EDITION, s->dialect, s->cipher, trace, TRACE_ROOM, at);
    for (const struct fold *f = folds + s->fold; number == SMB3SEAL_DONE && f < folds + s->fold + s->folds; f++) {
        uint32_t kind = strstr(f->what, "negotiate") != NULL ? SMB3SEAL_TRACE_NEGOTIATE : SMB3SEAL_TRACE_SETUP;
        number = record(kind, f->what, f->message, trace, at);
    }
    if (number == SMB3SEAL_DONE)
        number = record(SMB3SEAL_TRACE_SESSION, "", (struct bytes){lab, sizeof lab}, trace, at);
    for (const struct transform *t = transforms + s->transform; number == SMB3SEAL_DONE && t < transforms + s->transform + s->transforms; t++)
        number = record(SMB3SEAL_TRACE_SEALED, t->what, t->message, trace, at);
    return number;
}

/* Whether the trace is in a new file. Rights that are given when a file is made hold before its first byte; a file that is there is left. */
static int write_trace(const char *path, const uint8_t *trace, size_t len)
{
    int fd = open(path, O_WRONLY | O_CREAT | O_EXCL, S_IRUSR | S_IWUSR);
    FILE *file = fd >= 0 ? fdopen(fd, "wb") : NULL;
    if (file == NULL) {
        perror(path);
        if (fd >= 0) close(fd);
        return 0;
    }
    int written = fwrite(trace, 1, len, file) == len;
    if (fclose(file) == 0 && written) return 1;
    perror(path);
    unlink(path);
    return 0;
}

static void show_trace(const struct session *s, const char *path)
{
    static const char *const kinds[] = {"negotiate", "session setup", "sealed", "lab session"};
    uint8_t trace[TRACE_ROOM];
    size_t end = 0, at = SMB3SEAL_TRACE_HEAD_BYTES, payload = 0, payload_len = 0;
    uint32_t kind = 0, from_server = 0, records = 0;
    chapter("7. The session as a lab trace, which smb3seal-replay replays; it holds the session key");
    uint32_t number = record_session(s, trace, &end);
    printf("   recorded: %s, %zu bytes\n", smb3seal_text(number), end);
    while ((number = smb3seal_trace_read(trace, end, &at, &kind, &from_server, &payload, &payload_len)) == SMB3SEAL_DONE && payload_len > 0)
        printf("   %2u  %-14s from the %s, %zu bytes at %zu\n", (unsigned)records++, kinds[kind], from_server ? "server" : "client",
               payload_len, payload);
    if (number != SMB3SEAL_DONE || at != end || records != s->folds + 1 + s->transforms) different++;
    compared++;
    if (path != NULL && !write_trace(path, trace, end)) different++;
}

int main(int argc, char **argv)
{
    const struct session *s = &sessions[argc > 1 && strcmp(argv[1], "ccm") == 0];
    uint8_t chain[SMB3SEAL_CHAIN_BYTES] = {0}, keys[SMB3SEAL_KEYS_BYTES] = {0}, message[256] = {0};
    printf("smb3seal %s: a published session on dialect 3.1.1 with AES-128-%s\n", SMB3SEAL_VERSION,
           s->cipher == SMB3SEAL_CIPHER_AES_128_GCM ? "GCM" : "CCM");
    fold_all(s, chain);
    derive(s, chain, keys);
    signature(s, keys);
    exchange(s, keys, message);
    show_fields(message);
    damage(s, keys);
    show_trace(s, argc > 2 ? argv[2] : NULL);
    printf("\n%u comparisons, %u differ\n", compared, different);
    return different == 0 ? 0 : 1;
}
