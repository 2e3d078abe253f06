/*
 * smb3seal-explain TRACE: a lab trace record by record, for a reader. For each record one line: its index, its kind, the end that it comes
 * from, the length of its payload, the answer number that smb3seal-replay writes, and what that means; all by the library's own calls. As in
 * the replay, a payload of more than 65,536 bytes gets "long" and changes nothing. The status is 0, or 3 where a record cannot be read, 1
 * where the file cannot, 2 after a wrong use. Nothing here is proved.
 */
#include <errno.h>
#include <smb3seal.h>
#include <smb3seal_text.h>
#include <stdio.h>
#include <stdlib.h>
#include <string.h>

enum { SESSIONS = 16, HELD = 65536 };

/* What a replay keeps: the chain of the connection, that of the session that is set up, and the sessions. */
struct lab {
    struct smb3seal_connection connection;
    uint8_t connection_chain[SMB3SEAL_CHAIN_BYTES], session_chain[SMB3SEAL_CHAIN_BYTES];
    struct smb3seal_session table[SESSIONS];
};

static void begin_session_chain(struct lab *lab)
{
    memcpy(lab->session_chain, lab->connection_chain, sizeof lab->session_chain);
}

static uint32_t add(struct lab *lab, const uint8_t *payload)
{
    uint64_t id = 0;
    for (int i = 0; i < 8; i++) id = id << 8 | payload[i];
    uint32_t number = smb3seal_table_add(lab->table, SESSIONS, lab->connection, id, 0, 0, payload + 8, SMB3SEAL_KEY_BYTES,
                                         lab->session_chain, sizeof lab->session_chain);
    begin_session_chain(lab);
    return number;
}

/* The answer of a record; folded is 0 for a setup response that its status keeps out of the chain. */
static uint32_t step(struct lab *lab, uint32_t kind, uint32_t from_server, uint8_t *payload, size_t len, uint32_t *folded)
{
    uint64_t headers = 0;
    uint32_t number;
    switch (kind) {
    case SMB3SEAL_TRACE_NEGOTIATE:
        number = smb3seal_fold(lab->connection_chain, sizeof lab->connection_chain, payload, len);
        begin_session_chain(lab);
        return number;
    case SMB3SEAL_TRACE_SETUP:
        if (from_server) return smb3seal_fold_response(lab->session_chain, sizeof lab->session_chain, payload, len, folded);
        return smb3seal_fold(lab->session_chain, sizeof lab->session_chain, payload, len);
    case SMB3SEAL_TRACE_SEALED:
        lab->connection.role = from_server ? SMB3SEAL_CLIENT : SMB3SEAL_SERVER;
        return smb3seal_table_open(lab->table, SESSIONS, lab->connection, payload, len, &headers);
    default:
        return add(lab, payload);
    }
}

static int explain(uint8_t *trace, size_t len)
{
    static const char *const kinds[] = {"negotiate", "setup", "sealed", "session"};
    struct lab lab = {.connection = {.encryption = 1}};
    size_t at = SMB3SEAL_TRACE_HEAD_BYTES, payload = 0, payload_len = 0, index = 0;
    uint32_t kind = 0, from_server = 0;
    uint8_t edition = 0;
    if (smb3seal_trace_read_head(trace, len, &edition, &lab.connection.dialect, &lab.connection.cipher) != SMB3SEAL_DONE) {
        printf("stop 0: no file head that can be read\n");
        return 3;
    }
    for (;; index++) {
        if (smb3seal_trace_read(trace, len, &at, &kind, &from_server, &payload, &payload_len) != SMB3SEAL_DONE) {
            printf("stop %zu: no record that can be read begins here\n", at);
            return 3;
        }
        if (payload_len == 0) return 0;
        printf("%zu %s %s %zu ", index, kinds[kind], from_server ? "server" : "client", payload_len);
        if (payload_len > HELD) {
            printf("long the replay holds %d bytes: the record is passed over\n", HELD);
            continue;
        }
        uint32_t folded = 1, number = step(&lab, kind, from_server, trace + payload, payload_len, &folded);
        printf("%u %s%s\n", (unsigned)number, smb3seal_text(number), number == SMB3SEAL_DONE && !folded ? ", and not folded" : "");
    }
}

/* The whole file, or NULL; one byte of room more, so that an empty one is not NULL. */
static uint8_t *read_all(FILE *file, size_t *len)
{
    size_t room = 65536, got;
    uint8_t *bytes = malloc(room + 1);
    *len = 0;
    while (bytes != NULL && (got = fread(bytes + *len, 1, room - *len, file)) > 0) {
        *len += got;
        if (*len < room) continue;
        uint8_t *more = realloc(bytes, 2 * room + 1);
        if (more == NULL) free(bytes);
        bytes = more;
        room *= 2;
    }
    if (bytes != NULL && ferror(file)) {
        free(bytes);
        return NULL;
    }
    return bytes;
}

int main(int argc, char **argv)
{
    if (argc == 2 && (strcmp(argv[1], "--help") == 0 || strcmp(argv[1], "-h") == 0)) return printf("usage: smb3seal-explain TRACE\n") < 0;
    if (argc == 2 && strcmp(argv[1], "--version") == 0) return printf("smb3seal-explain %s\n", SMB3SEAL_VERSION) < 0;
    if (argc != 2) {
        fprintf(stderr, "usage: smb3seal-explain TRACE\n");
        return 2;
    }
    size_t len = 0;
    FILE *file = fopen(argv[1], "rb");
    uint8_t *trace = file != NULL ? read_all(file, &len) : NULL;
    if (trace == NULL) {
        fprintf(stderr, "smb3seal-explain: %s: %s\n", argv[1], strerror(errno));
        if (file != NULL) fclose(file);
        return 1;
    }
    fclose(file);
    int status = explain(trace, len);
    free(trace);
    if (fflush(stdout) != 0 || ferror(stdout)) {
        fprintf(stderr, "smb3seal-explain: standard output: %s\n", strerror(errno));
        return 1;
    }
    return status;
}
