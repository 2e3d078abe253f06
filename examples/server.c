/*
 * A server and its clients on socket pairs, framed as on TCP: a zero byte, three bytes of length, the message. Keys, counters and the
 * choice of a key are left to the session table: of the library, nothing is called but the calls with a table.
 *
 * The server has room for three sessions. A fourth client has to wait for a logoff; one client is a guest, one gets a break notice, one
 * sends a message twice, one message is damaged on the way, one comes by another's connection, and one after its session was removed.
 * One client has agreed on a cipher of 256 bits: its session stands in the same table, and is of no use under the others' cipher.
 */
#include <smb3seal.h>
#include <smb3seal_text.h>
#include <stdio.h>
#include <stdlib.h>
#include <string.h>
#include <sys/socket.h>
#include <unistd.h>

enum { LOGOFF = 2, ECHO = 13, OPLOCK_BREAK = 18, INNER_BYTES = 68, NOTICE_BYTES = 88, RECORDS = 3 };
enum { SEALED_BYTES = SMB3SEAL_HEADER_BYTES + INNER_BYTES, SEALED_NOTICE_BYTES = SMB3SEAL_HEADER_BYTES + NOTICE_BYTES };

/* A client: a table of one session, and both ends of its connection. */
struct client {
    const char *name;
    uint8_t id, guest;
    uint16_t cipher;
    int socket, at_server;
    struct smb3seal_session table[1];
};

/* What client and server agreed on, as one of the two has it. */
static struct smb3seal_connection agreed(const struct client *c, uint8_t role)
{
    return (struct smb3seal_connection){.dialect = SMB3SEAL_DIALECT_311, .cipher = c->cipher, .role = role, .encryption = 1};
}

/* The server: its table, and at the same place what it keeps of a session itself. */
static struct smb3seal_session table[RECORDS];
static struct user {
    const char *name;
    int socket;
    uint8_t seen[256]; /* which MessageIds have come: here they have one byte */
} users[RECORDS];

static void must(int holds, const char *what)
{
    if (!holds) {
        fprintf(stderr, "server: %s\n", what);
        exit(1);
    }
}

/* ---- messages */

/* Room for a transform header, and an SMB 2 message of this command. */
static void make(uint8_t message[SEALED_BYTES], uint64_t id, uint8_t command, uint8_t message_id, int response)
{
    uint8_t *inner = message + SMB3SEAL_HEADER_BYTES;
    memset(message, 0, SEALED_BYTES);
    memcpy(inner, "\xFESMB", 4);
    inner[4] = 64;
    inner[12] = command;
    inner[16] = (uint8_t)response;
    inner[24] = message_id;
    for (int i = 0; i < 8; i++) inner[40 + i] = (uint8_t)(id >> 8 * i);
    inner[64] = 4;
}

/* The three marks of a header that comes unasked and names no session. */
static int is_break_notice(const uint8_t *header)
{
    static const uint8_t ones[8] = {0xFF, 0xFF, 0xFF, 0xFF, 0xFF, 0xFF, 0xFF, 0xFF}, zeros[8];
    int command = header[12] == OPLOCK_BREAK && header[13] == 0;
    return command && memcmp(header + 24, ones, 8) == 0 && memcmp(header + 40, zeros, 8) == 0;
}

/* The session that the transform header names: after an answer of 0, the one that opened the message. */
static uint64_t session_id(const uint8_t *message)
{
    uint64_t id = 0;
    for (int i = 51; i >= 44; i--) id = id << 8 | message[i];
    return id;
}

static void send_frame(int socket, const uint8_t *message, size_t n)
{
    const uint8_t length[4] = {0, (uint8_t)(n >> 16), (uint8_t)(n >> 8), (uint8_t)n};
    must(write(socket, length, 4) == 4 && write(socket, message, n) == (ssize_t)n, "writing");
}

static size_t receive_frame(int socket, uint8_t *message, size_t room)
{
    uint8_t length[4];
    must(recv(socket, length, 4, MSG_WAITALL) == 4 && length[0] == 0, "reading a length");
    size_t n = (size_t)length[1] << 16 | (size_t)length[2] << 8 | length[3];
    must(n <= room && recv(socket, message, n, MSG_WAITALL) == (ssize_t)n, "reading a message");
    return n;
}

/* ---- the server */

static void say(const char *who, const char *what, uint32_t answer)
{
    printf("%s: %s: %u, %s\n", who, what, (unsigned)answer, smb3seal_text(answer));
}

/* The end of a session setup: both ends have the key of the authentication, and the same hash value of what was said before. */
static void login(struct client *c)
{
    const uint8_t key[32] = {1, 2, c->id}, chain[SMB3SEAL_CHAIN_BYTES] = {4, 5, c->id};
    uint32_t answer =
        smb3seal_table_add(table, RECORDS, agreed(c, SMB3SEAL_SERVER), c->id, c->guest, 0, key, sizeof key, chain, sizeof chain);
    say(c->name, c->guest ? "logs in as guest" : "logs in", answer);
    if (answer != SMB3SEAL_DONE) return;
    users[smb3seal_table_find(table, RECORDS, c->id)] = (struct user){.name = c->name, .socket = c->at_server};
    answer = smb3seal_table_add(c->table, 1, agreed(c, SMB3SEAL_CLIENT), c->id, c->guest, 0, key, sizeof key, chain, sizeof chain);
    must(answer == SMB3SEAL_DONE, "a client cannot add its session");
}

/* One message from a client's connection. A real server disconnects where this one only says why. */
static void serve(const struct client *from)
{
    struct smb3seal_connection connection = agreed(from, SMB3SEAL_SERVER);
    uint8_t message[SEALED_BYTES];
    uint64_t headers;
    size_t n = receive_frame(from->at_server, message, sizeof message);
    uint32_t answer = smb3seal_table_open(table, RECORDS, connection, message, n, &headers);
    if (answer != SMB3SEAL_DONE) {
        say("server", "refuses", answer);
        return;
    }
    uint64_t id = session_id(message);
    struct user *user = &users[smb3seal_table_find(table, RECORDS, id)];
    uint8_t command = message[SMB3SEAL_HEADER_BYTES + 12], message_id = message[SMB3SEAL_HEADER_BYTES + 24];
    printf("server: opened MessageId %d of %s\n", message_id, user->name);
    if (user->socket != from->at_server) {
        printf("server: it came by another's connection: that is for the program to check\n");
        return;
    }
    if (user->seen[message_id]++ > 0) {
        printf("server: it has come before: a replay opens again, and MessageIds are for the program to check\n");
        return;
    }
    make(message, id, command, message_id, 1);
    answer = smb3seal_table_seal(table, RECORDS, connection, id, message, sizeof message, &headers);
    must(answer == SMB3SEAL_DONE, "a response cannot be sealed");
    send_frame(from->at_server, message, sizeof message);
    if (command == LOGOFF) say("server", "removes the session", smb3seal_table_remove(table, RECORDS, id));
}

/* Of the notice itself, which says what is broken, there is but its size. */
static void notify(const struct client *c)
{
    uint8_t message[SEALED_NOTICE_BYTES] = {0};
    uint64_t headers;
    make(message, 0, OPLOCK_BREAK, 0xFF, 1);
    memset(message + SMB3SEAL_HEADER_BYTES + 24, 0xFF, 8);
    message[SMB3SEAL_HEADER_BYTES + 64] = NOTICE_BYTES - 64;
    uint32_t answer = smb3seal_table_seal(table, RECORDS, agreed(c, SMB3SEAL_SERVER), c->id, message, sizeof message, &headers);
    say("server", "seals a break notice", answer);
    send_frame(c->at_server, message, sizeof message);
}

/* ---- the clients */

static struct client connected(const char *name, uint8_t id, uint8_t guest, uint16_t cipher)
{
    int sockets[2];
    must(socketpair(AF_UNIX, SOCK_STREAM, 0, sockets) == 0, "socketpair");
    return (struct client){.name = name, .id = id, .guest = guest, .cipher = cipher, .socket = sockets[0], .at_server = sockets[1]};
}

static void sealed(struct client *c, uint8_t command, uint8_t message_id, uint8_t message[SEALED_BYTES])
{
    uint64_t headers;
    make(message, c->id, command, message_id, 0);
    uint32_t answer = smb3seal_table_seal(c->table, 1, agreed(c, SMB3SEAL_CLIENT), c->id, message, SEALED_BYTES, &headers);
    must(answer == SMB3SEAL_DONE, "sealing");
}

/* A client looks for the marks of a break notice before it looks for the request. */
static void response(struct client *c)
{
    uint8_t message[SEALED_NOTICE_BYTES];
    uint64_t headers;
    size_t n = receive_frame(c->socket, message, sizeof message);
    uint32_t answer = smb3seal_table_open(c->table, 1, agreed(c, SMB3SEAL_CLIENT), message, n, &headers);
    int notice = answer == SMB3SEAL_DONE && is_break_notice(message + SMB3SEAL_HEADER_BYTES);
    say(c->name, notice ? "opens a break notice, which answers no request" : "opens its response", answer);
}

static void exchange(struct client *c, uint8_t command, uint8_t message_id)
{
    uint8_t message[SEALED_BYTES];
    sealed(c, command, message_id, message);
    send_frame(c->socket, message, sizeof message);
    serve(c);
    response(c);
}

/* ---- what goes wrong on the way */

static void replayed_damaged_and_misled(struct client *bob, struct client *ann)
{
    uint8_t message[SEALED_BYTES];
    sealed(bob, ECHO, 2, message);
    printf("on the way: Bob's next message, twice\n");
    for (int i = 0; i < 2; i++) {
        send_frame(bob->socket, message, sizeof message);
        serve(bob);
    }
    response(bob);
    sealed(bob, ECHO, 3, message);
    printf("on the way: Bob's next message, by Ann's connection, and then with a bit changed by his own\n");
    send_frame(ann->socket, message, sizeof message);
    serve(ann);
    message[SEALED_BYTES - 1] ^= 0x80;
    send_frame(bob->socket, message, sizeof message);
    serve(bob);
}

static void seal_for_guest(const struct client *guest)
{
    uint8_t message[SEALED_BYTES];
    uint64_t headers;
    make(message, guest->id, ECHO, 1, 1);
    uint32_t answer = smb3seal_table_seal(table, RECORDS, agreed(guest, SMB3SEAL_SERVER), guest->id, message, sizeof message, &headers);
    say("server", "seals for a guest", answer);
}

int main(void)
{
    const uint16_t short_keys = SMB3SEAL_CIPHER_AES_128_GCM, long_keys = SMB3SEAL_CIPHER_AES_256_GCM;
    struct client ann = connected("Ann", 0x11, 0, short_keys), bob = connected("Bob", 0x22, 0, short_keys),
                  guest = connected("Guest", 0x33, 1, short_keys), cid = connected("Cid", 0x44, 0, long_keys);
    uint8_t late[SEALED_BYTES];
    login(&ann);
    login(&bob);
    login(&guest);
    login(&cid);
    exchange(&ann, ECHO, 1);
    exchange(&bob, ECHO, 1);
    notify(&bob);
    response(&bob);
    seal_for_guest(&guest);
    replayed_damaged_and_misled(&bob, &ann);

    sealed(&ann, ECHO, 3, late);
    exchange(&ann, LOGOFF, 2);
    printf("on the way: a message of Ann's that comes after her logoff\n");
    send_frame(ann.socket, late, sizeof late);
    serve(&ann);
    login(&cid);
    exchange(&cid, ECHO, 1);
    sealed(&cid, ECHO, 2, late);
    printf("on the way: a message of Cid's, by the connection of Bob, who has agreed on a cipher of 128 bits\n");
    send_frame(bob.socket, late, sizeof late);
    serve(&bob);
    for (size_t i = 0; i < RECORDS; i++)
        printf("record %zu: %s, session %02X, sealed %d, cipher keys of %d bytes\n", i, users[i].name, (unsigned)table[i].id,
               (int)table[i].counter, table[i].wide ? SMB3SEAL_KEY_256_BYTES : SMB3SEAL_KEY_BYTES);
    return 0;
}
