/*
 * A client and a server that exchange sealed messages over a socket pair, framed as on TCP: a zero byte, three bytes of length, the
 * message. On the way one request is damaged, one arrives twice, two change places, and one is sent back to its sender. Each end keeps
 * its two keys and its counter itself; server.c has the same with session tables. The cipher is one of 256 bits.
 *
 * After a number other than 0 a real server disconnects. This one goes on, so that all the answers can be seen.
 */
#include <smb3seal.h>
#include <smb3seal_text.h>
#include <stdio.h>
#include <stdlib.h>
#include <string.h>
#include <sys/socket.h>
#include <unistd.h>

enum { SESSION = 0x25, ECHO = 13, ECHO_BYTES = 68, SEALED_BYTES = SMB3SEAL_HEADER_BYTES + ECHO_BYTES, REQUESTS = 5 };

/* What one end of a session holds. */
struct end {
    const char *name;
    int socket;
    struct smb3seal_connection connection;
    uint8_t seal_key[SMB3SEAL_KEY_256_BYTES], open_key[SMB3SEAL_KEY_256_BYTES];
    uint64_t counter;
    unsigned seen[16]; /* at the server: how often each MessageId has come */
};

static void must(int holds, const char *what)
{
    if (!holds) {
        fprintf(stderr, "exchange: %s\n", what);
        exit(1);
    }
}

/* Both ends come to the same keys, each from what it saw of negotiate and session setup: `setup` stands for those messages. */
static struct end new_end(const char *name, int socket, int server, const uint8_t *setup, size_t setup_len)
{
    const uint8_t material[32] = {1, 2, 3}; /* the whole key of the authentication: cipher keys of 256 bits come from all of it */
    uint8_t chain[SMB3SEAL_CHAIN_BYTES] = {0}, keys[SMB3SEAL_KEYS_256_BYTES];
    struct end e = {.name = name, .socket = socket};
    e.connection.dialect = SMB3SEAL_DIALECT_311;
    e.connection.cipher = SMB3SEAL_CIPHER_AES_256_GCM;
    e.connection.role = server ? SMB3SEAL_SERVER : SMB3SEAL_CLIENT;
    e.connection.encryption = 1;
    must(smb3seal_fold(chain, sizeof chain, setup, setup_len) == SMB3SEAL_DONE, "folding");
    uint32_t answer = smb3seal_connection_derive(e.connection, material, sizeof material, chain, sizeof chain, keys, sizeof keys);
    must(answer == SMB3SEAL_DONE, "deriving");
    const uint8_t *to_server = keys + SMB3SEAL_CLIENT_TO_SERVER_KEY, *to_client = keys + SMB3SEAL_SERVER_TO_CLIENT_KEY_256;
    memcpy(e.seal_key, server ? to_client : to_server, sizeof e.seal_key);
    memcpy(e.open_key, server ? to_server : to_client, sizeof e.open_key);
    return e;
}

/* ---- the socket */

static void send_frame(int socket, const uint8_t *message, size_t n)
{
    const uint8_t length[4] = {0, (uint8_t)(n >> 16), (uint8_t)(n >> 8), (uint8_t)n};
    must(write(socket, length, 4) == 4 && write(socket, message, n) == (ssize_t)n, "writing");
}

static size_t receive_frame(int socket, uint8_t *message, size_t room)
{
    uint8_t length[4];
    must(recv(socket, length, 4, MSG_WAITALL) == 4 && length[0] == 0, "reading a length");
    size_t n = (size_t)length[1] << 16 | (size_t)length[2] << 8 | length[3];
    must(n <= room && recv(socket, message, n, MSG_WAITALL) == (ssize_t)n, "reading a message");
    return n;
}

/* ---- sealing and opening at one end */

/* An ECHO request or response, sealed. */
static void seal_echo(struct end *e, uint8_t message_id, int response, uint8_t message[SEALED_BYTES])
{
    uint64_t headers;
    uint8_t *inner = message + SMB3SEAL_HEADER_BYTES;
    memset(message, 0, SEALED_BYTES);
    memcpy(inner, "\xFESMB", 4);
    inner[4] = 64;
    inner[12] = ECHO;
    inner[16] = (uint8_t)response;
    inner[24] = message_id;
    inner[40] = SESSION;
    inner[64] = 4;
    uint32_t answer = smb3seal_connection_seal(e->connection, e->seal_key, sizeof e->seal_key, SESSION, &e->counter, message,
                                               SEALED_BYTES, &headers);
    must(answer == SMB3SEAL_DONE, "sealing");
}

/* Receives one message and opens it. Returns its MessageId, or 0 where it was refused: then the message is as it arrived. */
static uint8_t receive(struct end *e, uint8_t *message, size_t room)
{
    uint64_t headers;
    size_t n = receive_frame(e->socket, message, room);
    uint32_t answer = smb3seal_connection_open(e->connection, e->open_key, sizeof e->open_key, SESSION, message, n, &headers);
    if (answer != SMB3SEAL_DONE) {
        printf("%s: refused with %u, %s; begins %02X %c%c%c as it arrived\n", e->name, (unsigned)answer, smb3seal_text(answer),
               message[0], message[1], message[2], message[3]);
        return 0;
    }
    uint8_t message_id = message[SMB3SEAL_HEADER_BYTES + 24];
    printf("%s: opened MessageId %u\n", e->name, message_id);
    return message_id;
}

/* ---- the way from client to server */

static void send_requests(struct end *client)
{
    uint8_t sealed[REQUESTS + 1][SEALED_BYTES];
    for (uint8_t id = 1; id <= REQUESTS; id++) seal_echo(client, id, 0, sealed[id]);
    sealed[2][SEALED_BYTES - 1] ^= 0x80;
    const int order[] = {1, 2, 3, 3, 5, 4};
    printf("on the way: 1, 2 with a bit changed, 3, 3 again, 5 before 4\n");
    for (size_t i = 0; i < sizeof order / sizeof order[0]; i++) send_frame(client->socket, sealed[order[i]], SEALED_BYTES);
}

static void answer_requests(struct end *server, int count)
{
    uint8_t message[SEALED_BYTES];
    for (int i = 0; i < count; i++) {
        uint8_t id = receive(server, message, sizeof message);
        if (id == 0 || id > REQUESTS) continue;
        if (server->seen[id]++ > 0) {
            printf("%s: MessageId %u has come before: a replay opens again, to refuse it is the caller's part\n", server->name, id);
            continue;
        }
        seal_echo(server, id, 1, message);
        send_frame(server->socket, message, sizeof message);
    }
}

int main(void)
{
    const uint8_t setup[64] = {0xFE, 'S', 'M', 'B'};
    uint8_t message[SEALED_BYTES];
    int sockets[2];
    must(socketpair(AF_UNIX, SOCK_STREAM, 0, sockets) == 0, "socketpair");
    struct end client = new_end("client", sockets[0], 0, setup, sizeof setup);
    struct end server = new_end("server", sockets[1], 1, setup, sizeof setup);

    send_requests(&client);
    answer_requests(&server, 6);
    for (int i = 0; i < 4; i++) receive(&client, message, sizeof message);

    seal_echo(&client, 6, 0, message);
    printf("on the way: the client's next request, sent back to it\n");
    send_frame(sockets[1], message, sizeof message);
    receive(&client, message, sizeof message);

    printf("send counters: client %llu, server %llu\n", (unsigned long long)client.counter, (unsigned long long)server.counter);
    close(sockets[0]);
    close(sockets[1]);
    return 0;
}
