/*
 * Negotiate and session setup over a socket pair, folded as they arrive: a client and a server exchange the setup messages of the session
 * that Microsoft published (vectors/smb3.json), framed as on TCP. Each end reads whatever has arrived, some bytes or many, folds it, and
 * never holds a whole message. Both chains are then the published one. A signed message of the session is verified in the same way, as
 * it was sent and with a bit changed. At the end a peer sends too much, and the message is given up.
 */
#include <smb3seal.h>
#include <smb3seal_text.h>
#include <stdio.h>
#include <stdlib.h>
#include <string.h>
#include <sys/socket.h>
#include <unistd.h>

#include "smb3_vectors.h"

enum { FRAME = 4, BUFFER = 100 };

struct end {
    const char *name;
    int socket;
    uint8_t chain[SMB3SEAL_CHAIN_BYTES];
};

static void must(int holds, const char *what)
{
    if (!holds) {
        fprintf(stderr, "pieces: %s\n", what);
        exit(1);
    }
}

/* ---- the socket */

/* The sender writes as it likes, here 1, 2, 3, .. bytes at a time: the reader sees other cuts, or the same. */
static void send_cut(int socket, const uint8_t *bytes, size_t n)
{
    for (size_t done = 0, next = 1; done < n; next++) {
        size_t some = next < n - done ? next : n - done;
        must(write(socket, bytes + done, some) == (ssize_t)some, "writing");
        done += some;
    }
}

/* A zero byte, three bytes of length, the message. */
static void send_message(int socket, const uint8_t *message, size_t n)
{
    const uint8_t frame[FRAME] = {0, (uint8_t)(n >> 16), (uint8_t)(n >> 8), (uint8_t)n};
    send_cut(socket, frame, FRAME);
    send_cut(socket, message, n);
}

/* Whatever has arrived, of so many bytes that are still missing. */
static size_t receive_some(int socket, uint8_t bytes[BUFFER], size_t missing)
{
    ssize_t n = recv(socket, bytes, missing < BUFFER ? missing : BUFFER, 0);
    must(n > 0, "receiving");
    return (size_t)n;
}

static size_t receive_length(int socket)
{
    uint8_t frame[FRAME], bytes[BUFFER];
    for (size_t got = 0, n; got < FRAME; got += n) {
        n = receive_some(socket, bytes, FRAME - got);
        memcpy(frame + got, bytes, n);
    }
    return (size_t)frame[1] << 16 | (size_t)frame[2] << 8 | frame[3];
}

/* ---- messages as they arrive */

/* Stops where a piece is refused: what would be folded then is not the message that was sent. */
static struct smb3seal_fold_step fold_as_it_arrives(struct end *e, int response)
{
    uint8_t bytes[BUFFER];
    struct smb3seal_fold_step step = smb3seal_fold_begin(e->chain, sizeof e->chain);
    for (size_t missing = receive_length(e->socket), n; missing > 0 && step.number == SMB3SEAL_DONE; missing -= n) {
        n = receive_some(e->socket, bytes, missing);
        step = smb3seal_fold_piece(step.state, bytes, n);
    }
    if (step.number != SMB3SEAL_DONE) return step;
    return response ? smb3seal_fold_response_finish(step.state, e->chain, sizeof e->chain)
                    : smb3seal_fold_finish(step.state, e->chain, sizeof e->chain);
}

static uint32_t verify_as_it_arrives(const struct end *e, const uint8_t *key)
{
    uint8_t bytes[BUFFER];
    struct smb3seal_sign_step step = smb3seal_sign_begin(key, SMB3SEAL_KEY_BYTES);
    for (size_t missing = receive_length(e->socket), n; missing > 0 && step.number == SMB3SEAL_DONE; missing -= n) {
        n = receive_some(e->socket, bytes, missing);
        step = smb3seal_sign_piece(step.state, bytes, n);
    }
    return step.number != SMB3SEAL_DONE ? step.number : smb3seal_verify_finish(step.state).number;
}

/* ---- the exchange */

/* The sender has its message whole, and folds it at once. */
static void exchange(struct end *from, struct end *to, const struct fold *f)
{
    uint32_t folded = 1, sent;
    send_message(from->socket, f->message.at, f->message.len);
    struct smb3seal_fold_step got = fold_as_it_arrives(to, f->response);
    sent = f->response ? smb3seal_fold_response(from->chain, sizeof from->chain, f->message.at, f->message.len, &folded)
                       : smb3seal_fold(from->chain, sizeof from->chain, f->message.at, f->message.len);
    must(sent == SMB3SEAL_DONE && folded == got.folded, "folding at the sender");
    int same = memcmp(from->chain, to->chain, SMB3SEAL_CHAIN_BYTES) == 0 && memcmp(to->chain, f->after, SMB3SEAL_CHAIN_BYTES) == 0;
    printf("%s reads a %s of %zu bytes: %s, %s; the chain %s\n", to->name, f->what, f->message.len, smb3seal_text(got.number),
           got.folded ? "folded" : "not folded", same ? "is the published one at both ends" : "DIFFERS");
    must(got.number == SMB3SEAL_DONE && same, "the chains");
}

static void signed_message(const struct end *from, const struct end *to, const struct signature *s)
{
    uint8_t message[1024];
    must(s->message.len <= sizeof message, "a longer message");
    memcpy(message, s->message.at, s->message.len);
    for (int changed = 0; changed <= 1; changed++) {
        message[s->message.len - 1] ^= (uint8_t)changed;
        send_message(from->socket, message, s->message.len);
        uint32_t number = verify_as_it_arrives(to, s->key);
        printf("%s reads a signed message of %zu bytes%s: %s\n", to->name, s->message.len, changed ? " with a bit changed" : "",
               smb3seal_text(number));
        must(number == (changed ? SMB3SEAL_BAD_SIGNATURE : SMB3SEAL_DONE), "verifying");
    }
}

/* More than any setup message has: the reader gives it up at the piece that passes the limit, and its chain is as it was. */
static void too_much(const struct end *to)
{
    static const uint8_t flood[BUFFER];
    uint8_t before[SMB3SEAL_CHAIN_BYTES];
    struct smb3seal_fold_step step = smb3seal_fold_begin(to->chain, sizeof to->chain);
    size_t taken = 0;
    memcpy(before, to->chain, sizeof before);
    while ((step = smb3seal_fold_piece(step.state, flood, sizeof flood)).number == SMB3SEAL_DONE) taken += sizeof flood;
    printf("%s is sent too much: %u; it gives the message up, and its chain %s\n", to->name, (unsigned)step.number,
           memcmp(before, to->chain, sizeof before) == 0 ? "is as it was" : "HAS CHANGED");
    must(taken == SMB3SEAL_LONGEST_MESSAGE / BUFFER * BUFFER, "the limit");
}

int main(void)
{
    int sockets[2];
    const struct session *s = &sessions[0];
    must(socketpair(AF_UNIX, SOCK_STREAM, 0, sockets) == 0, "a socket pair");
    struct end client = {.name = "client", .socket = sockets[0]}, server = {.name = "server", .socket = sockets[1]};
    for (size_t i = 0; i < s->folds; i++)
        exchange(i % 2 == 0 ? &client : &server, i % 2 == 0 ? &server : &client, &folds[s->fold + i]);
    signed_message(&server, &client, &signatures[s->signature]);
    too_much(&server);
    close(sockets[0]);
    close(sockets[1]);
    return 0;
}
