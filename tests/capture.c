/*
 * Writes a capture for tshark: six connections with the published negotiation and session setup, and then messages that the
 * library sealed under the keys that it derived, and others in clear that it signed. 3.1.1 with GCM and with CCM are the published sessions, in which the published
 * sealed messages are sent too; for 3.0 and 3.0.2 the dialect in the negotiate response and the session's id are replaced, and for the
 * ciphers of 256 bits the cipher there. On 3.0.2 the library is asked for cipher 2, and must seal with CCM all the same.
 *
 * Usage: capture PCAP LIST. The list has a line for each session (its id as on the wire, its session key), one for each sealed message
 * (its inner bytes), in hexadecimal, and one for each message in clear (good or bad: whether its signature is right).
 */
#include <stdio.h>
#include <stdlib.h>
#include <string.h>

#include "../include/smb3seal.h"
#include "check.h"
#include "messages.h"
#include "smb3_vectors.h"

enum direction { REQUEST, RESPONSE };
enum { SETUP_MESSAGES = 6, SEGMENT = 1400, LONGEST = 70000 };

struct conversation {
    uint16_t dialect, cipher, port;
    uint64_t id;
    const struct fold *setup; /* its six messages */
    const struct bytes *material;
    uint8_t chain[64], keys[96];
    uint64_t counters[2];
    uint32_t sequence[2];
};

static FILE *pcap, *list;

/* ---- the capture: raw IPv4, TCP port 445, each message behind its length */

static void put_big_endian(uint8_t *at, uint64_t value, size_t n)
{
    for (size_t i = 0; i < n; i++) at[i] = (uint8_t)(value >> (8 * (n - 1 - i)));
}

static void write_file_header(void)
{
    uint8_t header[24] = {0};
    put(header, 0xA1B2C3D4, 4);
    put(header + 4, 2, 2);
    put(header + 6, 4, 2);
    put(header + 16, 262144, 4);
    put(header + 20, 101, 4);
    fwrite(header, 1, sizeof header, pcap);
}

static void write_segment(struct conversation *s, enum direction d, const uint8_t *bytes, size_t n)
{
    static uint32_t seconds;
    uint8_t record[16 + 40] = {0}, *ip = record + 16, *tcp = ip + 20;
    put(record, ++seconds, 4);
    put(record + 8, 40 + n, 4);
    put(record + 12, 40 + n, 4);
    ip[0] = 0x45;
    put_big_endian(ip + 2, 40 + n, 2);
    ip[8] = 64;
    ip[9] = 6;
    put_big_endian(ip + 12, d == REQUEST ? 0x0A000001 : 0x0A000002, 4);
    put_big_endian(ip + 16, d == REQUEST ? 0x0A000002 : 0x0A000001, 4);
    put_big_endian(tcp, d == REQUEST ? s->port : 445, 2);
    put_big_endian(tcp + 2, d == REQUEST ? 445 : s->port, 2);
    put_big_endian(tcp + 4, 1 + s->sequence[d], 4);
    put_big_endian(tcp + 8, 1 + s->sequence[1 - d], 4);
    tcp[12] = 0x50;
    tcp[13] = 0x18;
    put_big_endian(tcp + 14, 65535, 2);
    fwrite(record, 1, sizeof record, pcap);
    fwrite(bytes, 1, n, pcap);
    s->sequence[d] += (uint32_t)n;
}

static void send(struct conversation *s, enum direction d, const uint8_t *message, size_t n)
{
    static uint8_t stream[4 + LONGEST];
    put_big_endian(stream, n, 4);
    memcpy(stream + 4, message, n);
    for (size_t at = 0; at < n + 4; at += SEGMENT) write_segment(s, d, stream + at, n + 4 - at < SEGMENT ? n + 4 - at : SEGMENT);
}

/* ---- the list */

static void write_hexadecimal(const uint8_t *bytes, size_t n)
{
    for (size_t i = 0; i < n; i++) fprintf(list, "%02x", bytes[i]);
}

static void list_inner(const uint8_t *inner, size_t n)
{
    fprintf(list, "inner ");
    write_hexadecimal(inner, n);
    fprintf(list, "\n");
}

static void list_session(const struct conversation *s)
{
    uint8_t id[8];
    put(id, s->id, 8);
    fprintf(list, "session ");
    write_hexadecimal(id, 8);
    fprintf(list, " ");
    write_hexadecimal(s->material->at, s->material->len);
    fprintf(list, "\n");
}

/* ---- a session: its setup, sent and folded; then sealed messages */

/* The one cipher of a negotiate response: in the list of contexts, the data behind the count of that of type 2 (MS-SMB2 2.2.4.1.2). */
static uint8_t *cipher_of_response(uint8_t *message)
{
    uint8_t *context = message + message[HEADER + 60] + 256 * message[HEADER + 61];
    while (context[0] != 2) context += (8 + context[2] + 7) / 8 * 8;
    return context + 8 + 2;
}

static void set_up(struct conversation *s)
{
    uint8_t message[1000];
    uint32_t folded;
    for (size_t i = 0; i < SETUP_MESSAGES; i++) {
        const struct bytes *m = &s->setup[i].message;
        memcpy(message, m->at, m->len);
        if (i == 1) put(message + HEADER + 4, s->dialect, 2);
        if (i == 1 && s->cipher > 2) put(cipher_of_response(message), s->cipher, 2);
        if (i >= 3) put(message + 40, s->id, 8);
        if (i % 2 == 1 && i > 1) expect(smb3seal_fold_response(s->chain, 64, message, m->len, &folded) == 0, "folding", i);
        else expect(smb3seal_fold(s->chain, 64, message, m->len) == 0, "folding", i);
        send(s, i % 2 == 0 ? REQUEST : RESPONSE, message, m->len);
    }
    size_t n = smb3seal_keys_bytes(s->dialect, s->cipher);
    uint32_t r = smb3seal_derive(s->dialect, s->cipher, s->material->at, s->material->len, s->chain, 64, s->keys, n);
    expect(r == 0, "deriving", s->dialect);
    list_session(s);
}

static void seal_and_send(struct conversation *s, enum direction d, const uint8_t *inner, size_t n)
{
    static uint8_t message[LONGEST];
    uint64_t headers;
    size_t key_len = smb3seal_cipher_key_bytes(s->dialect, s->cipher), key = SMB3SEAL_CLIENT_TO_SERVER_KEY + (d == REQUEST ? 0 : key_len);
    uint32_t role = d == REQUEST ? SMB3SEAL_CLIENT : SMB3SEAL_SERVER;
    memcpy(message + TRANSFORM, inner, n);
    uint32_t r = smb3seal_seal(role, s->dialect, 1, s->cipher, s->keys + key, key_len, s->id, &s->counters[d], message, TRANSFORM + n,
                               &headers);
    expect(r == 0, "sealing", n);
    list_inner(inner, n);
    send(s, d, message, TRANSFORM + n);
}

/* An ECHO (Command 13) of this length, whose data is a marker of its own. */
static size_t put_echo(uint8_t *at, const struct conversation *s, enum direction d, uint64_t message_id, size_t n)
{
    fill(at, n);
    put_header(at, d == RESPONSE ? 1 : 0, 0, s->id);
    put(at + 4, 64, 2);
    put(at + 12, 13, 2);
    put(at + 24, message_id, 8);
    put(at + HEADER, 4, 4);
    return n;
}

static void talk(struct conversation *s)
{
    static uint8_t inner[LONGEST];
    for (size_t i = 0; i < 40; i++) {
        enum direction d = i % 2 == 0 ? REQUEST : RESPONSE;
        seal_and_send(s, d, inner, put_echo(inner, s, d, 100 + i / 2, HEADER + 4 + i));
    }
    seal_and_send(s, REQUEST, inner, put_echo(inner, s, REQUEST, 200, 60000));
    for (enum direction d = REQUEST; d <= RESPONSE; d++) {
        put_echo(inner, s, d, 300, 80);
        put(inner + 20, 80, 4);
        put_echo(inner + 80, s, d, 301, 100);
        seal_and_send(s, d, inner, 180);
    }
}

/*
 * Signed messages in clear: as the library signed them, and one of them changed on the way. No compound: tshark takes all of one for
 * its first message.
 */
static void sign_and_send(struct conversation *s, enum direction d, uint8_t *message, size_t n, int change)
{
    const uint8_t *key = s->keys + SMB3SEAL_SIGNING_KEY;
    expect(smb3seal_sign(key, 16, message, n) == 0 && smb3seal_verify(key, 16, message, n) == 0, "signing", n);
    if (change) message[n - 1] ^= 1;
    fprintf(list, "%s\n", change ? "bad" : "good");
    send(s, d, message, n);
}

static void talk_in_clear(struct conversation *s)
{
    static uint8_t message[LONGEST];
    for (size_t i = 0; i < 40; i++) {
        enum direction d = i % 2 == 0 ? REQUEST : RESPONSE;
        sign_and_send(s, d, message, put_echo(message, s, d, 400 + i / 2, HEADER + 4 + i), i == 20);
    }
    sign_and_send(s, REQUEST, message, put_echo(message, s, REQUEST, 500, 60000), 0);
}

/* The published messages of this session: tshark must read them too, or the capture is at fault. */
static void send_published(struct conversation *s)
{
    for (size_t i = 0; i < COUNT(transforms); i++) {
        if (transforms[i].id != s->id) continue;
        list_inner(transforms[i].plaintext.at, transforms[i].plaintext.len);
        send(s, i % 2 == 0 ? REQUEST : RESPONSE, transforms[i].message.at, transforms[i].message.len);
    }
}

int main(int argc, char **argv)
{
    const struct bytes *gcm = &derivations[0].material, *ccm = &derivations[1].material;
    struct conversation sessions[] = {
        {.dialect = 0x0311, .cipher = 2, .port = 50001, .id = transforms[0].id, .setup = folds, .material = gcm},
        {.dialect = 0x0311, .cipher = 1, .port = 50002, .id = transforms[4].id, .setup = folds + SETUP_MESSAGES, .material = ccm},
        {.dialect = 0x0300, .cipher = 1, .port = 50003, .id = 0x0300000000000003, .setup = folds, .material = gcm},
        {.dialect = 0x0302, .cipher = 2, .port = 50004, .id = 0x0302000000000004, .setup = folds, .material = ccm},
        {.dialect = 0x0311, .cipher = 3, .port = 50005, .id = 0x0311000000000005, .setup = folds, .material = gcm},
        {.dialect = 0x0311, .cipher = 4, .port = 50006, .id = 0x0311000000000006, .setup = folds, .material = ccm},
    };
    if (argc != 3 || (pcap = fopen(argv[1], "wb")) == NULL || (list = fopen(argv[2], "w")) == NULL) return 2;
    begin(1, argv);
    write_file_header();
    for (size_t i = 0; i < COUNT(sessions); i++) {
        set_up(&sessions[i]);
        send_published(&sessions[i]);
        talk(&sessions[i]);
        talk_in_clear(&sessions[i]);
    }
    if (fclose(pcap) != 0 || fclose(list) != 0) return 2;
    return 0;
}
