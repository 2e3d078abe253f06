#include "messages.h"

#include <string.h>

#include "model.h"
#include "openssl_aead.h"

void put(uint8_t *at, uint64_t value, size_t n)
{
    for (size_t i = 0; i < n; i++) at[i] = (uint8_t)(value >> (8 * i));
}

void put_header(uint8_t *at, uint32_t flags, uint32_t next, uint64_t id)
{
    memset(at, 0, HEADER);
    memcpy(at, "\xFESMB", 4);
    put(at + 16, flags, 4);
    put(at + 20, next, 4);
    put(at + 40, id, 8);
}

void mark_as_notice(uint8_t *header)
{
    put(header + 12, OPLOCK_BREAK, 2);
    put(header + 24, UINT64_MAX, 8);
    put(header + 40, 0, 8);
}

size_t key_bytes(uint16_t dialect, uint16_t cipher)
{
    return model_wide(dialect, cipher) ? 32 : 16;
}

void set_dialect(struct call *c, uint16_t dialect)
{
    c->dialect = dialect;
    if (c->function == SEAL || c->function == OPEN) c->key.len = key_bytes(dialect, c->cipher);
}

struct call plain_call(enum function function, uint16_t cipher, size_t n)
{
    static uint8_t key[KEY_ROOM], chain[128], message[ROOM + HEADER];
    int under_cipher = function == SEAL || function == OPEN;
    for (size_t i = 0; i < 128; i++) key[i] = (uint8_t)(7 * i + 1);
    memset(chain, 0x33, sizeof chain);
    memset(message, 0xAA, TRANSFORM + n);
    put_header(message + TRANSFORM, 0, 0, SESSION);
    return (struct call){
        .function = function,
        .role = 0,
        .dialect = 0x0311,
        .cipher = cipher,
        .encryption = 1,
        .id = SESSION,
        .key = {key, under_cipher ? key_bytes(0x0311, cipher) : 16},
        .chain = {chain, 64},
        .message = {message, TRANSFORM + n},
        .counter = 3,
        .headers = 7,
        .folded = 7,
    };
}

void put_transform(const struct call *c, uint64_t nonce)
{
    uint8_t *at = c->message.at;
    memset(at, 0, TRANSFORM);
    memcpy(at, "\xFDSMB", 4);
    put(at + 20, nonce, 8);
    put(at + 36, c->message.len - TRANSFORM, 4);
    put(at + 42, 1, 2);
    put(at + 44, c->id, 8);
}

void forge(const struct call *c)
{
    uint8_t *at = c->message.at;
    int nonce_len = model_gcm(c->dialect, c->cipher) ? 12 : 11;
    struct aead how = {c->key.at, key_bytes(c->dialect, c->cipher), at + 20, nonce_len, at + 20, 32};
    openssl_seal(&how, at + TRANSFORM, c->message.len - TRANSFORM, at + 4);
}
