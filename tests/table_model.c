#include "table_model.h"

#include <string.h>

#include "model.h"

size_t model_table_find(const struct smb3seal_session *table, size_t table_len, uint64_t session_id)
{
    for (size_t i = 0; i < table_len; i++)
        if (table[i].used != 0 && table[i].id == session_id) return i;
    return table_len;
}

static size_t key_bytes(struct smb3seal_connection c)
{
    return model_wide(c.dialect, c.cipher) ? 32 : 16;
}

/* ---- adding and removing */

static size_t first_free(const struct smb3seal_session *table, size_t table_len)
{
    size_t i = 0;
    while (i < table_len && table[i].used != 0) i++;
    return i;
}

/* 40, 18 and 19 are those of a derivation whose place for the keys has the right length. */
uint32_t model_table_add(struct smb3seal_session *table, size_t table_len, struct smb3seal_connection connection, uint64_t session_id,
                         uint32_t guest, uint32_t anonymous, const uint8_t *material, size_t material_len, const uint8_t *chain,
                         size_t chain_len)
{
    uint8_t keys[96];
    size_t place = first_free(table, table_len), n = key_bytes(connection);
    uint32_t r = model_derive(connection.dialect, connection.cipher, material, material_len, chain, chain_len, keys, 32 + 2 * n);
    if (r != 0) return r;
    if (session_id == 0) return 20;
    if (model_table_find(table, table_len, session_id) != table_len) return 21;
    if (place == table_len) return 22;
    struct smb3seal_session *s = &table[place];
    memset(s, 0, sizeof *s);
    s->id = session_id;
    s->used = 1;
    s->guest = guest != 0;
    s->anonymous = anonymous != 0;
    s->wide = n == 32;
    memcpy(s->signing, keys, 16);
    memcpy(s->application, keys + 16, 16);
    if (s->guest || s->anonymous) return 0;
    memcpy(s->client_to_server, keys + 32, n);
    memcpy(s->server_to_client, keys + 32 + n, n);
    return 0;
}

uint32_t model_table_remove(struct smb3seal_session *table, size_t table_len, uint64_t session_id)
{
    size_t i = model_table_find(table, table_len, session_id);
    if (i == table_len) return 6;
    memset(&table[i], 0, sizeof table[i]);
    return 0;
}

/* ---- sealing and opening */

/* Whether encryption was agreed on. A byte that no rule knows means that nothing was. */
static uint32_t agreed(struct smb3seal_connection c)
{
    return c.encryption != 0 && c.spare == 0;
}

/* 1, 2 and 3. */
static uint32_t first_tests(struct smb3seal_connection c, size_t message_len)
{
    return model_first_tests(c.role, c.dialect, agreed(c), c.cipher, key_bytes(c), message_len);
}

/* 6, 7, 8 and 35, on the record at this place. */
static uint32_t record_tests(const struct smb3seal_session *table, size_t table_len, size_t place, struct smb3seal_connection c)
{
    if (place == table_len) return 6;
    if (c.constrained != 0) return 7;
    if (table[place].guest != 0 || table[place].anonymous != 0) return 8;
    return (table[place].wide != 0) != (key_bytes(c) == 32) ? 35 : 0;
}

uint32_t model_table_seal(struct smb3seal_session *table, size_t table_len, struct smb3seal_connection connection,
                          uint64_t session_id, uint8_t *message, size_t message_len, uint64_t *headers)
{
    size_t place = model_table_find(table, table_len, session_id);
    uint32_t r = first_tests(connection, message_len);
    if (r == 0) r = record_tests(table, table_len, place, connection);
    if (r != 0) return r;
    struct smb3seal_session *s = &table[place];
    const uint8_t *key = connection.role == SMB3SEAL_CLIENT ? s->client_to_server : s->server_to_client;
    return model_seal(connection.role, connection.dialect, 1, connection.cipher, key, key_bytes(connection), session_id, &s->counter,
                      message, message_len, headers);
}

uint32_t model_table_open(const struct smb3seal_session *table, size_t table_len, struct smb3seal_connection connection,
                          uint8_t *message, size_t message_len, uint64_t *headers)
{
    uint32_t r = first_tests(connection, message_len);
    if (r == 0) r = model_transform_tests(connection.dialect, connection.cipher, message);
    if (r != 0) return r;
    uint64_t id = model_session_id(message);
    size_t place = model_table_find(table, table_len, id);
    r = record_tests(table, table_len, place, connection);
    if (r != 0) return r;
    const struct smb3seal_session *s = &table[place];
    const uint8_t *key = connection.role == SMB3SEAL_CLIENT ? s->server_to_client : s->client_to_server;
    return model_open(connection.role, connection.dialect, 1, connection.cipher, key, key_bytes(connection), id, message, message_len,
                      headers);
}
