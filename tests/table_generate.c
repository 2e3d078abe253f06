#include "table_generate.h"

#include <string.h>

#include "check.h"
#include "generate.h"
#include "messages.h"
#include "table_model.h"

/* The ids of a list are few, so that records share them; two of them differ in one bit. */
static uint64_t ids[4];

static void choose_ids(void)
{
    ids[0] = chance(80) ? number() : below(3);
    ids[1] = ids[0] ^ (uint64_t)1 << below(64);
    ids[2] = number();
    ids[3] = chance(50) ? 0 : number();
}

static uint64_t any_id(void)
{
    return chance(95) ? ids[chance(50) ? 0 : below(COUNT(ids))] : number();
}

/* Zero in so many of a hundred cases; else 1, a single bit, or anything. */
static uint8_t any_flag(unsigned zero)
{
    if (chance(zero)) return 0;
    if (chance(40)) return 1;
    return chance(50) ? (uint8_t)(1 << below(8)) : (uint8_t)number();
}

/* ---- the table */

static void generate_record(struct smb3seal_session *s)
{
    fill((uint8_t *)s, sizeof *s);
    if (chance(5)) return;
    s->used = any_flag(35);
    s->guest = any_flag(88);
    s->anonymous = any_flag(88);
    s->wide = any_flag(60);
    s->id = any_id();
    s->counter = any_counter();
    if (chance(30)) memset(s->spare, 0, sizeof s->spare);
    if (s->used == 0 && chance(50)) memset(s, 0, sizeof *s);
}

static size_t any_table_length(void)
{
    if (chance(60)) return 1 + below(5);
    return chance(10) ? 0 : 1 + below(MOST_RECORDS);
}

struct table_call generate_list(void)
{
    static struct smb3seal_session table[MOST_RECORDS];
    struct call plain = plain_call(SEAL, 1, HEADER);
    struct table_call c = {.table = table, .table_len = any_table_length(), .material = plain.key, .chain = plain.chain};
    choose_ids();
    for (size_t i = 0; i < c.table_len; i++) generate_record(&table[i]);
    c.message = (struct lent){plain.message.at, 0};
    return c;
}

/* ---- the calls */

/* Mostly the id of a record, used or free. */
static uint64_t any_id_like(const struct table_call *c)
{
    return c->table_len > 0 && chance(60) ? c->table[below(c->table_len)].id : any_id();
}

static struct smb3seal_connection any_connection(void)
{
    struct smb3seal_connection c = {.dialect = any_dialect(), .cipher = any_cipher(), .role = (uint8_t)below(2)};
    if (chance(4)) c.role = chance(50) ? 2 : (uint8_t)number();
    c.encryption = any_flag(4);
    c.constrained = any_flag(92);
    c.spare = any_flag(96);
    return c;
}

/* A cipher of the record's key size, where the dialect has one: else nearly every call with a cipher of 256 bits would end at 35. */
static void match_key_size(struct table_call *c, const struct smb3seal_session *record)
{
    int wide = key_bytes(c->connection.dialect, c->connection.cipher) == 32;
    if (c->connection.cipher < 1 || c->connection.cipher > 4 || wide == (record->wide != 0)) return;
    if (record->wide != 0) c->connection.dialect = 0x0311;
    c->connection.cipher = (uint16_t)((record->wide != 0 ? 3 : 1) + below(2));
}

/* The message, by the parts of a call under one key: the key of the record, where the message is opened and the table has one. */
static void generate_table_message(struct table_call *c)
{
    uint8_t key[32];
    size_t place = model_table_find(c->table, c->table_len, c->id);
    if (place < c->table_len && chance(85)) match_key_size(c, &c->table[place]);
    struct call under = {.function = c->function == TABLE_SEAL ? SEAL : OPEN, .key = {key, 0}, .message = {c->message.at, 0}};
    under.cipher = c->connection.cipher;
    set_dialect(&under, c->connection.dialect);
    under.id = chance(97) ? c->id : any_id_like(c);
    fill(key, sizeof key);
    if (place < c->table_len && chance(97)) memcpy(key, opening_key(c->connection, &c->table[place]), 32);
    generate_message(&under);
    c->connection.cipher = under.cipher;
    c->message.len = under.message.len;
}

/* What an add is given beside the connection and the id; its material is lent also to the other calls, which do not look at it. */
static void generate_adding(struct table_call *c)
{
    if (chance(50)) c->id = number();
    c->guest = chance(80) ? 0 : chance(50) ? 1 : (uint32_t)1 << below(32);
    c->anonymous = chance(80) ? 0 : chance(50) ? 1 : (uint32_t)number();
    c->material.len = any_material_length();
    c->chain.len = any_length_like(64);
    fill(c->material.at, c->material.len);
    fill(c->chain.at, 128);
}

/* The message that was sealed just now comes back to the other end of the same connection, now and then with a bit changed. */
static void return_message(struct table_call *c)
{
    c->function = TABLE_OPEN;
    c->connection.role ^= 1;
    if (chance(10)) c->message.at[below(c->message.len)] ^= (uint8_t)(1 << below(8));
}

void generate_table_call(struct table_call *c)
{
    static const enum table_function functions[] = {TABLE_FIND, TABLE_ADD,  TABLE_ADD,  TABLE_REMOVE, TABLE_SEAL,
                                                    TABLE_SEAL, TABLE_SEAL, TABLE_OPEN, TABLE_OPEN,   TABLE_OPEN};
    int was_sealed = c->function == TABLE_SEAL && c->message.len > TRANSFORM && c->message.at[0] == 0xFD;
    c->headers = number();
    if (was_sealed && chance(60)) {
        return_message(c);
        return;
    }
    c->function = functions[below(COUNT(functions))];
    c->connection = any_connection();
    c->id = any_id_like(c);
    if (c->function == TABLE_ADD) generate_adding(c);
    if (c->function == TABLE_SEAL || c->function == TABLE_OPEN) generate_table_message(c);
}
