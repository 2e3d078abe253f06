#include "table_call.h"

#include <stdio.h>
#include <string.h>

#include "check.h"
#include "messages.h"
#include "table_model.h"

/* What a call left. */
struct outcome {
    uint64_t answer;
    struct smb3seal_session *table;
    uint8_t *material, *chain, *message;
    uint64_t *headers;
};

static size_t table_bytes(const struct table_call *c)
{
    return c->table_len * sizeof *c->table;
}

static struct outcome lend(const struct table_call *c, const struct lender *lender)
{
    struct outcome o;
    o.answer = UINT64_MAX;
    o.table = lender->lend(TABLE, c->table, table_bytes(c), c->function != TABLE_FIND && c->function != TABLE_OPEN);
    o.material = lender->lend(KEY, c->material.at, c->material.len, 0);
    o.chain = lender->lend(CHAIN, c->chain.at, c->chain.len, 0);
    o.message = lender->lend(MESSAGE, c->message.at, c->message.len, 1);
    o.headers = lender->lend(HEADERS, &c->headers, sizeof c->headers, 1);
    return o;
}

static void take_back(struct outcome *o, const struct lender *lender)
{
    lender->take_back(TABLE, o->table);
    lender->take_back(KEY, o->material);
    lender->take_back(CHAIN, o->chain);
    lender->take_back(MESSAGE, o->message);
    lender->take_back(HEADERS, o->headers);
}

/* The five functions, as the library and as the model have them. */
struct functions {
    size_t (*find)(const struct smb3seal_session *, size_t, uint64_t);
    uint32_t (*add)(struct smb3seal_session *, size_t, struct smb3seal_connection, uint64_t, uint32_t, uint32_t, const uint8_t *,
                    size_t, const uint8_t *, size_t);
    uint32_t (*remove)(struct smb3seal_session *, size_t, uint64_t);
    uint32_t (*seal)(struct smb3seal_session *, size_t, struct smb3seal_connection, uint64_t, uint8_t *, size_t, uint64_t *);
    uint32_t (*open)(const struct smb3seal_session *, size_t, struct smb3seal_connection, uint8_t *, size_t, uint64_t *);
};

static const struct functions library = {smb3seal_table_find, smb3seal_table_add, smb3seal_table_remove, smb3seal_table_seal,
                                         smb3seal_table_open};
static const struct functions model = {model_table_find, model_table_add, model_table_remove, model_table_seal, model_table_open};

static uint64_t perform(const struct functions *by, const struct table_call *c, struct outcome *o)
{
    size_t n = c->table_len;
    switch (c->function) {
    case TABLE_FIND: return by->find(o->table, n, c->id);
    case TABLE_ADD:
        return by->add(o->table, n, c->connection, c->id, c->guest, c->anonymous, o->material, c->material.len, o->chain,
                       c->chain.len);
    case TABLE_REMOVE: return by->remove(o->table, n, c->id);
    case TABLE_SEAL: return by->seal(o->table, n, c->connection, c->id, o->message, c->message.len, o->headers);
    default: return by->open(o->table, n, c->connection, o->message, c->message.len, o->headers);
    }
}

static _Noreturn void wrong(const struct table_call *c, uint64_t answer, const char *what, unsigned long long detail)
{
    static const char *const names[] = {"find", "add", "remove", "seal", "open"};
    fprintf(stderr, "smb3seal_table_%s, lent %zu records and %zu bytes, answers %llu\n", names[c->function], c->table_len,
            c->message.len, (unsigned long long)answer);
    fail(what, detail);
}

/* The first byte that differs, or n. */
static size_t difference(const void *a, const void *b, size_t n)
{
    const uint8_t *x = a, *y = b;
    size_t i = 0;
    if (n == 0 || memcmp(x, y, n) == 0) return n;
    while (x[i] == y[i]) i++;
    return i;
}

static void need_same_table(const struct table_call *c, uint64_t answer, const void *a, const void *b)
{
    size_t at = difference(a, b, table_bytes(c));
    if (at == table_bytes(c)) return;
    fprintf(stderr, "byte %zu of a record\n", at % sizeof *c->table);
    wrong(c, answer, "the table differs at record", at / sizeof *c->table);
}

static void need_same(const struct table_call *c, const struct outcome *a, const struct outcome *b)
{
    size_t material = difference(a->material, b->material, c->material.len), chain = difference(a->chain, b->chain, c->chain.len);
    size_t message = difference(a->message, b->message, c->message.len);
    need_same_table(c, a->answer, a->table, b->table);
    if (material != c->material.len) wrong(c, a->answer, "the key material differs at byte", material);
    if (chain != c->chain.len) wrong(c, a->answer, "the chain differs at byte", chain);
    if (message != c->message.len) wrong(c, a->answer, "the message differs at byte", message);
    if (*a->headers != *b->headers) wrong(c, a->answer, "the number of headers differs", *a->headers);
}

/* What the library left of a call that it refused, or that only looks. */
static void need_kept(struct table_call *c, const struct outcome *ours)
{
    struct outcome before = {0, c->table, c->material.at, c->chain.at, c->message.at, &c->headers};
    if (c->function == TABLE_FIND || ours->answer != 0) need_same(c, ours, &before);
    else if (c->function == TABLE_OPEN) need_same_table(c, 0, ours->table, c->table);
}

uint64_t compare_table(struct table_call *c, const struct lender *lender)
{
    struct outcome ours = lend(c, lender), theirs = lend(c, &heap);
    ours.answer = perform(&library, c, &ours);
    theirs.answer = perform(&model, c, &theirs);
    if (ours.answer != theirs.answer) wrong(c, ours.answer, "the model answers", theirs.answer);
    need_same(c, &ours, &theirs);
    need_kept(c, &ours);
    count_check();
    if (c->table_len > 0) memcpy(c->table, ours.table, table_bytes(c));
    if (c->message.len > 0) memcpy(c->message.at, ours.message, c->message.len);
    c->headers = *ours.headers;
    take_back(&ours, lender);
    take_back(&theirs, &heap);
    return ours.answer;
}

void expect_table_answer(struct table_call *call, uint64_t answer, const char *what)
{
    uint64_t r = compare_table(call, &heap);
    if (r != answer) wrong(call, r, what, answer);
    count_check();
}

struct table_call plain_table_call(enum table_function function, uint16_t cipher, size_t n)
{
    static struct smb3seal_session table[RECORDS];
    struct call plain = plain_call(SEAL, cipher, n);
    fill((uint8_t *)table, sizeof table);
    for (size_t i = 0; i < RECORDS; i++) {
        table[i].id = i == PLACE ? SESSION : SESSION + 100 + i;
        table[i].counter = 3;
        table[i].used = 1;
        table[i].guest = table[i].anonymous = 0;
        table[i].wide = plain.key.len == 32;
    }
    table[RECORDS - 1].used = 0;
    return (struct table_call){
        .function = function,
        .table = table,
        .table_len = RECORDS,
        .connection = {.dialect = plain.dialect, .cipher = cipher, .role = SMB3SEAL_CLIENT, .encryption = 1},
        .id = function == TABLE_ADD ? OTHER_SESSION : SESSION,
        .material = plain.key,
        .chain = plain.chain,
        .message = plain.message,
        .headers = plain.headers,
    };
}

void set_table_dialect(struct table_call *c, uint16_t dialect)
{
    c->connection.dialect = dialect;
    c->table[PLACE].wide = key_bytes(dialect, c->connection.cipher) == 32;
}

uint8_t *opening_key(struct smb3seal_connection connection, struct smb3seal_session *record)
{
    return connection.role == SMB3SEAL_CLIENT ? record->server_to_client : record->client_to_server;
}

struct call under_key(const struct table_call *c)
{
    return (struct call){
        .function = OPEN,
        .role = c->connection.role,
        .dialect = c->connection.dialect,
        .cipher = c->connection.cipher,
        .encryption = 1,
        .id = c->id,
        .key = {opening_key(c->connection, &c->table[PLACE]), key_bytes(c->connection.dialect, c->connection.cipher)},
        .message = c->message,
    };
}
