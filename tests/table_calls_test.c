/*
 * The calls with a session table, with what they leave written out: the layout of the two structs, the record that adding makes, what
 * removing and sealing change and what they do not, lookup among records that share an id, each length from 0 to 116, published keys
 * and messages, two ends that talk to each other, lengths that only 64 bits can hold.
 */
#define _DEFAULT_SOURCE
#include <string.h>
#include <sys/mman.h>

#include "check.h"
#include "messages.h"
#include "smb3_vectors.h"
#include "table_call.h"

/* ---- the layout: what a program compiled against an older header, or in another language, relies on */

#define CONNECTION_AT(field, at) \
    _Static_assert(offsetof(struct smb3seal_connection, field) == (at), "smb3seal_connection: " #field)
#define SESSION_AT(field, at) _Static_assert(offsetof(struct smb3seal_session, field) == (at), "smb3seal_session: " #field)

_Static_assert(sizeof(struct smb3seal_connection) == 8, "smb3seal_connection has 8 bytes");
_Static_assert(_Alignof(struct smb3seal_connection) == 2, "smb3seal_connection is aligned to 2 bytes");
CONNECTION_AT(dialect, 0);
CONNECTION_AT(cipher, 2);
CONNECTION_AT(role, 4);
CONNECTION_AT(encryption, 5);
CONNECTION_AT(constrained, 6);
CONNECTION_AT(spare, 7);

_Static_assert(sizeof(struct smb3seal_session) == 120, "smb3seal_session has 120 bytes");
_Static_assert(_Alignof(struct smb3seal_session) == 8, "smb3seal_session is aligned to 8 bytes");
SESSION_AT(id, 0);
SESSION_AT(counter, 8);
SESSION_AT(signing, 16);
SESSION_AT(application, 32);
SESSION_AT(client_to_server, 48);
SESSION_AT(server_to_client, 80);
SESSION_AT(used, 112);
SESSION_AT(guest, 113);
SESSION_AT(anonymous, 114);
SESSION_AT(wide, 115);
SESSION_AT(spare, 116);
_Static_assert(sizeof((struct smb3seal_session *)0)->spare == 4, "no byte of smb3seal_session is padding");

/* ---- what a call changes */

static struct smb3seal_session before[RECORDS];

static void keep(const struct table_call *c)
{
    memcpy(before, c->table, sizeof before);
}

/* All but the record at this place is as it was kept. */
static void expect_others_kept(const struct table_call *c, size_t place, const char *what)
{
    for (size_t i = 0; i < RECORDS; i++)
        if (i != place) expect(memcmp(&before[i], &c->table[i], sizeof before[i]) == 0, what, i);
}

static int all_zero(const void *at, size_t n)
{
    const uint8_t *bytes = at;
    while (n > 0 && bytes[n - 1] == 0) n--;
    return n == 0;
}

/* The two cipher keys of a record, each in 32 bytes: n of the key, and zeros. */
static void expect_cipher_keys(const uint8_t *places, const uint8_t *keys, size_t n)
{
    for (size_t i = 0; i < 2; i++) {
        expect(memcmp(places + 32 * i, keys + n * i, n) == 0, "a cipher key", i);
        expect(all_zero(places + 32 * i + n, 32 - n), "and zeros behind it", i);
    }
}

/* The bytes of the record, one place after the other: id 6, counter 0, the four keys, the three marks, the key size, four zeros. */
static void adding(uint16_t dialect, uint16_t cipher, uint32_t guest, uint32_t anonymous)
{
    uint8_t keys[96];
    int wide = dialect == 0x0311 && (cipher == 3 || cipher == 4);
    size_t n = wide ? 32 : 16;
    struct table_call c = plain_table_call(TABLE_ADD, cipher, HEADER);
    const uint8_t *record = (const uint8_t *)&c.table[RECORDS - 1];
    c.connection.dialect = dialect;
    c.material.len = 40;
    c.guest = guest;
    c.anonymous = anonymous;
    keep(&c);
    uint32_t r = smb3seal_derive(dialect, cipher, c.material.at, 40, c.chain.at, 64, keys, 32 + 2 * n);
    expect(r == 0, "the keys", dialect);
    expect_table_answer(&c, 0, "adding");
    expect_others_kept(&c, RECORDS - 1, "adding changes one record");
    expect(memcmp(record, "\6\0\0\0\0\0\0\0", 8) == 0, "the id", record[0]);
    expect(all_zero(record + 8, 8), "the counter", record[8]);
    expect(memcmp(record + 16, keys, 32) == 0, "the signing and application keys", guest);
    if (guest == 0 && anonymous == 0) expect_cipher_keys(record + 48, keys + 32, n);
    else expect(all_zero(record + 48, 64), "zero cipher keys", guest);
    expect(record[112] == 1, "used", record[112]);
    expect(record[113] == (guest != 0), "guest", record[113]);
    expect(record[114] == (anonymous != 0), "anonymous", record[114]);
    expect(record[115] == wide, "wide", record[115]);
    expect(all_zero(record + 116, 4), "the spare bytes", record[116]);
}

static void addings(void)
{
    static const uint16_t dialects[] = {0x0300, 0x0302, 0x0311};
    static const uint32_t marks[] = {0, 1, 2, 0x80, 0xFF, 0x100, 0x10000, 0x80000000, UINT32_MAX};
    for (size_t d = 0; d < COUNT(dialects); d++)
        for (size_t g = 0; g < COUNT(marks); g++)
            for (size_t a = 0; a < COUNT(marks); a++)
                for (uint16_t cipher = 0; cipher <= 5; cipher++) adding(dialects[d], cipher, marks[g], marks[a]);
}

/* The first free record is filled, wherever it is and whatever free ones follow. */
static void first_free_is_filled(uint16_t cipher)
{
    for (size_t place = 0; place < RECORDS; place++) {
        struct table_call c = plain_table_call(TABLE_ADD, cipher, HEADER);
        begin_case(place);
        for (size_t i = 0; i < RECORDS; i++) c.table[i].used = i < place;
        keep(&c);
        expect_table_answer(&c, 0, "adding to the first free record");
        expect_others_kept(&c, place, "adding changes the first free record alone");
        expect(c.table[place].id == OTHER_SESSION && c.table[place].used == 1, "the record is there", place);
        c.function = TABLE_FIND;
        expect_table_answer(&c, place, "and is found");
        c.function = TABLE_REMOVE;
        expect_table_answer(&c, 0, "and removed");
        expect_others_kept(&c, place, "removing changes that record alone");
        expect(all_zero(&c.table[place], sizeof c.table[place]), "to zeros", place);
        c.function = TABLE_ADD;
        c.id = OTHER_SESSION + 1;
        expect_table_answer(&c, 0, "and filled again");
        expect(c.table[place].id == OTHER_SESSION + 1, "by another session", place);
    }
}

/* Of the table, sealing changes one counter: the lowest byte, or all eight where it carries. */
static void sealing(uint16_t cipher, uint8_t role, uint64_t counter)
{
    struct table_call c = plain_table_call(TABLE_SEAL, cipher, HEADER);
    const uint8_t *key = role == SMB3SEAL_CLIENT ? c.table[PLACE].client_to_server : c.table[PLACE].server_to_client;
    static uint8_t message[TRANSFORM + HEADER];
    uint64_t same = counter, headers = 0;
    c.connection.role = role;
    c.table[PLACE].counter = counter;
    c.table[PLACE].used = 0x80;
    memcpy(message, c.message.at, sizeof message);
    keep(&c);
    expect_table_answer(&c, 0, "sealing");
    expect(c.headers == 1 && c.table[PLACE].counter == counter + 1, "headers sealed, and the counter", c.table[PLACE].counter);
    c.table[PLACE].counter = counter;
    expect_others_kept(&c, RECORDS, "sealing changes one counter alone");
    uint32_t r = smb3seal_seal(role, c.connection.dialect, 1, cipher, key, cipher > 2 ? 32 : 16, SESSION, &same, message, sizeof message,
                               &headers);
    expect(r == 0 && memcmp(message, c.message.at, sizeof message) == 0, "the bytes of sealing under the record's key", role);
}

/* 2^64 - 2 seals once; then the record stays at 2^64 - 1. */
static void counter_end(uint16_t cipher)
{
    struct table_call c = plain_table_call(TABLE_SEAL, cipher, HEADER);
    c.table[PLACE].counter = UINT64_MAX - 1;
    expect_table_answer(&c, 0, "counter 2^64 - 2 seals");
    expect(c.table[PLACE].counter == UINT64_MAX, "and is then 2^64 - 1", c.table[PLACE].counter);
    put_header(c.message.at + TRANSFORM, 0, 0, SESSION);
    keep(&c);
    for (int again = 0; again < 2; again++) {
        expect_table_answer(&c, 17, "counter 2^64 - 1 does not");
        expect_others_kept(&c, RECORDS, "and stays");
    }
}

/* The walk visits three headers, of which the last is related and has no id of its own. */
static void compound(uint16_t cipher)
{
    struct table_call c = plain_table_call(TABLE_SEAL, cipher, 3 * HEADER);
    put_header(c.message.at + TRANSFORM, 0, HEADER, SESSION);
    put_header(c.message.at + TRANSFORM + HEADER, 0, HEADER, SESSION);
    put_header(c.message.at + TRANSFORM + 2 * HEADER, 4, 0, 0);
    expect_table_answer(&c, 0, "sealing three headers");
    expect(c.headers == 3, "headers sealed", c.headers);
    c.function = TABLE_OPEN;
    c.connection.role = SMB3SEAL_SERVER;
    c.headers = 0;
    expect_table_answer(&c, 0, "opening three headers");
    expect(c.headers == 3, "headers opened", c.headers);
}

/* A break notice goes from the server to the client, in a message of its own and behind another header; a client's gets 14. */
static void break_notice(uint16_t cipher, uint8_t role, size_t place)
{
    struct table_call c = plain_table_call(TABLE_SEAL, cipher, place + HEADER);
    put_header(c.message.at + TRANSFORM, 0, (uint32_t)place, SESSION);
    put_header(c.message.at + TRANSFORM + place, 0, 0, SESSION);
    mark_as_notice(c.message.at + TRANSFORM + place);
    c.connection.role = role;
    for (size_t at = 12; at <= 40; at += at == 12 ? 12 : 16) {
        c.message.at[TRANSFORM + place + at] ^= 1;
        expect_table_answer(&c, 14, "sealing a notice with two marks");
        c.message.at[TRANSFORM + place + at] ^= 1;
    }
    expect_table_answer(&c, role == SMB3SEAL_SERVER ? 0 : 14, "sealing a break notice");
    c.connection.role = role ^ 1;
    c.function = TABLE_OPEN;
    if (role == SMB3SEAL_CLIENT) {
        struct call under = under_key(&c);
        put_transform(&under, 3);
        forge(&under);
    }
    expect_table_answer(&c, role == SMB3SEAL_SERVER ? 0 : 14, "opening a break notice");
}

/* ---- lookup */

/* Every set of places for the id, used ones and free ones: the lowest used one is taken, by every call. */
static void one_lookup(unsigned used, unsigned free)
{
    static const struct { enum table_function function; uint64_t none; } calls[] = {
        {TABLE_FIND, RECORDS}, {TABLE_REMOVE, 6}, {TABLE_SEAL, 6}, {TABLE_OPEN, 6}};
    for (size_t i = 0; i < COUNT(calls); i++) {
        struct table_call c = plain_table_call(calls[i].function, 2, HEADER);
        size_t place = RECORDS;
        c.table[PLACE].id = SESSION + 100 + PLACE;
        for (size_t at = RECORDS; at-- > 0;) {
            if ((used | free) >> at & 1) c.table[at].id = SESSION;
            if (free >> at & 1) c.table[at].used = 0;
            if (used >> at & 1) c.table[at].used = (uint8_t)(1 + below(255));
            if (used >> at & 1) place = at;
        }
        struct call under = under_key(&c);
        if (place < RECORDS) under.key.at = opening_key(c.connection, &c.table[place]);
        put_transform(&under, place);
        if (c.function == TABLE_OPEN) forge(&under);
        keep(&c);
        expect_table_answer(&c, place == RECORDS ? calls[i].none : c.function == TABLE_FIND ? place : 0, "the first used record");
        expect_others_kept(&c, c.function == TABLE_FIND || c.function == TABLE_OPEN ? RECORDS : place, "no other record");
    }
}

static void lookups(void)
{
    for (unsigned used = 0; used < 1u << RECORDS; used++)
        for (unsigned free = 0; free < 1u << RECORDS; free++) {
            begin_case(100 * used + free);
            if ((used & free) == 0) one_lookup(used, free);
        }
}

static void empty_table(void)
{
    for (enum table_function f = 0; f < TABLE_FUNCTIONS; f++) {
        static const uint64_t answers[] = {0, 22, 6, 6, 6};
        struct table_call c = plain_table_call(f, 1, HEADER);
        struct call under = under_key(&c);
        put_transform(&under, 1);
        forge(&under);
        if (f == TABLE_SEAL) put_header(c.message.at + TRANSFORM, 0, 0, SESSION);
        c.table_len = 0;
        expect_table_answer(&c, answers[f], "a table without a record");
    }
}

/* ---- short messages, with the session in the table and with no record at all */

static void short_messages(uint16_t cipher, size_t records)
{
    for (size_t n = 0; n <= TRANSFORM + HEADER; n++) {
        uint32_t found = records == 0 ? 6 : n < TRANSFORM + HEADER ? 11 : 0;
        struct table_call c = plain_table_call(TABLE_SEAL, cipher, HEADER);
        begin_case(n);
        c.table_len = records;
        c.message.len = n;
        expect_table_answer(&c, n <= TRANSFORM ? 2 : found, "sealing a short message");
        c = plain_table_call(TABLE_OPEN, cipher, HEADER);
        struct call under = under_key(&c);
        under.message.len = n > TRANSFORM ? n : TRANSFORM + 1;
        put_transform(&under, n);
        forge(&under);
        c.table_len = records;
        c.message.len = n;
        expect_table_answer(&c, n <= TRANSFORM ? 2 : found, "opening a short message");
    }
}

/* ---- published vectors */

static void published_keys(const struct derivation *d)
{
    struct table_call c = plain_table_call(TABLE_ADD, 1, HEADER);
    const struct smb3seal_session *s = &c.table[RECORDS - 1];
    c.connection.dialect = d->dialect;
    c.material = (struct lent){(uint8_t *)d->material.at, d->material.len};
    memcpy(c.chain.at, d->chain, 64);
    expect_table_answer(&c, 0, "adding a published session");
    expect(memcmp(s->signing, d->keys, 16) == 0, "its signing key", d->known);
    if (d->known < 64) return;
    expect(memcmp(s->application, d->keys + 16, 16) == 0, "its application key", d->known);
    expect(memcmp(s->client_to_server, d->keys + 32, 16) == 0, "its client to server key", d->known);
    expect(memcmp(s->server_to_client, d->keys + 48, 16) == 0, "its server to client key", d->known);
}

/* The published session is added, and its messages are opened from the client by a server, and the other way round. */
static void published_messages(const struct session *published)
{
    for (size_t i = 0; i < published->transforms; i++) {
        const struct transform *t = &transforms[published->transform + i];
        const struct derivation *d = &derivations[published->derivation];
        struct table_call c = plain_table_call(TABLE_ADD, t->cipher, t->message.len - TRANSFORM);
        c.connection.dialect = published->dialect;
        c.id = published->id;
        c.material = (struct lent){(uint8_t *)d->material.at, d->material.len};
        memcpy(c.chain.at, d->chain, 64);
        expect_table_answer(&c, 0, "adding a published session");
        int from_client = memcmp(t->key, d->keys + SMB3SEAL_CLIENT_TO_SERVER_KEY, 16) == 0;
        c.function = TABLE_OPEN;
        c.connection.role = from_client ? SMB3SEAL_SERVER : SMB3SEAL_CLIENT;
        memcpy(c.message.at, t->message.at, t->message.len);
        expect_table_answer(&c, 0, "opening a published message");
        expect(memcmp(c.message.at + TRANSFORM, t->plaintext.at, t->plaintext.len) == 0, "a published plaintext", i);
        if (!t->sealed_by_counter) continue;
        c.function = TABLE_SEAL;
        c.connection.role = from_client ? SMB3SEAL_CLIENT : SMB3SEAL_SERVER;
        c.table[RECORDS - 1].counter = t->counter;
        expect_table_answer(&c, 0, "sealing a published message");
        expect(memcmp(c.message.at, t->message.at, t->message.len) == 0, "published sealed bytes", i);
    }
}

/* ---- two ends */

enum { ENDS = 2, SENT = 6, CIPHERS = 4 };

/* Both ends have the session, at another place each; messages from either end are lost, repeated and reordered on the way. */
static void two_ends(uint16_t dialect, uint16_t cipher)
{
    static struct smb3seal_session tables[ENDS][RECORDS];
    static uint8_t sent[ENDS][SENT][TRANSFORM + HEADER];
    struct table_call c;
    for (uint8_t end = 0; end < ENDS; end++) {
        c = plain_table_call(TABLE_ADD, cipher, HEADER);
        if (end == SMB3SEAL_SERVER) c.table[0].used = 0;
        c.connection.dialect = dialect;
        expect_table_answer(&c, 0, "both ends add the session");
        memcpy(tables[end], c.table, sizeof tables[end]);
    }
    c.id = OTHER_SESSION;
    for (size_t i = 0; i < ENDS * SENT; i++) {
        c.function = TABLE_SEAL;
        c.connection.role = (uint8_t)(i % ENDS);
        c.table = tables[i % ENDS];
        put_header(c.message.at + TRANSFORM, 0, 0, OTHER_SESSION);
        c.message.at[TRANSFORM + 24] = (uint8_t)i;
        expect_table_answer(&c, 0, "an end seals");
        memcpy(sent[i % ENDS][i / ENDS], c.message.at, c.message.len);
    }
    for (int arrives = 0; arrives < 4 * SENT; arrives++) {
        size_t from = below(ENDS), which = below(SENT);
        c.function = TABLE_OPEN;
        c.connection.role = (uint8_t)(1 - from);
        c.table = tables[1 - from];
        memcpy(c.message.at, sent[from][which], c.message.len);
        expect_table_answer(&c, 0, "the other end opens");
        expect(c.message.at[TRANSFORM + 24] == ENDS * which + from && c.message.at[20] == which, "that message", which);
        c.connection.role = (uint8_t)from;
        c.table = tables[from];
        memcpy(c.message.at, sent[from][which], c.message.len);
        expect_table_answer(&c, 9, "the end that sealed does not");
    }
}

/* ---- both key sizes */

/* A message from one end's table to the other's. */
static void expect_exchange(struct table_call *c, struct smb3seal_session *from, struct smb3seal_session *to, uint64_t id)
{
    uint8_t inner[HEADER];
    c->id = id;
    c->table = from;
    c->function = TABLE_SEAL;
    put_header(c->message.at + TRANSFORM, 0, 0, id);
    memcpy(inner, c->message.at + TRANSFORM, HEADER);
    expect_table_answer(c, 0, "sealing for a session of this key size");
    c->table = to;
    c->function = TABLE_OPEN;
    c->connection.role ^= 1;
    expect_table_answer(c, 0, "opening for it");
    expect(memcmp(inner, c->message.at + TRANSFORM, HEADER) == 0, "the inner message again", id);
    c->connection.role ^= 1;
}

/* A session under a cipher of the other key size: 35 on sealing and on opening, and nothing changes. */
static void expect_other_size(struct table_call *c, struct smb3seal_session *table, uint64_t id)
{
    c->id = id;
    c->table = table;
    c->function = TABLE_SEAL;
    put_header(c->message.at + TRANSFORM, 0, 0, id);
    expect_table_answer(c, 35, "sealing under a cipher of the other key size");
    c->function = TABLE_OPEN;
    struct call header = {.id = id, .message = c->message};
    put_transform(&header, 1);
    expect_table_answer(c, 35, "opening under a cipher of the other key size");
}

/* Both ends have session 1 for cipher 1, 2 for 2, 3 for 3 and 4 for 4 in one table, each at a place of its own. */
static void both_key_sizes(void)
{
    static struct smb3seal_session tables[ENDS][RECORDS];
    struct table_call c = plain_table_call(TABLE_ADD, 1, HEADER);
    memset(tables, 0, sizeof tables);
    c.material.len = 32;
    for (size_t end = 0; end < ENDS; end++)
        for (uint16_t cipher = 1; cipher <= CIPHERS; cipher++) {
            c.function = TABLE_ADD;
            c.table = tables[end];
            c.id = c.connection.cipher = cipher;
            expect_table_answer(&c, 0, "adding for each cipher");
            expect(tables[end][cipher - 1].wide == (cipher > 2), "a wide record or a narrow one", cipher);
        }
    for (uint16_t id = 1; id <= CIPHERS; id++)
        for (uint16_t cipher = 1; cipher <= CIPHERS; cipher++) {
            c.connection.cipher = cipher;
            if ((id > 2) != (cipher > 2)) expect_other_size(&c, tables[0], id);
            else expect_exchange(&c, tables[0], tables[1], id);
        }
    expect(memcmp(tables[0][0].client_to_server, tables[0][1].client_to_server, 32) == 0, "one key for ciphers 1 and 2", 16);
    expect(memcmp(tables[0][2].client_to_server, tables[0][3].client_to_server, 32) == 0, "one key for ciphers 3 and 4", 32);
    expect(memcmp(tables[0][0].client_to_server, tables[0][2].client_to_server, 16) != 0, "another for each key size", 16);
    for (uint64_t id = 1; id <= CIPHERS; id++) {
        c.function = TABLE_REMOVE;
        c.id = id;
        expect_table_answer(&c, 0, "removing it");
        expect(all_zero(&c.table[id - 1], sizeof *c.table), "to zeros", id);
    }
    expect(all_zero(c.table, sizeof tables[0]), "an empty table again", 0);
}

/* A guest that is added for a cipher of 256 bits: no cipher key, and 8 with ciphers of both sizes, before 35. */
static void wide_guest(uint32_t guest, uint32_t anonymous)
{
    for (uint16_t added = 1; added <= CIPHERS; added++) {
        struct table_call c = plain_table_call(TABLE_ADD, added, HEADER);
        c.guest = guest;
        c.anonymous = anonymous;
        expect_table_answer(&c, 0, "adding a guest");
        expect(c.table[RECORDS - 1].wide == (added > 2), "the key size of a guest", added);
        expect(all_zero((const uint8_t *)&c.table[RECORDS - 1] + 48, 64), "no cipher key", added);
        for (uint16_t cipher = 1; cipher <= CIPHERS; cipher++) {
            c.connection.cipher = cipher;
            c.function = TABLE_SEAL;
            expect_table_answer(&c, 8, "sealing for a guest");
            c.function = TABLE_OPEN;
            struct call header = {.id = c.id, .message = c.message};
            put_transform(&header, 1);
            expect_table_answer(&c, 8, "opening for a guest");
        }
    }
}

/* ---- lengths that only 64 bits can hold */

/* Lengths of 2^32 and a little: none is taken for the little. The bytes are there, but no page of them is used. */
static void wide_buffers(void)
{
    const size_t four_gigabytes = (size_t)1 << 32;
    int protection = PROT_READ | PROT_WRITE, flags = MAP_PRIVATE | MAP_ANONYMOUS | MAP_NORESERVE;
    uint8_t *at = mmap(NULL, four_gigabytes + 4096, protection, flags, -1, 0);
    uint8_t keys[64];
    expect(at != MAP_FAILED, "4 GiB of address space", 0);
    struct table_call c = plain_table_call(TABLE_SEAL, 2, HEADER);
    size_t n = four_gigabytes + c.message.len, sixty_four = four_gigabytes + 64;
    memcpy(at, c.message.at, c.message.len);
    keep(&c);
    expect(smb3seal_table_seal(c.table, RECORDS, c.connection, SESSION, at, n, &c.headers) == 3, "sealing over 4 GiB", n);
    expect(smb3seal_table_open(c.table, RECORDS, c.connection, at, n, &c.headers) == 3, "opening over 4 GiB", n);
    expect(memcmp(at, c.message.at, c.message.len) == 0 && c.headers == 7, "nothing changed", n);
    uint32_t r = smb3seal_table_add(c.table, RECORDS, c.connection, OTHER_SESSION, 0, 0, c.material.at, 16, at, sixty_four);
    expect(r == 40, "a chain over 4 GiB", sixty_four);
    expect_others_kept(&c, RECORDS, "nothing changed");
    r = smb3seal_table_add(c.table, RECORDS, c.connection, OTHER_SESSION, 0, 0, at, four_gigabytes, c.chain.at, 64);
    expect(r == 0, "material of 4 GiB", four_gigabytes);
    expect(smb3seal_derive(0x0311, 2, at, 16, c.chain.at, 64, keys, 64) == 0, "its first 16 bytes", 16);
    expect(memcmp(c.table[RECORDS - 1].signing, keys, 32) == 0, "make two keys", 16);
    expect_cipher_keys((const uint8_t *)&c.table[RECORDS - 1] + 48, keys + 32, 16);
    c.connection.cipher = 4;
    r = smb3seal_table_add(c.table, RECORDS, c.connection, OTHER_SESSION + 1, 0, 0, at, four_gigabytes + 16, c.chain.at, 64);
    expect(r == 19, "material over 4 GiB for a cipher of 256 bits", four_gigabytes);
    munmap(at, four_gigabytes + 4096);
}

/* The same for the table: of 2^32 + 1 records the session is the third. All can be read; only the first page can be written. */
static void wide_table(void)
{
    const size_t records = ((size_t)1 << 32) + 1, n = records * sizeof(struct smb3seal_session), third = 2;
    struct smb3seal_session *table = mmap(NULL, n, PROT_READ, MAP_PRIVATE | MAP_ANONYMOUS | MAP_NORESERVE, -1, 0);
    expect(table != MAP_FAILED, "480 GiB of address space", n);
    expect(mprotect(table, 4096, PROT_READ | PROT_WRITE) == 0, "its first page", n);
    struct table_call c = plain_table_call(TABLE_SEAL, 2, HEADER);
    table[third] = c.table[PLACE];
    expect(smb3seal_table_find(table, records, SESSION) == third, "finding in a table of more than 2^32 records", records);
    uint32_t r = smb3seal_table_seal(table, records, c.connection, SESSION, c.message.at, c.message.len, &c.headers);
    expect(r == 0 && table[third].counter == 4, "sealing with it", r);
    c.connection.role = SMB3SEAL_SERVER;
    r = smb3seal_table_open(table, records, c.connection, c.message.at, c.message.len, &c.headers);
    expect(r == 0, "opening with it", r);
    expect(smb3seal_table_remove(table, records, SESSION) == 0, "removing from it", records);
    expect(all_zero(table, 4096), "and nothing is left", records);
    munmap(table, n);
}

int main(int argc, char **argv)
{
    static const uint16_t dialects[] = {0x0300, 0x0302, 0x0311};
    begin(argc, argv);
    addings();
    for (uint16_t cipher = 1; cipher <= CIPHERS; cipher++) {
        first_free_is_filled(cipher);
        for (uint8_t role = SMB3SEAL_CLIENT; role <= SMB3SEAL_SERVER; role++) {
            sealing(cipher, role, 0);
            sealing(cipher, role, 0xFF);
            sealing(cipher, role, 0x00FFFFFFFFFFFFFF);
            sealing(cipher, role, UINT64_MAX - 1);
            break_notice(cipher, role, 0);
            break_notice(cipher, role, HEADER);
        }
        counter_end(cipher);
        compound(cipher);
        short_messages(cipher, RECORDS);
        short_messages(cipher, 0);
        for (size_t i = 0; i < COUNT(dialects); i++) two_ends(dialects[i], cipher);
    }
    lookups();
    empty_table();
    both_key_sizes();
    wide_guest(1, 0);
    wide_guest(0, 1);
    for (size_t i = 0; i < COUNT(derivations); begin_case(++i)) published_keys(&derivations[i]);
    for (size_t i = 0; i < COUNT(sessions); begin_case(++i)) published_messages(&sessions[i]);
    wide_buffers();
    wide_table();
    return finish();
}
