/* The faults of the calls with a session table. */
#include "mutants.h"

#include <string.h>

#include "../include/smb3seal.h"

typedef struct smb3seal_session session;
typedef struct smb3seal_connection connection;

/* ---- finding, and what the others find wrongly */

enum lookup { FIRST, LAST, FREE_TOO, ONLY_ONE, LOW_HALF };

static int hit(const session *s, uint64_t id, enum lookup how)
{
    if (how == FREE_TOO) return s->id == id;
    if (how == ONLY_ONE) return s->used == 1 && s->id == id;
    if (how == LOW_HALF) return s->used != 0 && (uint32_t)s->id == (uint32_t)id;
    return s->used != 0 && s->id == id;
}

static size_t search(const session *table, size_t n, uint64_t id, enum lookup how)
{
    size_t i = 0;
    while (i < n && !hit(&table[i], id, how)) i++;
    for (size_t later = i + 1; how == LAST && later < n; later++)
        if (hit(&table[later], id, how)) i = later;
    return i;
}

static size_t first_free(const session *table, size_t n)
{
    size_t i = 0;
    while (i < n && table[i].used != 0) i++;
    return i;
}

static enum lookup find_lookup(void)
{
    if (fault("table_find: the last record of the id")) return LAST;
    if (fault("table_find: a free record of the id")) return FREE_TOO;
    if (fault("table_find: only 1 means used")) return ONLY_ONE;
    if (fault("table_find: the low half of the id")) return LOW_HALF;
    return FIRST;
}

size_t __real_smb3seal_table_find(const session *, size_t, uint64_t);
size_t __wrap_smb3seal_table_find(const session *table, size_t n, uint64_t id)
{
    if (find_lookup() != FIRST) return search(table, n, id, find_lookup());
    if (fault("table_find: a byte before the table is read")) look((const uint8_t *)table - 1);
    if (fault("table_find: a byte behind the table is read")) look(table + n);
    if (fault("table_find: the table is written") && n > 0) touch(table);
    if (fault("table_find: the table is taken as 32 bits long")) n = (uint32_t)n;
    size_t r = __real_smb3seal_table_find(table, n, id);
    if (fault("table_find: places are counted from 1")) return r + 1;
    if (fault("table_find: the last place is passed over") && n > 0 && r == n - 1) return n;
    if (fault("table_find: none is the highest number") && r == n) return SIZE_MAX;
    return r;
}

/* ---- adding */

/* The arguments. */
struct adding {
    session *table;
    size_t n;
    connection c;
    uint64_t id;
    uint32_t guest, anonymous;
    const uint8_t *material;
    size_t material_len;
    const uint8_t *chain;
    size_t chain_len;
};

uint32_t __real_smb3seal_table_add(session *, size_t, connection, uint64_t, uint32_t, uint32_t, const uint8_t *, size_t,
                                   const uint8_t *, size_t);
static uint32_t really_add(const struct adding *a)
{
    return __real_smb3seal_table_add(a->table, a->n, a->c, a->id, a->guest, a->anonymous, a->material, a->material_len, a->chain,
                                     a->chain_len);
}

/* As if the id were another, which no record has; it stands in the record afterwards. */
static uint32_t add_under(const struct adding *a, uint64_t id)
{
    struct adding other = *a;
    size_t f = first_free(a->table, a->n);
    other.id = id;
    uint32_t r = really_add(&other);
    if (r == 0) a->table[f].id = a->id;
    return r;
}

/* The arguments, as a wrong library takes them. */
static void mistake_arguments(struct adding *a)
{
    static const uint8_t zeros[64];
    if (fault("table_add: a mark's low byte") && a->guest != 0) a->guest = (uint8_t)a->guest;
    if (fault("table_add: a mark is 1") && a->anonymous != 1) a->anonymous = 0;
    int wide = smb3seal_cipher_key_bytes(a->c.dialect, a->c.cipher) == 32;
    if (fault("table_add: material over 65,536 bytes is taken") && wide && a->material_len > 65536) a->material_len = 65536;
    if (fault("table_add: wide keys come from the session key") && wide && a->material_len > 16) a->material_len = 16;
    if (fault("table_add: the cipher is ignored")) a->c.cipher = 0;
    if (fault("table_add: cipher 5 is wide") && a->c.cipher == 5) a->c.cipher = 4;
    if (fault("table_add: material is taken as 32 bits long")) a->material_len = (uint32_t)a->material_len;
    if (fault("table_add: the chain is taken as 32 bits long")) a->chain_len = (uint32_t)a->chain_len;
    if (fault("table_add: the chain's length counts on 3.1.1 alone") && a->c.dialect != 0x0311) {
        a->chain = zeros;
        a->chain_len = 64;
    }
    if (fault("table_add: the material is written") && a->material_len > 0) touch(a->material);
    if (fault("table_add: the chain is written") && a->chain_len > 0) touch(a->chain);
    if (fault("table_add: a byte behind the chain is read")) look(a->chain + a->chain_len);
    if (fault("table_add: a byte behind the material is read")) look(a->material + a->material_len);
    if (fault("table_add: a byte before the table is written")) touch((uint8_t *)a->table - 1);
    if (fault("table_add: a byte behind the table is written")) touch(a->table + a->n);
}

/* A refusal of r, or where it was done 0, by a wrong order of the tests. */
static uint32_t mistake_order(const struct adding *a, uint32_t r)
{
    int taken = search(a->table, a->n, a->id, FIRST) < a->n, full = first_free(a->table, a->n) == a->n;
    int unknown = a->c.dialect != 0x0300 && a->c.dialect != 0x0302 && a->c.dialect != 0x0311;
    if (fault("table_add: 18 before 40") && r == 40 && unknown) return 18;
    if (fault("table_add: 19 before 18") && r == 18 && a->material_len == 0) return 19;
    if (fault("table_add: 20 before 19") && r == 19 && a->id == 0) return 20;
    if (fault("table_add: 21 before 20") && r == 20 && taken) return 21;
    if (fault("table_add: 22 before 21") && r == 21 && full) return 22;
    return r;
}

/* The key size and the cipher keys of the record that a wrong library filled, which was `before`. */
static void mistake_key_size(const struct adding *a, session *s, const session *before)
{
    if (fault("table_add: every record is narrow")) s->wide = 0;
    if (fault("table_add: a guest is narrow") && s->guest) s->wide = 0;
    if (fault("table_add: ciphers 3 and 4 are wide on any dialect")) s->wide = a->c.cipher == 3 || a->c.cipher == 4;
    if (fault("table_add: cipher 4 alone is wide") && a->c.cipher == 3) s->wide = 0;
    if (fault("table_add: the key size is 255") && s->wide) s->wide = 255;
    if (fault("table_add: the key size stays")) s->wide = before->wide;
    if (fault("table_add: the bytes behind a narrow key stay") && !s->wide)
        memcpy(s->server_to_client + 16, before->server_to_client + 16, 16);
    if (fault("table_add: the second half of a wide key is left out") && s->wide) memset(s->client_to_server + 16, 0, 16);
}

/* What a wrong library leaves in the record that it filled, which was `before`. */
static void mistake_record(const struct adding *a, session *s, const session *before)
{
    uint8_t keys[96];
    size_t n = smb3seal_cipher_key_bytes(a->c.dialect, a->c.cipher);
    smb3seal_derive(a->c.dialect, a->c.cipher, a->material, a->material_len, a->chain, a->chain_len, keys, 32 + 2 * n);
    if (fault("table_add: a guest has its cipher keys") && s->guest) memcpy(s->client_to_server, keys + 32, n);
    if (fault("table_add: an anonymous one has its cipher keys") && s->anonymous) memcpy(s->client_to_server, keys + 32, n);
    if (fault("table_add: a guest has a wide cipher key") && s->guest && n == 32) memcpy(s->server_to_client, keys + 64, n);
    mistake_key_size(a, s, before);
    if (fault("table_add: a guest has no signing key") && s->guest) memset(s->signing, 0, 16);
    if (fault("table_add: an anonymous one has no application key") && s->anonymous) memset(s->application, 0, 16);
    if (fault("table_add: the keys in the other order")) memcpy(s->server_to_client, keys + 32, n);
    if (fault("table_add: the signing key at the application key's place")) memcpy(s->application, keys, 16);
    if (fault("table_add: the mark guest as it is handed in")) s->guest = (uint8_t)a->guest;
    if (fault("table_add: the mark anonymous as it is handed in")) s->anonymous = (uint8_t)a->anonymous;
    if (fault("table_add: the marks are left out")) s->guest = s->anonymous = 0;
    if (fault("table_add: the spare bytes stay")) memcpy(s->spare, before->spare, sizeof s->spare);
    if (fault("table_add: the last spare byte stays")) s->spare[3] = before->spare[3];
    if (fault("table_add: the counter stays")) s->counter = before->counter;
    if (fault("table_add: the counter begins at 1")) s->counter = 1;
    if (fault("table_add: used is 255")) s->used = 255;
}

/* The new record is in another place than the first free one. */
static void mistake_place(session *table, size_t n, size_t f, const session *before)
{
    size_t last = f;
    for (size_t i = f + 1; i < n; i++)
        if (table[i].used == 0) last = i;
    if (fault("table_add: the last free record is filled") && last != f) {
        table[last] = table[f];
        table[f] = *before;
    }
    if (fault("table_add: a free record behind is cleared") && last != f) memset(&table[last], 0, sizeof table[last]);
}

/* A call that the rules refuse, and a wrong library does not; or the other way round. */
static uint32_t mistake_answer(const struct adding *a, uint32_t r)
{
    if (fault("table_add: the id 0 is added") && r == 20) return add_under(a, UINT64_MAX);
    if (fault("table_add: an id is added twice") && r == 21) return add_under(a, ~a->id);
    if (fault("table_add: the role is tested") && r == 0 && a->c.role > 1) return 1;
    if (fault("table_add: encryption is tested") && r == 0 && a->c.encryption == 0) return 1;
    if (fault("table_add: the cipher is tested") && r == 0 && (a->c.cipher == 0 || a->c.cipher > 4)) return 1;
    if (fault("table_add: the constraint is tested") && r == 0 && a->c.constrained != 0) return 7;
    return mistake_order(a, r);
}

uint32_t __wrap_smb3seal_table_add(session *table, size_t n, connection c, uint64_t id, uint32_t guest, uint32_t anonymous,
                                   const uint8_t *material, size_t material_len, const uint8_t *chain, size_t chain_len)
{
    struct adding a = {table, n, c, id, guest, anonymous, material, material_len, chain, chain_len};
    size_t f = first_free(table, n);
    session before = {0};
    if (f < n) before = table[f];
    int held_by_free = search(table, n, id, FREE_TOO) < n;
    mistake_arguments(&a);
    uint32_t r = really_add(&a);
    if (r != 0 && f < n && fault("table_add: a refusal clears the place")) memset(&table[f], 0, sizeof table[f]);
    if (r != 0 && f < n && fault("table_add: a refusal leaves the id")) table[f].id = id;
    if (r == 0) mistake_record(&a, &table[f], &before);
    if (r == 0) mistake_place(table, n, f, &before);
    if (fault("table_add: 21 for a free record of the id") && r == 0 && held_by_free) {
        table[f] = before;
        return 21;
    }
    return mistake_answer(&a, r);
}

/* ---- removing */

static enum lookup remove_lookup(void)
{
    if (fault("table_remove: the last record of the id")) return LAST;
    if (fault("table_remove: a free record of the id")) return FREE_TOO;
    if (fault("table_remove: only 1 means used")) return ONLY_ONE;
    if (fault("table_remove: the low half of the id")) return LOW_HALF;
    return FIRST;
}

/* What is left in the record that was `before`. */
static void mistake_removal(session *s, const session *before)
{
    if (fault("table_remove: the id stays")) s->id = before->id;
    if (fault("table_remove: the counter stays")) s->counter = before->counter;
    if (fault("table_remove: the signing key stays")) memcpy(s->signing, before->signing, 16);
    if (fault("table_remove: the application key stays")) memcpy(s->application, before->application, 16);
    if (fault("table_remove: the client to server key stays")) memcpy(s->client_to_server, before->client_to_server, 32);
    if (fault("table_remove: the second half of a key stays")) memcpy(s->client_to_server + 16, before->client_to_server + 16, 16);
    if (fault("table_remove: the last byte of a key stays")) s->server_to_client[31] = before->server_to_client[31];
    if (fault("table_remove: the key size stays")) s->wide = before->wide;
    if (fault("table_remove: the mark guest stays")) s->guest = before->guest;
    if (fault("table_remove: the mark anonymous stays")) s->anonymous = before->anonymous;
    if (fault("table_remove: the spare bytes stay")) memcpy(s->spare, before->spare, sizeof s->spare);
}

uint32_t __real_smb3seal_table_remove(session *, size_t, uint64_t);
uint32_t __wrap_smb3seal_table_remove(session *table, size_t n, uint64_t id)
{
    enum lookup how = remove_lookup();
    size_t place = search(table, n, id, how);
    if (place < n && how != FIRST) memset(&table[place], 0, sizeof table[place]);
    if (how != FIRST) return place < n ? 0 : 6;
    session before = {0};
    if (place < n) before = table[place];
    if (fault("table_remove: does nothing") && place < n) return 0;
    if (fault("table_remove: the table is taken as 32 bits long")) n = (uint32_t)n;
    if (fault("table_remove: a byte behind the table is read")) look(table + n);
    if (fault("table_remove: a guest is not removed") && place < n && before.guest != 0) return 8;
    uint32_t r = __real_smb3seal_table_remove(table, n, id);
    if (fault("table_remove: an unknown id is done") && r == 6) return 0;
    if (fault("table_remove: a refusal clears the first record") && r == 6 && n > 0) memset(table, 0, sizeof *table);
    if (r != 0) return r;
    mistake_removal(&table[place], &before);
    if (fault("table_remove: the records behind move up")) {
        memmove(&table[place], &table[place + 1], (n - place - 1) * sizeof *table);
        memset(&table[n - 1], 0, sizeof *table);
    }
    for (size_t i = 0; i < n && fault("table_remove: every record of the id"); i++)
        if (hit(&table[i], id, FIRST)) memset(&table[i], 0, sizeof table[i]);
    return r;
}

/* ---- sealing */

static enum lookup seal_lookup(void)
{
    if (fault("table_seal: the last record of the id")) return LAST;
    if (fault("table_seal: a free record of the id")) return FREE_TOO;
    if (fault("table_seal: only 1 means used")) return ONLY_ONE;
    if (fault("table_seal: the low half of the id")) return LOW_HALF;
    return FIRST;
}

static connection mistake_connection(connection c)
{
    if (fault("table_seal: the role is ignored") && c.role == SMB3SEAL_SERVER) c.role = SMB3SEAL_CLIENT;
    if (fault("table_seal: the key of the other direction") && c.role < 2) c.role ^= 1;
    if (fault("table_seal: role 2 is a server") && c.role == 2) c.role = SMB3SEAL_SERVER;
    if (fault("table_seal: the role's lowest bit")) c.role &= 1;
    if (fault("table_seal: the spare byte is ignored")) c.spare = 0;
    if (fault("table_seal: only 1 means encryption")) c.encryption = c.encryption == 1;
    if (fault("table_seal: the constraint is not tested")) c.constrained = 0;
    if (fault("table_seal: only 1 means constrained")) c.constrained = c.constrained == 1;
    return c;
}

/* The record as a wrong library reads it. */
static void mistake_session(session *s, connection c)
{
    int wide = smb3seal_cipher_key_bytes(c.dialect, c.cipher) == 32;
    if (fault("table_seal: 35 is left out")) s->wide = (uint8_t)wide;
    if (fault("table_seal: a wide record under a cipher of 128 bits") && !wide) s->wide = 0;
    if (fault("table_seal: a narrow record under a cipher of 256 bits") && wide) s->wide = 1;
    if (fault("table_seal: only 1 means wide")) s->wide = s->wide == 1;
    if (fault("table_seal: guest is not tested")) s->guest = 0;
    if (fault("table_seal: anonymous is not tested")) s->anonymous = 0;
    if (fault("table_seal: only 1 means guest")) s->guest = s->guest == 1;
    if (fault("table_seal: only 1 means anonymous")) s->anonymous = s->anonymous == 1;
    if (fault("table_seal: the counter is always 0")) s->counter = 0;
}

/* What it leaves in it: the marks are as they were in `before`, but for the faults. */
static void mistake_step(session *s, const session *before, uint32_t r)
{
    uint64_t by = r == 0;
    if (fault("table_seal: the counter stays")) by = 0;
    if (fault("table_seal: the counter goes up by two")) by *= 2;
    if (fault("table_seal: a refusal steps the counter") && r != 0) by = 1;
    if (fault("table_seal: a refusal of the walk steps the counter") && r > 10 && r < 17) by = 1;
    *s = *before;
    s->counter += by;
    if (fault("table_seal: only the counter's low half steps")) s->counter = (before->counter >> 32 << 32) | (uint32_t)s->counter;
    if (r == 0 && fault("table_seal: the step clears the spare bytes")) memset(s->spare, 0, sizeof s->spare);
    if (r == 0 && fault("table_seal: the step makes used 1")) s->used = 1;
    if (r == 17 && fault("table_seal: 17 frees the record")) memset(s, 0, sizeof *s);
}

/* The marks of the first inner header, or none. */
static int inner_marks(const uint8_t *message, size_t message_len)
{
    return message_len >= 116 ? marks_of(message + 52) : 0;
}

/* The role picks the key, and whether a notice passes: a wrong library, by marks that were looked at before it sealed. */
static uint32_t mistake_notice(uint32_t r, connection c, int marks)
{
    if (fault("table_seal: a server's notices get 14 too") && r == 0 && c.role == SMB3SEAL_SERVER && marks == NOTICE) return 14;
    if (fault("table_seal: a client's notices pass too") && r == 14 && c.role == SMB3SEAL_CLIENT && marks == NOTICE) return 0;
    if (fault("table_seal: a notice by two marks") && r == 14 && c.role == SMB3SEAL_SERVER && marks == (COMMAND | SESSION_ID)) return 0;
    return r;
}

/* What the walk says of the message, where it refuses; else 35. */
static uint32_t walked_before(connection c, uint64_t id, const uint8_t *message, size_t message_len)
{
    static const uint8_t any_key[32];
    uint8_t copy[1024] = {0};
    uint64_t counter = 0, visited;
    if (message_len > sizeof copy) return 35;
    memcpy(copy, message, message_len);
    uint32_t r = smb3seal_connection_seal(c, any_key, smb3seal_cipher_key_bytes(c.dialect, c.cipher), id, &counter, copy, message_len,
                                          &visited);
    return r > 10 && r < 17 ? r : 35;
}

static int other_size(connection c, const session *s)
{
    return (smb3seal_cipher_key_bytes(c.dialect, c.cipher) == 32) != (s->wide != 0);
}

static uint32_t mistake_seal_order(uint32_t r, connection c, const session *s)
{
    if (fault("table_seal: 6 before 1") && r == 1 && s == NULL) return 6;
    if (fault("table_seal: 6 before 2") && r == 2 && s == NULL) return 6;
    if (fault("table_seal: 6 before 3") && r == 3 && s == NULL) return 6;
    if (fault("table_seal: 7 before 6") && r == 6 && c.constrained != 0) return 7;
    if (fault("table_seal: 35 before 8") && r == 8 && other_size(c, s)) return 35;
    if (fault("table_seal: 35 before 7") && r == 7 && other_size(c, s)) return 35;
    if (fault("table_seal: 17 before 35") && r == 35 && s->counter == UINT64_MAX) return 17;
    if (fault("table_seal: 8 before 7") && r == 7 && (s->guest != 0 || s->anonymous != 0)) return 8;
    if (fault("table_seal: 17 before the walk") && r > 10 && r < 17 && s->counter == UINT64_MAX) return 17;
    return r;
}

uint32_t __real_smb3seal_table_seal(session *, size_t, connection, uint64_t, uint8_t *, size_t, uint64_t *);
uint32_t __wrap_smb3seal_table_seal(session *table, size_t n, connection c, uint64_t id, uint8_t *message, size_t message_len,
                                    uint64_t *headers)
{
    if (fault("table_seal: the table is taken as 32 bits long")) n = (uint32_t)n;
    if (fault("table_seal: the message is taken as 32 bits long")) message_len = (uint32_t)message_len;
    if (fault("table_seal: a byte behind the table is written")) touch(table + n);
    if (fault("table_seal: a byte behind the message is read")) look(message + message_len);
    size_t place = search(table, n, id, seal_lookup());
    int marks = inner_marks(message, message_len);
    session before = {0}, read = {0};
    if (place < n) before = read = table[place];
    read.used = place < n;
    read.id = id;
    mistake_session(&read, c);
    uint32_t r = __real_smb3seal_table_seal(&read, 1, mistake_connection(c), id, message, message_len, headers);
    if (place < n) mistake_step(&table[place], &before, r);
    for (size_t i = place + 1; i < n && r == 0 && fault("table_seal: every record of the id steps"); i++)
        table[i].counter += hit(&table[i], id, FIRST) ? 1 : 0;
    if (fault("table_seal: the walk before 35") && r == 35) r = walked_before(c, id, message, message_len);
    if (fault("table_seal: a refusal clears the count") && r != 0) *headers = 0;
    if (fault("table_seal: the count is always 1") && r == 0) *headers = 1;
    if (fault("table_seal: a wrong bit of the tag") && r == 0) message[19] ^= 0x80;
    if (fault("table_seal: a refusal clears the room") && r != 0 && message_len >= 52) memset(message, 0, 52);
    r = mistake_notice(r, c, marks);
    return mistake_seal_order(r, c, place < n ? &before : NULL);
}

/* ---- opening */

static enum lookup open_lookup(void)
{
    if (fault("table_open: the last record of the id")) return LAST;
    if (fault("table_open: a free record of the id")) return FREE_TOO;
    if (fault("table_open: only 1 means used")) return ONLY_ONE;
    return FIRST;
}

/* Connection and record as a wrong library reads them. */
static void mistake_opening(connection *c, session *s)
{
    if (fault("table_open: the role is ignored") && c->role == SMB3SEAL_CLIENT) c->role = SMB3SEAL_SERVER;
    if (fault("table_open: the key of the own direction") && c->role < 2) c->role ^= 1;
    if (fault("table_open: role 2 is a server") && c->role == 2) c->role = SMB3SEAL_SERVER;
    if (fault("table_open: any other role is a client") && c->role > 1) c->role = SMB3SEAL_CLIENT;
    if (fault("table_open: the spare byte is ignored")) c->spare = 0;
    if (fault("table_open: only 1 means encryption")) c->encryption = c->encryption == 1;
    if (fault("table_open: the constraint is not tested")) c->constrained = 0;
    if (fault("table_open: only 1 means constrained")) c->constrained = c->constrained == 1;
    if (fault("table_open: guest is not tested")) s->guest = 0;
    if (fault("table_open: anonymous is not tested")) s->anonymous = 0;
    if (fault("table_open: only 1 means guest")) s->guest = s->guest == 1;
    if (fault("table_open: only 1 means anonymous")) s->anonymous = s->anonymous == 1;
    int wide = smb3seal_cipher_key_bytes(c->dialect, c->cipher) == 32;
    if (fault("table_open: 35 is left out")) s->wide = (uint8_t)wide;
    if (fault("table_open: a wide record under a cipher of 128 bits") && !wide) s->wide = 0;
    if (fault("table_open: a narrow record under a cipher of 256 bits") && wide) s->wide = 1;
    if (fault("table_open: only 1 means wide")) s->wide = s->wide == 1;
}

static uint32_t mistake_open_order(uint32_t r, connection c, const session *s)
{
    if (fault("table_open: 6 before 2") && r == 2 && s == NULL) return 6;
    if (fault("table_open: 6 before 4") && r == 4 && s == NULL) return 6;
    if (fault("table_open: 6 before 5") && r == 5 && s == NULL) return 6;
    if (fault("table_open: 6 before 29") && r == 29 && s == NULL) return 6;
    if (fault("table_open: 9 for 29") && r == 29) return 9;
    if (fault("table_open: 7 before 5") && r == 5 && c.constrained != 0) return 7;
    if (fault("table_open: 7 before 6") && r == 6 && c.constrained != 0) return 7;
    if (fault("table_open: 8 before 7") && r == 7 && (s->guest != 0 || s->anonymous != 0)) return 8;
    if (fault("table_open: 10 for 9") && r == 9) return 10;
    if (fault("table_open: 35 before 8") && r == 8 && other_size(c, s)) return 35;
    if (fault("table_open: 35 before 6") && r == 6) return 35;
    if (fault("table_open: 9 for 35") && r == 35) return 9;
    return r;
}

/* The table is not to be written; a wrong library does it through a cast. */
static void mistake_table(const session *s, uint32_t r)
{
    if (fault("table_open: the counter goes up") && r == 0) ((session *)s)->counter++;
    if (fault("table_open: a spare byte is written") && r == 0) ((session *)s)->spare[3] = 0;
    if (fault("table_open: a bad tag frees the record") && r == 9) ((session *)s)->used = 0;
    if (fault("table_open: the table is written")) touch(s);
}

uint32_t __real_smb3seal_table_open(const session *, size_t, connection, uint8_t *, size_t, uint64_t *);
uint32_t __wrap_smb3seal_table_open(const session *table, size_t n, connection c, uint8_t *message, size_t message_len,
                                    uint64_t *headers)
{
    uint64_t id = 0;
    connection as_read = c;
    session read = {0};
    if (fault("table_open: does nothing")) return 0;
    if (fault("table_open: refuses everything")) return 9;
    if (fault("table_open: the table is taken as 32 bits long")) n = (uint32_t)n;
    if (fault("table_open: a byte behind the table is read")) look(table + n);
    if (fault("table_open: the message is taken as 32 bits long")) message_len = (uint32_t)message_len;
    for (size_t i = 8; i-- > 0 && message_len >= 52;) id = id << 8 | message[44 + i];
    size_t place = search(table, n, id, open_lookup());
    if (place < n) read = table[place];
    read.used = place < n;
    read.id = id;
    mistake_opening(&as_read, &read);
    uint32_t r = __real_smb3seal_table_open(&read, 1, as_read, message, message_len, headers);
    if (place < n) mistake_table(&table[place], r);
    if (fault("table_open: notices from a server get 14 too") && r == 0 && inner_marks(message, message_len) == NOTICE) return 14;
    if (fault("table_open: notices from a client pass too") && r == 14 && c.role == SMB3SEAL_SERVER)
        if (sealed_marks(c.dialect, c.cipher, read.client_to_server, message, message_len) == NOTICE) return 0;
    if (fault("table_open: plaintext is left after the walk") && r > 10 && r < 17)
        leave_plaintext(c.dialect, c.cipher, c.role == SMB3SEAL_CLIENT ? read.server_to_client : read.client_to_server, message,
                        message_len);
    if (fault("table_open: a refusal clears the count") && r != 0) *headers = 0;
    if (fault("table_open: the header is cleared") && r == 0) memset(message, 0, 52);
    return mistake_open_order(r, c, place < n ? &table[place] : NULL);
}
