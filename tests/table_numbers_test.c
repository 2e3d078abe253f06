/*
 * Each number by the calls with a session table, and which comes first. Every set of faults is made at once and must get the number of
 * the first of them in the order of the rules; 3, which takes a megabyte, is made by itself. And whole fields: every value of each byte
 * of the connection and of a record's flags, every dialect and cipher, each id that differs in one bit.
 */
#include <string.h>

#include "check.h"
#include "messages.h"
#include "model.h"
#include "table_call.h"

enum { INNER = 200, CIPHERS = 4 };

/* ---- sealing and opening: faults in the order in which they are tested */

static const uint32_t seal_faults[] = {1, 2, 6, 7, 8, 35, 11, 12, 13, 14, 15, 16, 17};
static const uint32_t open_faults[] = {1, 2, 4, 5, 29, 6, 7, 8, 35, 9, 10, 11, 12, 13, 14, 15, 16};

/* What is wrong inside the message, before it is sealed. */
static void put_inner_fault(struct table_call *c, uint32_t number)
{
    uint8_t *inner = c->message.at + TRANSFORM;
    switch (number) {
    case 10: put(c->message.at + 36, INNER - 1, 4); break;
    case 11:
        c->message.len = TRANSFORM + HEADER - 1;
        put(c->message.at + 36, HEADER - 1, 4);
        break;
    case 12: inner[3] = 'b'; break;
    case 13: inner[16] = 4; break;
    case 14: inner[47] = 1; break;
    case 15: inner[20] = 56; break;
    case 16: inner[20] |= 68; break;
    }
}

/* 1, 6 and 8 have several causes: one of them. */
static void put_table_fault(struct table_call *c, uint32_t number, uint32_t cause)
{
    struct smb3seal_session *s = &c->table[PLACE];
    switch (number) {
    case 1:
        if (cause % 5 == 0) c->connection.encryption = 0;
        if (cause % 5 == 1) c->connection.role = 2;
        if (cause % 5 == 2) c->connection.spare = 1;
        if (cause % 5 == 3) c->connection.dialect = 0x0210;
        if (cause % 5 == 4) c->connection.cipher = 0;
        break;
    case 6:
        if (cause % 3 == 0) s->used = 0;
        if (cause % 3 == 1) s->id ^= (uint64_t)1 << 63;
        if (cause % 3 == 2) c->table_len = PLACE;
        break;
    case 7: c->connection.constrained = 1; break;
    case 8:
        if (cause % 2 == 0) s->guest = 1;
        else s->anonymous = 1;
        break;
    case 35: s->wide = s->wide != 0 ? 0 : (uint8_t)(1 << cause % 8); break;
    case 17: s->counter = UINT64_MAX; break;
    }
}

/* What is wrong with the sealed message. */
static void put_outer_fault(struct table_call *c, uint32_t number)
{
    switch (number) {
    case 2: c->message.len = TRANSFORM; break;
    case 4: c->message.at[0] = 0xFE; break;
    case 5: c->message.at[43] = 1; break;
    case 29: c->message.at[35] = 1; break;
    case 9: c->message.at[4] ^= 1; break;
    }
}

/* The faults whose bits are in the set, all at once: the first of them is the answer. Inside the message the first is put last. */
static void one_set(struct table_call c, const uint32_t *numbers, size_t count, uint32_t set)
{
    struct call under = under_key(&c);
    uint32_t first = 0;
    put_transform(&under, set);
    for (size_t i = count; i-- > 0;) {
        if ((set >> i & 1) == 0) continue;
        put_inner_fault(&c, numbers[i]);
        first = numbers[i];
    }
    under.message.len = c.message.len;
    if (c.function == TABLE_OPEN) forge(&under);
    for (size_t i = 0; i < count; i++) {
        if ((set >> i & 1) == 0) continue;
        put_outer_fault(&c, numbers[i]);
        put_table_fault(&c, numbers[i], set / 7);
    }
    expect_table_answer(&c, first, "a set of faults");
}

static void every_set(enum table_function function, uint16_t cipher, uint8_t role, const uint32_t *numbers, size_t count)
{
    for (uint32_t set = 0; set < (uint32_t)1 << count; set++) {
        begin_case(set);
        struct table_call c = plain_table_call(function, cipher, INNER);
        c.connection.role = role;
        one_set(c, numbers, count, set);
    }
}

/* 29 is for GCM alone. 35 goes both ways: a wide record under a cipher of 128 bits, and a narrow one under one of 256. */
static void every_open_set(uint16_t cipher)
{
    uint32_t numbers[COUNT(open_faults)];
    size_t count = 0;
    for (size_t i = 0; i < COUNT(open_faults); i++)
        if (open_faults[i] != 29 || model_gcm(SMB3SEAL_DIALECT_311, cipher)) numbers[count++] = open_faults[i];
    every_set(TABLE_OPEN, cipher, SMB3SEAL_SERVER, numbers, count);
}

/* P1 to P4 of the rules. */
static void sums(uint16_t cipher)
{
    struct table_call c = plain_table_call(TABLE_OPEN, cipher, 0);
    expect_table_answer(&c, 2, "P1: 52 bytes");
    c = plain_table_call(TABLE_OPEN, cipher, 1);
    c.message.at[0] = 0xFE;
    expect_table_answer(&c, 4, "P2: 53 bytes beginning FE");
    c = plain_table_call(TABLE_OPEN, cipher, INNER);
    struct call under = under_key(&c);
    put_transform(&under, 1);
    put(c.message.at + 42, 0, 2);
    put(c.message.at + 44, OTHER_SESSION, 8);
    expect_table_answer(&c, 5, "P3: Flags 0 and an unknown id");
    for (enum table_function f = TABLE_SEAL; f <= TABLE_OPEN; f++) {
        c = plain_table_call(f, cipher, INNER);
        under = under_key(&c);
        put_transform(&under, 1);
        c.connection.constrained = 1;
        c.table[PLACE].guest = 1;
        expect_table_answer(&c, 7, "P4: a constrained connection and a guest");
    }
}

/* 8,454,144 inner bytes pass. With one more it is 3, before any test of the session. */
static void limits(uint16_t cipher)
{
    for (size_t n = LIMIT; n <= LIMIT + 1; n++) {
        struct table_call c = plain_table_call(TABLE_SEAL, cipher, n);
        if (n > LIMIT) c.table[PLACE].used = 0;
        expect_table_answer(&c, n > LIMIT ? 3 : 0, "sealing this length");
        c.function = TABLE_OPEN;
        c.connection.role = SMB3SEAL_SERVER;
        expect_table_answer(&c, n > LIMIT ? 3 : 0, "opening this length");
    }
}

/* ---- adding and removing */

static const uint32_t add_faults[] = {40, 18, 19, 20, 21, 22};

static void put_add_fault(struct table_call *c, uint32_t number, uint32_t cause)
{
    static const size_t chains[] = {0, 63, 65, 128};
    switch (number) {
    case 40: c->chain.len = chains[cause % COUNT(chains)]; break;
    case 18: c->connection.dialect = 0x0210; break;
    case 19: c->material.len = key_bytes(c->connection.dialect, c->connection.cipher) == 32 && cause & 4 ? KEY_ROOM : 0; break;
    case 20: c->id = 0; break;
    case 21: c->table[PLACE].id = c->id; break;
    case 22:
        if (cause % 2 == 0) c->table_len = RECORDS - 1;
        else c->table[RECORDS - 1].used = (uint8_t)(1 << cause % 8);
        break;
    }
}

/* Nothing of the connection but dialect and cipher counts; so each cause has another connection, and other marks. */
static void one_adding(uint16_t dialect, uint32_t set, uint32_t cause)
{
    struct table_call c = plain_table_call(TABLE_ADD, 2, HEADER);
    uint32_t first = 0;
    if (cause > 0) fill((uint8_t *)&c.connection, sizeof c.connection);
    c.connection.dialect = dialect;
    c.connection.cipher = (uint16_t)(cause % 6);
    c.guest = cause & 1 ? (uint32_t)1 << cause : 0;
    c.anonymous = cause & 2 ? (uint32_t)1 << (31 - cause) : 0;
    for (size_t i = 0; i < COUNT(add_faults); i++) {
        if ((set >> i & 1) == 0) continue;
        put_add_fault(&c, add_faults[i], cause);
        if (first == 0) first = add_faults[i];
    }
    expect_table_answer(&c, first, "a set of faults, adding");
}

static void every_adding(void)
{
    static const uint16_t dialects[] = {0x0300, 0x0302, 0x0311};
    for (uint32_t set = 0; set < (uint32_t)1 << COUNT(add_faults); set++)
        for (uint32_t cause = 0; cause < 16; cause++) {
            begin_case(100 * set + cause);
            for (size_t i = 0; i < COUNT(dialects); i++) one_adding(dialects[i], set, cause);
        }
}

static void removing(void)
{
    struct table_call c = plain_table_call(TABLE_REMOVE, 1, HEADER);
    c.table[PLACE].used = 0;
    expect_table_answer(&c, 6, "removing, with a free record of the id");
    c = plain_table_call(TABLE_REMOVE, 1, HEADER);
    c.id = OTHER_SESSION;
    expect_table_answer(&c, 6, "removing an unknown id");
    c = plain_table_call(TABLE_REMOVE, 1, HEADER);
    c.table_len = 0;
    expect_table_answer(&c, 6, "removing from an empty table");
    c = plain_table_call(TABLE_REMOVE, 1, HEADER);
    c.table[PLACE].guest = c.table[PLACE].anonymous = 1;
    expect_table_answer(&c, 0, "removing a guest");
    expect_table_answer(&c, 6, "removing it again");
    c = plain_table_call(TABLE_REMOVE, 1, HEADER);
    c.id = c.table[PLACE].id = 0;
    expect_table_answer(&c, 0, "removing the id 0");
}

/* ---- whole fields */

/* A call with this byte of the connection, or of the record, put to every value. What is opened was sealed by a peer. */
static void every_byte(enum table_function function, uint8_t role, size_t at_connection, size_t at_record, uint32_t zero, uint32_t one,
                       uint32_t others)
{
    for (uint32_t value = 0; value <= 0xFF; value++) {
        begin_case(value);
        struct table_call c = plain_table_call(function, 2, HEADER);
        c.connection.role = role;
        struct call under = under_key(&c);
        if (function == TABLE_OPEN) {
            put_transform(&under, value);
            forge(&under);
        }
        if (at_connection < sizeof c.connection) ((uint8_t *)&c.connection)[at_connection] = (uint8_t)value;
        if (at_record < sizeof *c.table) ((uint8_t *)&c.table[PLACE])[at_record] = (uint8_t)value;
        expect_table_answer(&c, value == 0 ? zero : value == 1 ? one : others, "a byte of the connection or of the record");
    }
}

static void every_flag(enum table_function function, uint8_t role)
{
    const size_t none = SIZE_MAX;
    every_byte(function, role, offsetof(struct smb3seal_connection, encryption), none, 1, 0, 0);
    every_byte(function, role, offsetof(struct smb3seal_connection, constrained), none, 0, 7, 7);
    every_byte(function, role, offsetof(struct smb3seal_connection, spare), none, 0, 1, 1);
    every_byte(function, role, none, offsetof(struct smb3seal_session, used), 6, 0, 0);
    every_byte(function, role, none, offsetof(struct smb3seal_session, guest), 0, 8, 8);
    every_byte(function, role, none, offsetof(struct smb3seal_session, anonymous), 0, 8, 8);
    for (size_t i = 0; i < 4; i++) every_byte(function, role, none, offsetof(struct smb3seal_session, spare) + i, 0, 0, 0);
}

/* A record's key size is a flag like the others: 0 is for keys of 16 bytes. */
static void every_key_size(enum table_function function, uint16_t cipher)
{
    for (uint32_t value = 0; value <= 0xFF; value++) {
        begin_case(value);
        struct table_call c = plain_table_call(function, cipher, HEADER);
        struct call under = under_key(&c);
        put_transform(&under, value);
        if (function == TABLE_OPEN) forge(&under);
        c.table[PLACE].wide = (uint8_t)value;
        expect_table_answer(&c, (value != 0) == (cipher > 2) ? 0 : 35, "a record's key size");
    }
}

/* Each end has one key to seal with and one to open with: with the other role a message that was sealed for this one has a bad tag. */
static void every_role(void)
{
    const size_t at = offsetof(struct smb3seal_connection, role);
    every_byte(TABLE_SEAL, SMB3SEAL_CLIENT, at, SIZE_MAX, 0, 0, 1);
    every_byte(TABLE_OPEN, SMB3SEAL_CLIENT, at, SIZE_MAX, 0, 9, 1);
    every_byte(TABLE_OPEN, SMB3SEAL_SERVER, at, SIZE_MAX, 9, 0, 1);
}

/* Adding tests nothing of the connection but the dialect. */
static void every_other_byte(void)
{
    for (size_t at = offsetof(struct smb3seal_connection, cipher); at < sizeof(struct smb3seal_connection); at++)
        every_byte(TABLE_ADD, SMB3SEAL_CLIENT, at, SIZE_MAX, 0, 0, 0);
}

static void every_used(void)
{
    for (uint32_t value = 0; value <= 0xFF; value++) {
        begin_case(value);
        struct table_call c = plain_table_call(TABLE_ADD, 2, HEADER);
        c.table[RECORDS - 1].used = (uint8_t)value;
        expect_table_answer(&c, value == 0 ? 0 : 22, "adding: a free record's used byte");
        c = plain_table_call(TABLE_ADD, 2, HEADER);
        c.table[PLACE].id = OTHER_SESSION;
        c.table[PLACE].used = (uint8_t)value;
        expect_table_answer(&c, value == 0 ? 0 : 21, "adding: the used byte of a record of the id");
        c = plain_table_call(TABLE_REMOVE, 2, HEADER);
        c.table[PLACE].used = (uint8_t)value;
        expect_table_answer(&c, value == 0 ? 6 : 0, "removing: a record's used byte");
        c = plain_table_call(TABLE_FIND, 2, HEADER);
        c.table[PLACE].used = (uint8_t)value;
        expect_table_answer(&c, value == 0 ? RECORDS : PLACE, "finding: a record's used byte");
    }
}

static void every_dialect(uint16_t cipher)
{
    for (uint32_t dialect = 0; dialect <= 0xFFFF; dialect++) {
        int known = dialect == 0x0300 || dialect == 0x0302 || dialect == 0x0311;
        begin_case(dialect);
        struct table_call c = plain_table_call(TABLE_SEAL, cipher, HEADER);
        set_table_dialect(&c, (uint16_t)dialect);
        expect_table_answer(&c, known ? 0 : 1, "a dialect, sealing");
        c.function = TABLE_ADD;
        c.id = OTHER_SESSION;
        expect_table_answer(&c, known ? 0 : 18, "a dialect, adding");
    }
}

static void every_cipher(uint16_t dialect)
{
    for (uint32_t cipher = 0; cipher <= 0xFFFF; cipher++) {
        int encrypts = cipher != 0 && (cipher <= 4 || dialect != 0x0311);
        begin_case(cipher);
        struct table_call c = plain_table_call(TABLE_SEAL, (uint16_t)cipher, HEADER);
        set_table_dialect(&c, dialect);
        expect_table_answer(&c, encrypts ? 0 : 1, "a cipher, sealing");
        c.function = TABLE_OPEN;
        c.connection.role = SMB3SEAL_SERVER;
        expect_table_answer(&c, encrypts ? 0 : 1, "a cipher, opening at the other end");
    }
}

/* No record of an id that differs in a bit is taken for the session's. */
static void every_id_bit(void)
{
    for (unsigned bit = 0; bit < 64; bit++) {
        uint64_t id = SESSION ^ (uint64_t)1 << bit;
        begin_case(bit);
        struct table_call c = plain_table_call(TABLE_FIND, 2, HEADER);
        c.id = id;
        expect_table_answer(&c, RECORDS, "finding an id that differs in a bit");
        c.function = TABLE_REMOVE;
        expect_table_answer(&c, 6, "removing an id that differs in a bit");
        c.function = TABLE_ADD;
        expect_table_answer(&c, 0, "adding an id that differs in a bit");
        c = plain_table_call(TABLE_SEAL, 2, HEADER);
        c.id = id;
        expect_table_answer(&c, 6, "sealing for an id that differs in a bit");
        c = plain_table_call(TABLE_OPEN, 2, HEADER);
        c.id = id;
        struct call under = under_key(&c);
        put_transform(&under, bit);
        forge(&under);
        expect_table_answer(&c, 6, "opening for an id that differs in a bit");
    }
}

int main(int argc, char **argv)
{
    begin(argc, argv);
    for (uint8_t role = SMB3SEAL_CLIENT; role <= SMB3SEAL_SERVER; role++) {
        every_flag(TABLE_SEAL, role);
        every_flag(TABLE_OPEN, role);
    }
    every_role();
    every_other_byte();
    every_used();
    every_id_bit();
    every_adding();
    removing();
    for (uint16_t cipher = 1; cipher <= CIPHERS; cipher++) {
        every_key_size(TABLE_SEAL, cipher);
        every_key_size(TABLE_OPEN, cipher);
        sums(cipher);
        every_set(TABLE_SEAL, cipher, SMB3SEAL_CLIENT, seal_faults, COUNT(seal_faults));
        every_open_set(cipher);
    }
    every_dialect(2);
    every_dialect(4);
    every_cipher(0x0300);
    every_cipher(0x0302);
    every_cipher(0x0311);
    for (uint16_t cipher = 1; cipher <= CIPHERS; cipher++) limits(cipher);
    return finish();
}
