/*
 * libFuzzer: its bytes become a session table, as they are, and a list of calls on it; the library must do what the model does. As in
 * fuzz.c, the model alone is instrumented.
 *
 * Bits of a call's first bytes say what the search makes itself and what is right: else nearly every call would end at number 1 or 6.
 */
#include <string.h>

#include "check.h"
#include "messages.h"
#include "table_call.h"
#include "table_model.h"

enum { MOST_RECORDS = 8, MOST_CALLS = 8, MOST_INNER = HEADER + 255 };

static const uint8_t *input;
static size_t left;

/* The next n bytes; zeros where there are no more. */
static void take_bytes(void *to, size_t n)
{
    size_t there = n < left ? n : left;
    memset(to, 0, n);
    memcpy(to, input, there);
    input += there;
    left -= there;
}

static uint64_t take(size_t n)
{
    uint8_t bytes[8];
    uint64_t value = 0;
    take_bytes(bytes, n);
    for (size_t i = n; i-- > 0;) value = value << 8 | bytes[i];
    return value;
}

static struct smb3seal_connection take_connection(int any)
{
    static const uint16_t dialects[] = {0x0311, 0x0300, 0x0302, 0x0311};
    struct smb3seal_connection c = {0};
    if (any) {
        take_bytes(&c, sizeof c);
        return c;
    }
    uint64_t choice = take(1);
    c.dialect = dialects[choice & 3];
    c.cipher = (uint16_t)(1 + (choice >> 2 & 3));
    c.role = choice >> 4 & 1;
    c.encryption = 1;
    c.constrained = (choice & 0xE0) == 0xE0;
    return c;
}

static void take_adding(struct table_call *c)
{
    uint64_t lengths = take(1);
    c->guest = (uint32_t)take(2);
    c->anonymous = (uint32_t)take(2);
    c->material.len = lengths & 63;
    c->chain.len = lengths & 128 ? lengths & 127 : 64;
    take_bytes(c->material.at, 63);
    take_bytes(c->chain.at, 4);
}

/* One right header, then what the search puts over it; what is opened gets a transform header and, by a bit, a right tag. */
static void take_message(struct table_call *c)
{
    unsigned choice = (unsigned)take(1);
    uint8_t *inner = c->message.at + TRANSFORM;
    size_t n = HEADER + take(1), place = model_table_find(c->table, c->table_len, c->id);
    c->message.len = TRANSFORM + n;
    memset(c->message.at, 0, c->message.len);
    put_header(inner, 0, 0, c->id);
    if ((choice & 3) == 3) mark_as_notice(inner);
    if (choice & 1) take_bytes(inner + take(1) % n, 1);
    if (choice & 2) take_bytes(inner + 16, 8);
    if (choice & 4) take_bytes(inner + HEADER, n - HEADER);
    struct call under = {.dialect = c->connection.dialect, .cipher = c->connection.cipher, .id = c->id, .message = c->message};
    if (c->function == TABLE_OPEN) put_transform(&under, take(1));
    if (choice & 8) take_bytes(c->message.at + 36, 4);
    if (choice & 64) take_bytes(c->message.at + 42, 10);
    if (choice & 128) take_bytes(c->message.at, 4);
    if (place < c->table_len) under.key = (struct lent){opening_key(c->connection, &c->table[place]), 32};
    if (c->function == TABLE_OPEN && place < c->table_len && choice & 16) forge(&under);
    if (choice & 32) c->message.len = take(2) % (c->message.len + 1);
}

static void take_call(struct table_call *c)
{
    unsigned kind = (unsigned)take(1);
    c->function = (kind & 63) % TABLE_FUNCTIONS;
    c->connection = take_connection((kind & 128) != 0);
    c->id = kind & 64 || c->table_len == 0 ? take(8) : c->table[take(1) % c->table_len].id;
    if (c->function == TABLE_ADD) take_adding(c);
    if (c->function == TABLE_SEAL || c->function == TABLE_OPEN) take_message(c);
}

int LLVMFuzzerInitialize(int *argc, char ***argv)
{
    (void)argc;
    begin(1, *argv);
    return 0;
}

int LLVMFuzzerTestOneInput(const uint8_t *data, size_t size)
{
    static struct smb3seal_session table[MOST_RECORDS];
    struct call plain = plain_call(SEAL, 1, MOST_INNER);
    struct table_call c = {.table = table, .material = plain.key, .chain = plain.chain, .message = {plain.message.at, 0}};
    input = data;
    left = size;
    c.table_len = take(1) % (MOST_RECORDS + 1);
    take_bytes(table, c.table_len * sizeof table[0]);
    for (int calls = 0; calls < MOST_CALLS && left > 0; calls++) {
        take_call(&c);
        compare_table(&c, &heap);
    }
    return 0;
}
