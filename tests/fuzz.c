/*
 * libFuzzer: its bytes become a call of one of the functions, and the library must do what the model does. The library's archive
 * is not instrumented; the model is, so that its branches guide the search.
 *
 * The first byte says which function, and for opening and verifying whether the bytes are the message as it arrives or are first given
 * a right tag or signature: otherwise no search would come behind it. Then follow fixed fields, then the message.
 */
#include <string.h>

#include "check.h"
#include "messages.h"
#include "model.h"

enum { FIXED = 1 + 2 + 2 + 1 + 8 + 8 + 1, MOST = 4096 };

static const uint8_t *input;
static size_t left;

/* The next n bytes as a number; zero where there are no more. */
static uint64_t take(size_t n)
{
    uint64_t value = 0;
    for (size_t i = 0; i < n && left > 0; i++, left--) value |= (uint64_t)*input++ << (8 * i);
    return value;
}

/* The two high bits say which length becomes another: none, the key's, the chain's, or that of the place for the keys. */
static void choose_lengths(struct call *c, uint64_t change)
{
    size_t other = change & 63;
    if (change >> 6 == 1 && c->function != DERIVE) c->key.len = other;
    if (change >> 6 == 2) c->chain.len = 32 + other;
    if (change >> 6 == 3 && c->function == DERIVE) c->message.len = 40 + other;
}

/* The session's id is often that of the first inner header, or of the transform header: else nothing would be accepted. */
static void choose_id(struct call *c, unsigned choice)
{
    size_t at = choice & 1 ? 44 : TRANSFORM + 40;
    if (choice & 2 || c->message.len < at + 8) return;
    c->id = 0;
    for (size_t i = 8; i-- > 0;) c->id = c->id << 8 | c->message.at[at + i];
}

/* Under a right tag: bits of the choice leave the header's fields as the search made them. */
static void give_tag(struct call *c, unsigned choice)
{
    uint8_t header[TRANSFORM];
    if (c->message.len <= TRANSFORM) return;
    memcpy(header, c->message.at, TRANSFORM);
    put_transform(c, c->counter);
    if (choice & 4) memcpy(c->message.at + 20, header + 20, 16);
    if (choice & 8) memcpy(c->message.at + 36, header + 36, 6);
    if (choice & 16) memcpy(c->message.at + 42, header + 42, 10);
    forge(c);
    if (choice & 32) c->message.at[header[0] % c->message.len] ^= header[1];
}

int LLVMFuzzerInitialize(int *argc, char ***argv)
{
    (void)argc;
    begin(1, *argv);
    return 0;
}

int LLVMFuzzerTestOneInput(const uint8_t *data, size_t size)
{
    static const uint16_t dialects[] = {0x0311, 0x0300, 0x0302, 0x0311};
    if (size < FIXED || size > FIXED + MOST) return 0;
    input = data;
    left = size;
    unsigned kind = (unsigned)take(1), choice;
    struct call c = plain_call((kind & 0x7F) % FUNCTIONS, 0, MOST);
    uint64_t dialect = take(2), cipher = take(2);
    uint16_t chosen = dialect & 0x8000 ? (uint16_t)dialect : dialects[dialect % 4];
    c.role = (dialect >> 8 & 15) == 15 ? (uint32_t)cipher : dialect >> 8 & 1;
    c.cipher = cipher & 0x8000 ? (uint16_t)cipher : (uint16_t)(cipher % 6);
    set_dialect(&c, chosen);
    uint64_t lengths = take(1);
    c.id = take(8);
    c.counter = take(8);
    choice = (unsigned)take(1);
    c.encryption = choice != 64;
    if (choice & 128) c.counter = UINT64_MAX - c.counter % 3;
    c.message.len = c.function == DERIVE ? 32 + 2 * key_bytes(c.dialect, c.cipher) : left;
    if (c.function == DERIVE) c.key = (struct lent){(uint8_t *)input, left};
    else memcpy(c.message.at, input, left);
    choose_lengths(&c, lengths);
    choose_id(&c, choice);
    if (c.function == OPEN && kind & 0x80) give_tag(&c, choice);
    if (c.function == VERIFY && kind & 0x80 && choice & 1) model_sign(c.key.at, 16, c.message.at, c.message.len);
    if (c.function == VERIFY && choice & 2 && c.message.len > 0) c.message.at[choice % c.message.len] ^= 8;
    compare(&c, &heap);
    return 0;
}
