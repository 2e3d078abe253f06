/*
 * Every single bit of a sealed message is in a test or in the tag: changed, the message is refused, with the number of the field that
 * the bit is in, and nothing else changes.
 */
#include <string.h>

#include "check.h"
#include "messages.h"
#include "smb3_vectors.h"

static uint32_t number_of_byte(const struct call *c, size_t at)
{
    if (at < 4) return 4;
    if (at >= 32 && at < 36 && c->dialect == 0x0311 && c->cipher % 2 == 0) return 29;
    if (at >= 42 && at < 44) return 5;
    return at >= 44 && at < TRANSFORM ? 6 : 9;
}

/* The call's message is a sealed one that opens. */
static void every_bit(struct call *c)
{
    for (size_t bit = 0; bit < 8 * c->message.len; bit++) {
        uint8_t mask = (uint8_t)(1 << bit % 8);
        begin_case(bit);
        c->message.at[bit / 8] ^= mask;
        expect_answer(c, number_of_byte(c, bit / 8), "a changed bit");
        c->message.at[bit / 8] ^= mask;
    }
    expect_answer(c, 0, "the message as it was sealed");
}

static void sealed_here(uint16_t dialect, uint16_t cipher, size_t n)
{
    struct call c = plain_call(SEAL, cipher, n);
    set_dialect(&c, dialect);
    fill(c.message.at + TRANSFORM + HEADER, n - HEADER);
    expect_answer(&c, 0, "sealing");
    c.function = OPEN;
    every_bit(&c);
}

static void published(const struct transform *t)
{
    struct call c = plain_call(OPEN, t->cipher, t->message.len - TRANSFORM);
    c.id = t->id;
    memcpy(c.key.at, t->key, 16);
    memcpy(c.message.at, t->message.at, t->message.len);
    every_bit(&c);
}

int main(int argc, char **argv)
{
    begin(argc, argv);
    for (uint16_t cipher = 1; cipher <= 4; cipher++)
        for (size_t n = HEADER; n <= 120; n += 7) sealed_here(0x0311, cipher, n);
    sealed_here(0x0300, 1, 100);
    sealed_here(0x0302, 2, 100);
    sealed_here(0x0302, 4, 100);
    for (size_t i = 0; i < COUNT(transforms); i++) published(&transforms[i]);
    return finish();
}
