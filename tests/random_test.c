/*
 * Random calls of the functions, by the library and by the model: the same answers, and the same bytes and numbers in all that
 * was lent. At the end every number that a function can answer must have come up, but 3: lengths_test.c has it; and, often, break notices
 * that are sealed and opened, each of the four ciphers on 3.1.1, and material that is too long for one of 256 bits.
 *
 * Usage: random_test [SEED [CASES [FIRST]]]: a case is made again by its number, with CASES 1.
 */
#include <stdlib.h>
#include <string.h>

#include "check.h"
#include "generate.h"
#include "messages.h"

enum { CASES = 200000, NUMBERS = 41, ENOUGH = 20000, CIPHERS = 4 };

static unsigned long seen[FUNCTIONS][NUMBERS], notices[FUNCTIONS], done[FUNCTIONS][1 + CIPHERS], long_material;

/* Whether the first inner header, where it is in clear, has another id than the call's. */
static int names_another(const struct call *c)
{
    uint8_t id[8];
    put(id, c->id, 8);
    return c->message.len >= TRANSFORM + HEADER && memcmp(c->message.at + TRANSFORM + 40, id, 8) != 0;
}

static const struct { enum function function; uint32_t number; } answers[] = {
    {DERIVE, 0}, {DERIVE, 18}, {DERIVE, 19}, {DERIVE, 40}, {FOLD, 0}, {FOLD, 23}, {FOLD, 40}, {FOLD_RESPONSE, 0},
    {FOLD_RESPONSE, 23}, {FOLD_RESPONSE, 40}, {SEAL, 0}, {SEAL, 1}, {SEAL, 2}, {SEAL, 11}, {SEAL, 12}, {SEAL, 13}, {SEAL, 14},
    {SEAL, 15}, {SEAL, 16}, {SEAL, 17}, {SEAL, 40}, {OPEN, 0}, {OPEN, 1}, {OPEN, 2}, {OPEN, 4}, {OPEN, 5}, {OPEN, 6}, {OPEN, 9},
    {OPEN, 10}, {OPEN, 11}, {OPEN, 12}, {OPEN, 13}, {OPEN, 14}, {OPEN, 15}, {OPEN, 16}, {OPEN, 29}, {OPEN, 40},
    {SIGN, 0}, {SIGN, 11}, {SIGN, 12}, {SIGN, 40}, {VERIFY, 0}, {VERIFY, 11}, {VERIFY, 12}, {VERIFY, 24}, {VERIFY, 25}, {VERIFY, 40},
};

int main(int argc, char **argv)
{
    unsigned long cases = argc > 2 ? strtoul(argv[2], NULL, 0) : CASES, first = argc > 3 ? strtoul(argv[3], NULL, 0) : 0;
    begin(argc, argv);
    for (unsigned long i = first; i < first + cases; i++) {
        begin_case(i);
        struct call c = generate();
        int another = names_another(&c);
        uint32_t r = compare(&c, &heap);
        if (c.function == OPEN) another = names_another(&c);
        if (r == 0 && another) notices[c.function]++;
        if (r >= NUMBERS) fail("a number that the rules do not have", r);
        seen[c.function][r]++;
        if (r == 0 && c.dialect == 0x0311 && c.cipher <= CIPHERS) done[c.function][c.cipher]++;
        if (r == 19 && c.key.len > 0) long_material++;
    }
    for (size_t i = 0; i < COUNT(answers) && cases >= ENOUGH; i++)
        expect(seen[answers[i].function][answers[i].number] >= 10, "an answer that hardly came up", answers[i].number);
    for (enum function f = SEAL; f <= OPEN && cases >= ENOUGH; f++)
        expect(notices[f] >= cases / 400, "break notices hardly came up", notices[f]);
    for (uint16_t cipher = 1; cipher <= CIPHERS && cases >= ENOUGH; cipher++) {
        expect(done[SEAL][cipher] >= cases / 200 && done[OPEN][cipher] >= cases / 200, "a cipher that hardly came up", cipher);
        expect(done[DERIVE][cipher] >= cases / 400, "a cipher whose keys hardly came up", cipher);
    }
    if (cases >= ENOUGH) expect(long_material >= cases / 20000, "material that is too long hardly came up", long_material);
    return finish();
}
